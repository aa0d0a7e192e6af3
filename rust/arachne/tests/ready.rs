//! While a worker is in a long poll (the *blocking* poll), others must run the ready tasks *behind* that poll: those in
//! the local queues and task slots of the poll's worker.
use arachne::{block_on, net, sleep, spawn, yield_now, Builder, JoinHandle, Policy, Runtime, Semaphore};
use std::io::{Read, Write};
use std::os::unix::net::UnixStream;
use std::sync::atomic::{AtomicBool, AtomicUsize, Ordering::*};
use std::sync::{Arc, Mutex};
use std::thread;
use std::time::{Duration, Instant};

const MS: Duration = Duration::from_millis(1);
/// The blocking poll ends after this time even if some task has not begun. No wait for a processor takes as long.
const POLL: Duration = Duration::from_secs(2);
/// With free processors, each task behind the poll must begin within this time, even if the free workers sleep.
const SOON: Duration = Duration::from_millis(5);
const LONG: Duration = Duration::from_secs(60);
const CORES: usize = 3;
const BEHIND: usize = 8;

fn until(what: &str, most: Duration, done: impl Fn() -> bool) {
    let start = Instant::now();
    while !done() {
        assert!(start.elapsed() < most, "{what} takes too long");
        thread::sleep(MS / 10);
    }
}

/// One repetition of a test: the number of tasks behind the blocking poll, and the time after which each began.
#[derive(Clone)]
struct Seen(Arc<Marks>);

#[derive(Default)]
struct Marks {
    behind: usize,
    blocks: AtomicBool,
    since: Mutex<Option<Instant>>,
    began: Mutex<Vec<Duration>>,
}

impl Seen {
    fn of(behind: usize) -> Seen {
        Seen(Arc::new(Marks { behind, ..Marks::default() }))
    }

    /// The first call blocks its worker until all tasks have begun, at most for `POLL`. Later calls record their time.
    fn begins(&self) {
        let now = Instant::now();
        if !self.0.blocks.swap(true, SeqCst) {
            *self.0.since.lock().unwrap() = Some(now);
            while now.elapsed() < POLL && !self.have_begun() {
                thread::sleep(MS / 10);
            }
            return;
        }
        let since = self.0.since.lock().unwrap().unwrap_or(now);
        self.0.began.lock().unwrap().push(now.saturating_duration_since(since));
    }

    fn have_begun(&self) -> bool {
        self.0.began.lock().unwrap().len() == self.0.behind
    }

    /// Returns the time after which the last task began. Fails if the blocking poll ends before that.
    fn last(&self) -> Duration {
        until("what is behind a poll", LONG, || self.have_begun());
        let last = *self.0.began.lock().unwrap().iter().max().unwrap();
        assert!(last < POLL, "{last:?}: what is ready waits for the end of another's poll");
        last
    }

    fn is_blocked(&self) -> bool {
        self.0.since.lock().unwrap().is_some()
    }
}

struct Busy(Arc<AtomicBool>, Vec<JoinHandle<()>>);

impl Busy {
    fn keep(runtime: &Runtime, workers: usize) -> Busy {
        let (end, begun) = (Arc::new(AtomicBool::new(false)), Arc::new(AtomicUsize::new(0)));
        let keep = |_| {
            let (end, begun) = (end.clone(), begun.clone());
            runtime.spawn(async move {
                begun.fetch_add(1, SeqCst);
                until("the end of a poll", LONG, || end.load(SeqCst));
            })
        };
        let tasks = (0..workers).map(keep).collect();
        until("the beginning of polls", LONG, || begun.load(SeqCst) == workers);
        Busy(end, tasks)
    }

    fn let_go(self) {
        self.0.store(true, SeqCst);
        self.1.into_iter().for_each(|task| block_on(task).unwrap());
    }
}

/// A thread that sleeps again and again. It returns when it last woke late, because no processor was free.
struct Calm(Arc<AtomicBool>, thread::JoinHandle<Option<Instant>>);

impl Calm {
    fn watch() -> Calm {
        let end = Arc::new(AtomicBool::new(false));
        let ends = end.clone();
        let watch = move || {
            let mut late = None;
            while !ends.load(SeqCst) {
                let start = Instant::now();
                thread::sleep(MS);
                late = Some(Instant::now()).filter(|_| start.elapsed() > 2 * MS).or(late);
            }
            late
        };
        Calm(end, thread::spawn(watch))
    }

    fn was_since(self, moment: Option<Instant>) -> bool {
        self.0.store(true, SeqCst);
        self.1.join().unwrap() < moment
    }
}

/// Each time, all tasks behind the blocking poll must begin before that poll ends. If the machine had free processors
/// in at least six repetitions, the tasks must begin within `soon` in half of these repetitions.
fn rounds(soon: Duration, behind: usize, round: impl Fn(&Runtime, &Seen, Duration)) {
    let runtime = Runtime::new(CORES);
    let (mut calm, mut late) = (0, Vec::new());
    for i in 0..40 {
        let (seen, watch) = (Seen::of(behind), Calm::watch());
        round(&runtime, &seen, [MS / 4, 5 * MS, 30 * MS][i % 3]);
        let last = seen.last();
        if watch.was_since(*seen.0.since.lock().unwrap()) {
            calm += 1;
            late.extend(Some(last).filter(|&last| last > soon));
        }
        if calm == 12 {
            break;
        }
    }
    assert!(calm < 6 || late.len() * 2 <= calm, "in {calm} calm rounds late: {late:?}");
}

/// While a task's poll blocks its worker, tasks that yielded there earlier are run by the other workers, once these are
/// no longer busy.
#[test]
fn what_has_yielded_is_run() {
    // A worker that becomes free checks for the tasks that have yielded before it sleeps.
    rounds(MS, BEHIND, |runtime, seen, pause| {
        thread::sleep(pause);
        let others = Busy::keep(runtime, CORES - 1);
        let all = seen.clone();
        let task = runtime.spawn(async move {
            let yields = |_| {
                let seen = all.clone();
                spawn(async move {
                    yield_now().await;
                    seen.begins();
                })
            };
            let tasks: Vec<_> = (0..BEHIND).map(yields).collect();
            yield_now().await;
            all.begins();
            for task in tasks {
                task.await.unwrap();
            }
        });
        until("the poll", LONG, || seen.is_blocked());
        others.let_go();
        block_on(task).unwrap();
    });
}

/// Other workers must run the tasks behind the blocking poll, even the one that would run next on that poll's worker.
#[test]
fn what_is_next_is_run() {
    for asleep in [true, false] {
        rounds(SOON, BEHIND, |runtime, seen, pause| {
            thread::sleep(pause);
            let others = Busy::keep(runtime, if asleep { 0 } else { CORES - 1 });
            let all = seen.clone();
            let task = runtime.spawn(async move {
                let waits = |_| {
                    let seen = all.clone();
                    spawn(async move {
                        until("the poll", LONG, || seen.is_blocked());
                        seen.begins();
                    })
                };
                let tasks: Vec<_> = (0..BEHIND).map(waits).collect();
                all.begins();
                for task in tasks {
                    task.await.unwrap();
                }
            });
            until("the poll", LONG, || seen.is_blocked());
            others.let_go();
            block_on(task).unwrap();
        });
    }
}

/// After all workers have slept 100 ms, a task spawns another and blocks. A second worker must soon run the new task.
#[test]
fn what_is_next_is_run_after_a_long_sleep() {
    rounds(SOON, 1, |runtime, seen, _| {
        thread::sleep(100 * MS);
        let all = seen.clone();
        let task = runtime.spawn(async move {
            let seen = all.clone();
            let next = spawn(async move { seen.begins() });
            all.begins();
            next.await.unwrap();
        });
        block_on(task).unwrap();
    });
}

/// One worker gets the events of all tasks' sockets while the other workers are busy, and its first task blocks. Once
/// free, the others must run the other tasks.
#[test]
fn what_was_told_of_is_run() {
    rounds(SOON, BEHIND, |runtime, seen, pause| {
        let listener = std::net::TcpListener::bind("127.0.0.1:0").unwrap();
        let (mut ours, mut tasks) = (Vec::new(), Vec::new());
        for _ in 0..BEHIND + 1 {
            ours.push(std::net::TcpStream::connect(listener.local_addr().unwrap()).unwrap());
            let stream = listener.accept().unwrap().0;
            let (stream, seen) = (runtime.enter(|| net::TcpStream::from_std(stream)).unwrap(), seen.clone());
            tasks.push(runtime.spawn(async move {
                stream.read_exact(&mut [0]).await.unwrap();
                seen.begins();
            }));
        }
        until("tasks that wait", LONG, || runtime.stats().workers.iter().map(|w| w.idle).min().unwrap() > MS / 100);
        thread::sleep(pause + MS);
        let (one, others) = (Busy::keep(runtime, 1), Busy::keep(runtime, CORES - 1));
        ours.iter_mut().for_each(|stream| stream.write_all(b"x").unwrap());
        one.let_go();
        until("the poll", LONG, || seen.is_blocked());
        others.let_go();
        tasks.into_iter().for_each(|task| block_on(task).unwrap());
    });
}

/// The worker in the epoll gets the events of all tasks' sockets, and its first task blocks. The sleeping workers must
/// run the other tasks.
#[test]
fn what_was_told_of_is_run_by_who_sleeps() {
    rounds(SOON, BEHIND, |runtime, seen, pause| {
        let (mut ours, theirs) = UnixStream::pair().unwrap();
        let waits = |_| {
            let stream = theirs.try_clone().unwrap();
            let (stream, seen) = (runtime.enter(|| net::Async::new(stream)).unwrap(), seen.clone());
            runtime.spawn(async move {
                stream.read_with(|mut stream| stream.read(&mut [0])).await.unwrap();
                seen.begins();
            })
        };
        let tasks: Vec<_> = (0..BEHIND + 1).map(waits).collect();
        thread::sleep(pause + MS);
        ours.write_all(&[0; BEHIND + 1]).unwrap();
        tasks.into_iter().for_each(|task| block_on(task).unwrap());
    });
}

/// Workers steal the tasks of a worker in a poll, and the first stolen task blocks its thief. All tasks must soon
/// begin.
#[test]
fn what_was_taken_of_a_worker_that_does_not_get_on_is_run() {
    for asleep in [true, false] {
        rounds(SOON, BEHIND, |runtime, seen, pause| {
            thread::sleep(pause);
            let others = Busy::keep(runtime, if asleep { 0 } else { CORES - 1 });
            let (all, stuck) = (seen.clone(), Arc::new(AtomicBool::new(false)));
            let at_it = stuck.clone();
            let task = runtime.spawn(async move {
                let begins = |_| {
                    let seen = all.clone();
                    spawn(async move { seen.begins() })
                };
                let tasks: Vec<_> = (0..BEHIND + 1).map(begins).collect();
                at_it.store(true, SeqCst);
                until("what is ready", LONG, || all.have_begun());
                for task in tasks {
                    task.await.unwrap();
                }
            });
            until("a poll", LONG, || stuck.load(SeqCst));
            others.let_go();
            block_on(task).unwrap();
        });
    }
}

/// A worker that is never idle must also run the tasks behind the only other worker's poll.
#[test]
fn what_is_behind_is_run_by_one_that_is_busy() {
    let runtime = Runtime::new(2);
    for _ in 0..5 {
        let end = Arc::new(AtomicBool::new(false));
        let (ends, seen) = (end.clone(), Seen::of(BEHIND));
        let busy = Busy::keep(&runtime, 1);
        let all = seen.clone();
        let task = runtime.spawn(async move {
            let yields = |at| {
                let seen = all.clone();
                spawn(async move {
                    if at != 0 {
                        yield_now().await;
                    }
                    seen.begins();
                })
            };
            let tasks: Vec<_> = (1..BEHIND).map(yields).collect();
            yield_now().await;
            let next = yields(0);
            all.begins();
            for task in tasks.into_iter().chain([next]) {
                task.await.unwrap();
            }
        });
        until("the poll", LONG, || seen.is_blocked());
        let spins = runtime.spawn(async move {
            while !ends.load(SeqCst) {
                yield_now().await;
            }
        });
        busy.let_go();
        seen.last();
        end.store(true, SeqCst);
        block_on(task).unwrap();
        block_on(spins).unwrap();
    }
}

/// Yielding tasks are stolen from local queues all the time. Each part between two yields must run once, on one worker.
#[test]
fn a_job_is_taken_once() {
    let runtime = Runtime::new(4);
    for round in 0..40 {
        let (polls, turns) = (Arc::new(AtomicUsize::new(0)), 200);
        let tasks: Vec<_> = (0..9 + round % 5)
            .map(|_| {
                let polls = polls.clone();
                runtime.spawn(async move {
                    let inside = AtomicBool::new(false);
                    for turn in 0..turns {
                        assert!(!inside.swap(true, SeqCst), "polled by two at once");
                        polls.fetch_add(1, SeqCst);
                        (0..turn % 7 * 20).for_each(|_| std::hint::spin_loop());
                        inside.store(false, SeqCst);
                        yield_now().await;
                    }
                })
            })
            .collect();
        let count = tasks.len();
        tasks.into_iter().for_each(|task| block_on(task).unwrap());
        assert_eq!(polls.load(SeqCst), count * turns);
    }
}

/// While the only worker is in a poll, the watcher (a kernel thread) must run the ready tasks.
#[test]
fn the_watcher_runs_what_is_behind() {
    let runtime = Builder::new(1).watch_polls(10 * MS, false).build().unwrap();
    for _ in 0..5 {
        let ran = Arc::new(AtomicUsize::new(0));
        let count = ran.clone();
        block_on(runtime.spawn(async move {
            let runs = |_| {
                let ran = count.clone();
                spawn(async move {
                    ran.fetch_add(1, SeqCst);
                })
            };
            let tasks: Vec<_> = (0..BEHIND).map(runs).collect();
            until("what is ready", LONG, || count.load(SeqCst) == BEHIND);
            for task in tasks {
                task.await.unwrap();
            }
        }))
        .unwrap();
    }
}

/// The only active worker is in a poll, and so is the second, which covers for it. The watcher (a kernel thread that
/// watches polls) must run the tasks of the inactive third worker, and fire its timers.
#[test]
fn the_watcher_looks_after_a_core_that_was_given_back() {
    let runtime = Builder::new(3).policy(Policy::default()).watch_polls(10 * MS, false).build().unwrap();
    let (gate, ran) = (Arc::new(Semaphore::new(0)), Arc::new(AtomicUsize::new(0)));
    let waits = |at| {
        let (gate, ran) = (gate.clone(), ran.clone());
        runtime.spawn(async move {
            // The pause lets all workers begin some of the tasks.
            thread::sleep(MS);
            match at % 2 {
                0 => sleep(3000 * MS).await,
                _ => gate.acquire().await.unwrap().forget(),
            }
            ran.fetch_add(1, SeqCst);
        })
    };
    // Some of these tasks are in task slots of each worker.
    let mut tasks: Vec<_> = (0..48).map(waits).collect();
    until("a core that is given back", LONG, || runtime.stats().active == 1);
    for name in ["arachne-0", "arachne-1"] {
        let blocks = Arc::new(AtomicBool::new(false));
        while !blocks.load(SeqCst) {
            let (blocks, ran) = (blocks.clone(), ran.clone());
            tasks.push(runtime.spawn(async move {
                if thread::current().name() == Some(name) && !blocks.swap(true, SeqCst) {
                    until("what is ready", LONG, || ran.load(SeqCst) == 48);
                }
            }));
            thread::sleep(MS);
        }
    }
    thread::sleep(100 * MS);
    gate.add_permits(24);
    tasks.into_iter().for_each(|task| block_on(task).unwrap());
}

/// While the only active worker is in a poll, an inactive one must run ready tasks, handle sockets, and fire timers.
#[test]
fn a_worker_without_a_core_covers_for_the_only_one_with_one() {
    let runtime = Builder::new(2).policy(Policy::default()).build().unwrap();
    for _ in 0..5 {
        until("a core that is given back", LONG, || runtime.stats().active == 1);
        let ran = Arc::new(AtomicUsize::new(0));
        let (mut far, near) = UnixStream::pair().unwrap();
        near.set_nonblocking(true).unwrap();
        block_on(runtime.spawn(async move {
            let counts = || {
                let ran = ran.clone();
                move || ran.fetch_add(1, SeqCst)
            };
            let (ready, timer, socket) = (counts(), counts(), counts());
            let near = net::UnixStream::from_std(near).unwrap();
            let tasks = [
                spawn(async move { ready() }),
                spawn(async move {
                    sleep(5 * MS).await;
                    timer()
                }),
                spawn(async move {
                    near.read(&mut [0]).await.unwrap();
                    socket()
                }),
            ];
            // The yield lets each of these tasks begin to wait, unless another worker runs it.
            yield_now().await;
            far.write_all(b"x").unwrap();
            until("what waits behind a poll", LONG, || ran.load(SeqCst) == 3);
            for task in tasks {
                task.await.unwrap();
            }
        }))
        .unwrap();
    }
}
