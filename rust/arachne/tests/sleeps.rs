//! Tests of how workers sleep and are woken. One waits in the epoll, one (the deputy) polls it now and then, and the
//! others only wait to be woken.
use arachne::{block_on, net, sleep, spawn, spawn_balanced, yield_now, Builder, Runtime, Semaphore};
use std::io::{Read, Write};
use std::net::SocketAddr;
use std::sync::atomic::{AtomicBool, AtomicUsize, Ordering::*};
use std::sync::{Arc, Mutex};
use std::thread;
use std::time::{Duration, Instant};

const MS: Duration = Duration::from_millis(1);
const LONG: Duration = Duration::from_secs(120);

/// A server that echoes each byte. A byte `b` also blocks the worker until `ends` is set, and increments `blocked`.
fn echo(runtime: &Runtime, ends: &Arc<AtomicBool>, blocked: &Arc<AtomicUsize>) -> SocketAddr {
    let listener = net::TcpListener::bind("127.0.0.1:0").unwrap();
    let at = listener.local_addr().unwrap();
    let (ends, blocked) = (ends.clone(), blocked.clone());
    runtime.spawn(async move {
        while let Ok((stream, _)) = listener.accept().await {
            let (ends, blocked) = (ends.clone(), blocked.clone());
            spawn_balanced(async move {
                let mut byte = [0];
                while stream.read_exact(&mut byte).await.is_ok() {
                    if byte == *b"b" {
                        blocked.fetch_add(1, SeqCst);
                        while !ends.load(SeqCst) {
                            thread::sleep(MS);
                        }
                    }
                    stream.write_all(&byte).await.unwrap();
                }
            });
        }
    });
    at
}

fn connect(to: SocketAddr) -> std::net::TcpStream {
    let stream = std::net::TcpStream::connect(to).unwrap();
    stream.set_nodelay(true).unwrap();
    stream.set_read_timeout(Some(LONG)).unwrap();
    stream
}

fn ask(stream: &mut std::net::TcpStream, byte: u8) {
    stream.write_all(&[byte]).unwrap();
    answer(stream, byte);
}

fn answer(stream: &mut std::net::TcpStream, wanted: u8) {
    let mut byte = [0];
    stream.read_exact(&mut byte).unwrap();
    assert_eq!(byte, [wanted]);
}

fn until(done: impl Fn() -> bool) {
    while !done() {
        thread::sleep(MS / 4);
    }
}

/// One worker after the other enters an endless poll, first the one that waited in the epoll, until one worker is left.
/// The events of all sockets must still be handled.
#[test]
fn sockets_are_seen_beside_polls_that_block() {
    for (cores, pause) in (2..5).flat_map(|cores| [(cores, MS / 4), (cores, 20 * MS)]) {
        let (runtime, ends, blocked) = (Runtime::new(cores), Arc::default(), Arc::default());
        let at = echo(&runtime, &ends, &blocked);
        let mut before = connect(at);
        ask(&mut before, 1);
        let mut blockers: Vec<_> = (1..cores)
            .map(|i| {
                let mut stream = connect(at);
                ask(&mut stream, 2);
                // All workers sleep, so the worker in the epoll gets this event.
                thread::sleep(pause);
                stream.write_all(b"b").unwrap();
                until(|| blocked.load(SeqCst) == i);
                stream
            })
            .collect();
        (0..20).for_each(|i| ask(&mut before, i));
        (0..20).for_each(|i| ask(&mut connect(at), i));
        ends.store(true, SeqCst);
        blockers.iter_mut().for_each(|stream| answer(stream, b'b'));
    }
}

/// More sockets become ready at once than one poll of the epoll returns, or than a worker's local queues have room for.
/// All clients must get their answers.
#[test]
fn more_is_told_at_once_than_one_worker_takes() {
    for cores in 1..4 {
        let (runtime, ends, blocked) = (Runtime::new(cores), Arc::default(), Arc::default());
        let at = echo(&runtime, &ends, &blocked);
        let mut streams: Vec<_> = (0..150).map(|_| connect(at)).collect();
        for round in 0..5 {
            streams.iter_mut().for_each(|stream| ask(stream, round));
            ends.store(false, SeqCst);
            blocked.store(0, SeqCst);
            let (blockers, others) = streams.split_at_mut(cores);
            for (i, stream) in blockers.iter_mut().enumerate() {
                stream.write_all(b"b").unwrap();
                until(|| blocked.load(SeqCst) == i + 1);
            }
            others.iter_mut().for_each(|stream| stream.write_all(&[round]).unwrap());
            ends.store(true, SeqCst);
            blockers.iter_mut().for_each(|stream| answer(stream, b'b'));
            others.iter_mut().for_each(|stream| answer(stream, round));
        }
    }
}

/// A worker that polls the epoll now and then must not take the event that wakes the worker that waits there.
#[test]
fn a_wake_of_who_waits_is_left_to_it() {
    let runtime = Runtime::new(2);
    let at = echo(&runtime, &Arc::default(), &Arc::default());
    let mut stream = connect(at);
    ask(&mut stream, 1);
    for round in (0..240).map(|round| round % 60) {
        let [blocks, blocked, ends] = [(); 3].map(|()| Arc::new(AtomicBool::new(false)));
        let (block, told, end) = (blocks.clone(), blocked.clone(), ends.clone());
        let busy = runtime.spawn(async move {
            while !block.load(SeqCst) {
                yield_now().await;
            }
            told.store(true, SeqCst);
            while !end.load(SeqCst) {
                thread::sleep(MS);
            }
        });
        for _ in 0..20 {
            thread::sleep(MS / 8);
            block_on(runtime.spawn(async {})).unwrap();
        }
        // Half of these tasks are in slots of the other worker, which is woken while this worker polls the epoll.
        let begun: Vec<_> = (0..32).map(|_| runtime.spawn(async {})).collect();
        blocks.store(true, SeqCst);
        until(|| blocked.load(SeqCst));
        begun.into_iter().for_each(|task| block_on(task).unwrap());
        // The other worker can still be woken.
        let gate = Arc::new(Semaphore::new(0));
        let waits: Vec<_> = (0..64)
            .map(|_| {
                let gate = gate.clone();
                runtime.spawn(async move { gate.acquire().await.unwrap().forget() })
            })
            .collect();
        gate.add_permits(64);
        waits.into_iter().for_each(|task| block_on(task).unwrap());
        ask(&mut stream, round);
        ends.store(true, SeqCst);
        block_on(busy).unwrap();
    }
}

fn blocks(flag: &AtomicBool) {
    let start = Instant::now();
    while !flag.load(SeqCst) {
        assert!(start.elapsed() < LONG, "what is ready waits for the end of another's poll");
        thread::sleep(MS / 4);
    }
}

/// A worker is in a poll that waits for tasks of its own local queues, even for the task to run next. Another worker
/// must run these tasks, whether it sleeps already or falls asleep later.
#[test]
fn what_is_in_hand_is_run_beside_a_poll_that_blocks() {
    for (cores, pause) in (2..5).flat_map(|cores| [(cores, MS / 4), (cores, 20 * MS)]) {
        let runtime = Runtime::new(cores);
        for asleep in [true, false] {
            thread::sleep(pause);
            let begin = Arc::new(AtomicBool::new(asleep));
            // In the second case, the other workers are in polls until the first worker's local queues are filled.
            for _ in 1..if asleep { 1 } else { cores } {
                let (begin, beginning) = (begin.clone(), Arc::new(AtomicBool::new(false)));
                let begun = beginning.clone();
                runtime.spawn(async move {
                    begun.store(true, SeqCst);
                    blocks(&begin);
                });
                blocks(&beginning);
            }
            let task = runtime.spawn(async move {
                // These tasks yield, and stay in the local queue while the task that was spawned before them blocks.
                let yielded: Vec<_> =
                    (0..if asleep { 1 } else { 5 }).map(|_| Arc::new(AtomicBool::new(false))).collect();
                let tasks = yielded.iter().cloned().map(|flag| async move {
                    yield_now().await;
                    flag.store(true, SeqCst);
                });
                let tasks: Vec<_> = tasks.map(spawn).collect();
                yield_now().await;
                let blocked = spawn(async move {
                    begin.store(true, SeqCst);
                    yielded.iter().for_each(|flag| blocks(flag));
                });
                blocked.await.unwrap();
                for task in tasks {
                    task.await.unwrap();
                }
                // The poll has lasted long already. It makes these tasks ready now, and waits for each of them.
                for _ in 0..3 {
                    let ran = Arc::new(AtomicBool::new(false));
                    let runs = ran.clone();
                    spawn(async move { runs.store(true, SeqCst) });
                    blocks(&ran);
                }
            });
            block_on(task).unwrap();
        }
    }
}

/// If a poll blocks until a timer of its worker has fired, another worker must fire that timer.
#[test]
fn timers_are_seen_beside_a_poll_that_blocks() {
    for cores in 2..5 {
        let runtime = Runtime::new(cores);
        for pause in [MS / 4, 20 * MS] {
            thread::sleep(pause);
            block_on(runtime.spawn(async {
                let (fired, fires) = (Arc::new(AtomicBool::new(false)), Arc::new(AtomicBool::new(false)));
                let (tells, sleeping) = (fired.clone(), fires.clone());
                let sleeps = spawn(async move {
                    fires.store(true, SeqCst);
                    sleep(5 * MS).await;
                    tells.store(true, SeqCst);
                });
                while !sleeping.load(SeqCst) {
                    yield_now().await;
                }
                blocks(&fired);
                sleeps.await.unwrap();
            }))
            .unwrap();
        }
    }
}

/// Returns how often the threads with these folders in `/proc` have gone to sleep in all.
fn sleeps(threads: &[String]) -> u64 {
    let of = |thread: &String| {
        let text = std::fs::read_to_string(format!("/proc/{thread}/status")).unwrap();
        let line = text.lines().find(|line| line.starts_with("voluntary_ctxt_switches")).unwrap();
        line.split_whitespace().nth(1).unwrap().parse::<u64>().unwrap()
    };
    threads.iter().map(of).sum()
}

fn at_each_worker<T: Send + 'static>(runtime: &Runtime, cores: usize, about: fn() -> T) -> Vec<T> {
    let all: Arc<Mutex<Vec<T>>> = Arc::default();
    let each = all.clone();
    block_on(runtime.spawn(async move {
        for _ in 0..cores {
            let all = each.clone();
            spawn_balanced(async move {
                all.lock().unwrap().push(about());
                // Each task waits for all others, so that each worker gets one of them.
                until(|| all.lock().unwrap().len() == cores);
            });
        }
    }))
    .unwrap();
    until(|| Arc::strong_count(&all) == 1);
    Arc::try_unwrap(all).ok().unwrap().into_inner().unwrap()
}

#[test]
fn an_idle_runtime_sleeps_on() {
    let runtime = Runtime::new(3);
    let at = echo(&runtime, &Arc::default(), &Arc::default());
    let mut stream = connect(at);
    ask(&mut stream, 1);
    let threads =
        at_each_worker(&runtime, 3, || std::fs::read_link("/proc/thread-self").unwrap().to_str().unwrap().to_string());
    thread::sleep(600 * MS);
    let (before, parks) = (sleeps(&threads), runtime.stats().parks);
    thread::sleep(400 * MS);
    let (after, parked) = (sleeps(&threads), runtime.stats().parks);
    // While it sleeps, a worker checks the others after 1, 2, 4 .. milliseconds. These checks are over by now.
    assert!(after - before < 40 && parked - parks < 10, "{} sleeps, {} parks", after - before, parked - parks);
    ask(&mut stream, 2);
}

fn slice() -> Option<u64> {
    let text = std::fs::read_to_string("/proc/thread-self/sched").ok()?;
    text.lines().find(|line| line.starts_with("se.slice "))?.split(':').nth(1)?.trim().parse().ok()
}

#[test]
fn workers_ask_for_short_slices() {
    let release = std::fs::read_to_string("/proc/sys/kernel/osrelease").unwrap();
    let mut numbers = release.split(|c: char| !c.is_ascii_digit()).map(|word| word.parse::<u32>().unwrap_or(0));
    let (is_new, usual) = ((numbers.next(), numbers.next()) >= (Some(6), Some(12)), slice());
    if !is_new || usual.is_none() {
        return;
    }
    let asked = |builder: Builder| at_each_worker(&builder.build().unwrap(), 2, slice);
    assert_eq!(asked(Builder::new(2)), [Some(100_000); 2]);
    assert_eq!(asked(Builder::new(2).slices(Some(MS))), [Some(1_000_000); 2]);
    assert_eq!(asked(Builder::new(2).slices(None)), [usual; 2]);
}
