//! Programs of about three threads (*loads*), which the explorer, a test, runs in many orders of the threads' steps.

use arachne::net::Async;
use arachne::{
    block_on, channel, poll_fn, sleep, spawn, spawn_balanced, spawn_blocking, stopping, timeout, yield_now, Builder,
    JoinError, JoinHandle, JoinSet, Lock, Policy, Runtime, Semaphore,
};
use explorer::{choose, lose_processor, now, thread, told, Arc, Condvar, Instant, Mutex};
use std::future::Future;
use std::io::{Read, Write};
use std::os::unix::net::UnixStream;
use std::pin::Pin;
use std::task::{Context, Poll, Wake};
use std::time::Duration;

#[global_allocator]
static MEMORY: explorer::Memory = explorer::Memory;

const MS: Duration = Duration::from_millis(1);
const LONG: Duration = Duration::from_millis(500);

/// Returns a runtime with few task slots, so that a task may have to wait for one.
fn runtime(workers: usize) -> Runtime {
    Builder::new(workers).places(4 * workers).slices(None).build().unwrap()
}

#[derive(Default)]
struct Count(Mutex<usize>, Condvar);

impl Count {
    fn add(&self) {
        *self.0.lock().unwrap() += 1;
        self.1.notify_all();
    }
    fn await_all(&self, most: usize) {
        drop(self.1.wait_while(self.0.lock().unwrap(), |count| *count < most).unwrap());
    }
    fn is(&self, wanted: usize) {
        assert_eq!(*self.0.lock().unwrap(), wanted);
    }
}

/// A thread that is no worker spawns tasks while the workers fall asleep. Each task must run once.
fn sleepers() {
    let (runtime, ran) = (runtime(2), Arc::new(Count::default()));
    for round in 0..3 {
        let (one, other) = (ran.clone(), ran.clone());
        let task = runtime.spawn(async move { one.add() });
        let late = runtime.spawn(async move {
            yield_now().await;
            other.add();
        });
        runtime.block_on(task).unwrap();
        runtime.block_on(late).unwrap();
        ran.is(2 * round + 2);
    }
}

/// If workers sleep, a task that is spawned or woken must run at once.
fn prompt() {
    let (runtime, gate) = (runtime(2 + choose(2)), Arc::new(Semaphore::new(0)));
    for _ in 0..3 {
        let wants = gate.clone();
        let waits = runtime.spawn(async move { wants.acquire().await.unwrap().forget() });
        thread::sleep(choose(12) as u32 * MS);
        let (since, releases) = (now(), gate.clone());
        let task = runtime.spawn(async move {
            let spawned = spawn_balanced(async { yield_now().await });
            releases.add_permits(1);
            spawned.await.unwrap();
        });
        runtime.block_on(waits).unwrap();
        runtime.block_on(task).unwrap();
        assert!(now() - since < 300_000, "after {} us", (now() - since) / 1000);
    }
}

/// There are as many tasks as workers, and each blocks its worker until all have begun. So each worker must run one.
fn hands() {
    let (runtime, begun) = (runtime(2), Arc::new(Count::default()));
    for round in 1..3 {
        let each = begun.clone();
        runtime.spawn(async move {
            for _ in 0..2 {
                let begun = each.clone();
                spawn_balanced(async move {
                    begun.add();
                    begun.await_all(2 * round);
                });
            }
        });
        begun.await_all(2 * round);
    }
}

impl Wake for Count {
    fn wake(self: Arc<Self>) {
        self.add();
    }
}

fn poll<F: Future + Unpin>(future: &mut F, woken: &Arc<Count>) -> Poll<F::Output> {
    Pin::new(future).poll(&mut Context::from_waker(&woken.clone().into()))
}

struct OnDrop(Arc<Count>);
impl Drop for OnDrop {
    fn drop(&mut self) {
        self.0.add();
    }
}

/// While a task ends, its abort handles are made, cloned and dropped. The task's contents must be dropped exactly once.
fn aborts() {
    let (runtime, dropped) = (runtime(2), Arc::new(Count::default()));
    let within = OnDrop(dropped.clone());
    let task = runtime.spawn(async move {
        yield_now().await;
        within
    });
    let (early, polls) = (task.abort_handle(), choose(3));
    let copies = early.clone();
    let other = thread::Builder::new().spawn(move || {
        let also = copies.clone();
        if choose(2) == 0 {
            also.abort();
        }
        drop(copies);
        also.is_finished()
    });
    let late = if choose(2) == 0 { Some(task.abort_handle()) } else { None };
    match polls {
        0 => drop((task, early)),
        1 => drop((early, runtime.block_on(task))),
        _ => drop((late, task)),
    }
    let _ = other.unwrap().join().unwrap();
    drop(runtime);
    dropped.is(1);
}

/// The tasks of a set end while another thread joins, aborts and detaches tasks. Each task's end must be returned once.
fn sets() {
    let runtime = runtime(2);
    let waits = runtime.spawn(async {
        let mut set = JoinSet::new();
        for n in 0..3 {
            set.spawn(async move {
                if n == choose(3) {
                    yield_now().await;
                }
                n
            });
        }
        if choose(3) == 0 {
            set.detach_all();
            set.spawn(async { 3 });
        }
        let (wanted, mut joined) = (set.len(), 0);
        if choose(2) == 0 {
            set.abort_all();
        }
        while let Some(output) = set.join_next().await {
            joined += output.map_or_else(|error| error.is_cancelled() as usize, |_| 1);
        }
        assert_eq!(joined, wanted);
    });
    runtime.block_on(waits).unwrap();
}

/// A semaphore is closed while tasks wait and permits are added. No permit may be lost.
fn closing() {
    let (runtime, permits) = (runtime(2), Arc::new(Semaphore::new(choose(2))));
    let tasks: Vec<_> = (0..3).map(|_| runtime.spawn(permits.clone().acquire_owned())).collect();
    let adds = permits.clone();
    let other = thread::Builder::new().spawn(move || adds.add_permits(1));
    permits.close();
    other.unwrap().join().unwrap();
    let held = tasks.into_iter().map(|task| runtime.block_on(task).unwrap()).collect::<Vec<_>>();
    let (free, count) = (permits.available_permits(), held.iter().filter(|permit| permit.is_ok()).count());
    drop(held);
    assert_eq!(permits.available_permits(), free + count);
}

/// Handles spawn tasks while their runtime ends, and another one begins. None of the tasks may run in the new runtime.
fn door() {
    let (first, dropped) = (runtime(2), Arc::new(Count::default()));
    let (handle, within) = (first.handle(), dropped.clone());
    let other = thread::Builder::new().spawn(move || {
        for _ in 0..2 {
            let within = OnDrop(within.clone());
            drop(handle.spawn(async move {
                let _within = within;
                std::future::pending::<()>().await
            }));
        }
    });
    drop(first);
    let next = runtime(2);
    next.block_on(next.spawn(async {})).unwrap();
    other.unwrap().join().unwrap();
    dropped.is(2);
    while next.live() != 0 {
        thread::yield_now();
    }
}

/// A thread resets a sleep while a task waits for it. The task must be woken soon after the new time, not before.
fn resets() {
    let runtime = runtime(2);
    let nap = Arc::new(Mutex::new((sleep(LONG), false)));
    let waits = nap.clone();
    let task = runtime.spawn(poll_fn(move |cx| {
        let mut nap = waits.lock().unwrap();
        nap.1 = Pin::new(&mut nap.0).poll(cx).is_ready();
        if nap.1 {
            Poll::Ready(())
        } else {
            Poll::Pending
        }
    }));
    let mut until = 0;
    for _ in 0..2 {
        thread::sleep(choose(3) as u32 * MS);
        let (mut nap, millis) = (nap.lock().unwrap(), 1 + choose(4) as u32);
        if nap.1 {
            break;
        }
        until = now() + millis as u64 * 1_000_000;
        Pin::new(&mut nap.0).reset(Instant::now() + millis * MS);
    }
    runtime.block_on(task).unwrap();
    assert!(now() + 100_000 >= until && now() < until + SOON, "{} us", (now() as i64 - until as i64) / 1000);
}

/// A ready task must begin within this many nanoseconds of virtual time.
const SOON: u64 = 5_000_000;

/// A poll takes 200 ms. Other workers must soon run the ready tasks behind it, which are in its worker's local queue,
/// would run next there, or are made ready by the poll.
fn behind() {
    let (runtime, begun) = (runtime(2 + choose(2)), Arc::new(Count::default()));
    let each = begun.clone();
    let task = runtime.spawn(async move {
        let begins = || {
            let (begun, since) = (each.clone(), now());
            spawn(async move {
                assert!(now() - since < SOON, "begun after {} us", (now() - since) / 1000);
                begun.add();
            })
        };
        let mut tasks: Vec<_> = (0..5).map(|_| begins()).collect();
        if choose(2) == 0 {
            yield_now().await;
        }
        tasks.push(begins());
        for _ in 0..2 {
            thread::sleep(100 * MS);
            tasks.push(begins());
        }
        for task in tasks {
            task.await.unwrap();
        }
    });
    runtime.block_on(task).unwrap();
    begun.is(8);
}

/// A worker has two ready tasks, one in its local queue and one in a task slot, and begins a long poll. A free worker
/// must run one of the two at once.
fn apart() {
    let (runtime, begun) = (runtime(2), Arc::new(Mutex::new(Vec::new())));
    thread::sleep(choose(12) as u32 * MS);
    let (begins, since) = (begun.clone(), now());
    let task = runtime.spawn(async move {
        let other = begins.clone();
        spawn(async move {
            spawn(async move { other.lock().unwrap().push(now()) });
            spawn(async { thread::sleep(20 * MS) });
        });
        yield_now().await;
        begins.lock().unwrap().push(now());
    });
    runtime.block_on(task).unwrap();
    let late = begun.lock().unwrap()[0] - since;
    assert!(late < 300_000, "after {} us", late / 1000);
}

/// A worker loses its processor in or after a poll. Of its ready tasks at most one, which it had already taken to run,
/// may begin late.
fn stands() {
    stands_on(runtime(2 + choose(2)));
}

/// The only active worker (the one that may run tasks) loses its processor in or after a poll. An inactive worker must
/// then run the first one's ready tasks.
fn covered() {
    let runtime = runtime(2 + choose(2));
    arachne::set_active(&runtime, 1);
    stands_on(runtime);
}

fn stands_on(runtime: Runtime) {
    let (begun, late) = (Arc::new(Count::default()), Arc::new(Count::default()));
    thread::sleep(choose(12) as u32 * MS);
    let (tells, counts) = (begun.clone(), late.clone());
    let begins = move |since: u64| {
        if now() - since >= SOON {
            counts.add();
        }
        tells.add();
    };
    let task = runtime.spawn(async move {
        let (each, since) = (begins.clone(), now());
        spawn(async move {
            for _ in 0..3 {
                let (begins, since) = (each.clone(), now());
                spawn(async move { begins(since) });
            }
            lose_processor(choose(40), 100 * MS);
        });
        yield_now().await;
        begins(since);
    });
    runtime.block_on(task).unwrap();
    begun.await_all(4);
    let late = *late.0.lock().unwrap();
    assert!(late <= 1, "{late} begin late");
}

/// While long polls spawn and wake tasks, other workers must run the tasks in the local queues behind these polls.
fn relief() {
    let (runtime, ran, gate) = (runtime(2), Arc::new(Count::default()), Arc::new(Semaphore::new(0)));
    let task = |waits: u32| {
        let (ran, gate) = (ran.clone(), gate.clone());
        runtime.spawn(async move {
            let mut spawned = Vec::new();
            for _ in 0..2 {
                let (ran, wants) = (ran.clone(), gate.clone());
                spawned.push(spawn(async move {
                    wants.acquire().await.unwrap().forget();
                    ran.add();
                }));
                thread::sleep(waits * MS);
                gate.add_permits(1);
                if choose(2) == 0 {
                    yield_now().await;
                }
            }
            for task in spawned {
                task.await.unwrap();
            }
        })
    };
    let tasks = [task(choose(4) as u32), task(choose(20) as u32)];
    tasks.into_iter().for_each(|task| runtime.block_on(task).unwrap());
    ran.is(4);
}

/// If a worker's poll waits for the worker's own ready tasks, another worker, which wakes each millisecond, must run
/// them.
fn ticks() {
    let (runtime, ran) = (runtime(2), Arc::new(Count::default()));
    let ticking = runtime.spawn(async {
        loop {
            sleep(MS).await;
        }
    });
    thread::sleep(choose(4) as u32 * MS);
    let each = ran.clone();
    let task = runtime.spawn(async move {
        for _ in 0..2 {
            let ran = each.clone();
            spawn(async move { ran.add() });
        }
        if choose(2) == 0 {
            yield_now().await;
        }
        each.await_all(2);
    });
    runtime.block_on(task).unwrap();
    ticking.abort();
    assert!(runtime.block_on(ticking).unwrap_err().is_cancelled());
}

/// A worker wakes for a timer that was removed. Just then a task becomes ready, and blocks until a task that it spawns
/// has run. Another worker must run the spawned task.
fn stale() {
    let (runtime, mut waits, due) = (runtime(2 + choose(2)), sleep(40 * MS), now() + 40_000_000);
    let _ = runtime.enter(|| poll(&mut waits, &Arc::default()));
    thread::sleep(20 * MS);
    drop(waits);
    thread::sleep(Duration::from_nanos(due.saturating_sub(now() + choose(40) as u64 * 500)));
    let task = runtime.spawn(async {
        let ran = Arc::new(Count::default());
        let runs = ran.clone();
        spawn(async move { runs.add() });
        ran.await_all(1);
    });
    runtime.block_on(task).unwrap();
}

/// One worker is in a long poll. A busy worker, whose polls are short, must soon run the task that was to run next on
/// the first worker.
fn phases() {
    let runtime = Builder::new(2).places(512).slices(None).build().unwrap();
    let (begun, ended) = (Arc::new(Count::default()), Arc::new(Count::default()));
    let (begins, ends, many) = (begun.clone(), ended.clone(), choose(2) * 80);
    let task = runtime.spawn(async move {
        begins.add();
        // Waits until the other worker is busy.
        thread::sleep(5 * MS);
        let since = now();
        let next = spawn(async move {
            let late = now() - since;
            assert!(many != 0 || late < SOON, "begun after {} us", late / 1000);
        });
        for _ in 0..many {
            thread::sleep(MS / 10);
            spawn(async { thread::sleep(MS / 5) });
        }
        thread::sleep(20 * MS);
        ends.add();
        next.await.unwrap();
    });
    begun.await_all(1);
    let micros = 26 + choose(60) as u64;
    let spins = |_| {
        let ended = ended.clone();
        runtime.spawn(async move {
            while *ended.0.lock().unwrap() == 0 {
                let since = now();
                thread::sleep(Duration::from_micros(micros));
                yield_now().await;
                assert!(now() - since < SOON, "a turn took {} us", (now() - since) / 1000);
            }
        })
    };
    let spins: Vec<_> = (0..2 + choose(3)).map(spins).collect();
    runtime.block_on(task).unwrap();
    spins.into_iter().for_each(|spin| runtime.block_on(spin).unwrap());
}

/// While the only worker's poll waits for ready tasks, the watcher (a kernel thread) must run them.
fn watcher() {
    let runtime = Builder::new(1).places(8).slices(None).watch_polls(10 * MS, false).build().unwrap();
    let ran = Arc::new(Count::default());
    let each = ran.clone();
    let task = runtime.spawn(async move {
        for yields in 0..3 {
            let ran = each.clone();
            spawn(async move {
                if yields == 1 {
                    yield_now().await;
                }
                ran.add();
            });
        }
        if choose(2) == 0 {
            yield_now().await;
        }
        each.await_all(3);
    });
    runtime.block_on(task).unwrap();
    ran.is(3);
}

/// While a task ends, its handle is polled with two wakers, and then awaited, aborted or dropped. The waker of the last
/// poll must be woken, and the task's value be dropped once.
fn handles() {
    let (runtime, dropped) = (runtime(1), Arc::new(Count::default()));
    for round in 1..3 {
        let ends = Counted(dropped.clone());
        let yields = choose(2) == 0;
        let mut handle = runtime.spawn(async move {
            if yields {
                yield_now().await;
            }
            (7, ends)
        });
        let (first, second) = (Arc::new(Count::default()), Arc::new(Count::default()));
        let kind = choose(4);
        let mut polled = poll(&mut handle, &first);
        if polled.is_pending() && kind != 0 {
            polled = poll(&mut handle, &second);
        }
        if polled.is_pending() && kind == 1 {
            handle.abort();
        }
        if polled.is_pending() && kind != 0 && kind != 3 {
            second.await_all(1);
            polled = poll(&mut handle, &second);
            assert!(polled.is_ready());
        }
        match polled {
            Poll::Ready(Ok(output)) => assert_eq!(output.0, 7),
            Poll::Ready(Err(error)) => assert!(kind == 1 && error.is_cancelled()),
            Poll::Pending => {}
        }
        drop(handle);
        dropped.await_all(round);
        dropped.is(round);
    }
}

struct Counted(Arc<Count>);
impl Drop for Counted {
    fn drop(&mut self) {
        self.0.add();
    }
}

/// When the runtime begins to end, all tasks that wait for the end must be woken, even if they begin to wait just then.
/// The tasks that the woken tasks spawn must still run.
fn drain() {
    let (runtime, ended) = (runtime(2), Arc::new(Count::default()));
    for yields in 0..2 {
        let ended = ended.clone();
        runtime.spawn(async move {
            let mut end = stopping();
            for _ in 0..yields {
                let _ = poll(&mut end, &Arc::default());
                yield_now().await;
            }
            end.await;
            spawn(async move { ended.add() });
        });
    }
    assert_eq!(runtime.shutdown_within(LONG).aborted, 0);
    ended.is(2);
}

/// The runtime ends without waiting for its tasks, each of which must be dropped exactly once.
fn shutdown() {
    let (runtime, dropped, gate) = (runtime(2), Arc::new(Count::default()), Arc::new(Semaphore::new(0)));
    let task = |kind: usize| {
        let (ends, gate) = (Counted(dropped.clone()), gate.clone());
        runtime.spawn(async move {
            let _ends = ends;
            match kind {
                0 => gate.add_permits(1),
                1 => gate.acquire().await.unwrap().forget(),
                2 => drop(spawn(async { yield_now().await })),
                _ => sleep(MS).await,
            }
        })
    };
    let tasks = [task(choose(4)), task(choose(4)), task(choose(4))];
    for _ in 0..choose(3) {
        thread::sleep(MS / 4);
    }
    drop(runtime);
    dropped.is(3);
    for handle in tasks {
        match block_on(handle) {
            Ok(()) | Err(JoinError::Cancelled) => {}
            Err(error) => panic!("{error}"),
        }
    }
}

/// If a runtime is dropped by one of its own tasks, all its tasks must be dropped.
fn own() {
    let (runtime, dropped) = (Arc::new(runtime(2)), Arc::new(Count::default()));
    let (kept, ends, waits) = (runtime.clone(), Counted(dropped.clone()), Counted(dropped.clone()));
    let yields = choose(2) == 0;
    drop(runtime.spawn(async move {
        let _ends = ends;
        if yields {
            yield_now().await;
        }
        drop(kept);
    }));
    let late = runtime.spawn(async move {
        let _waits = waits;
        sleep(MS).await;
    });
    drop(runtime);
    let _ = block_on(late);
    dropped.await_all(2);
}

/// Tasks wait for one that has no slot yet, and that gets a slot only when another task ends. All tasks must end.
fn room() {
    let (runtime, gate) = (runtime(2), Arc::new(Semaphore::new(0)));
    let mut tasks: Vec<JoinHandle<()>> = Vec::new();
    for _ in 0..7 {
        let gate = gate.clone();
        tasks.push(runtime.spawn(async move { gate.acquire().await.unwrap().forget() }));
    }
    tasks.push(runtime.spawn(async {}));
    tasks.push(runtime.spawn(async move { gate.add_permits(7) }));
    for task in tasks {
        runtime.block_on(task).unwrap();
    }
}

/// Senders share a full channel of one value. No value may be lost, and the values of each sender must stay in order.
/// If a sender is woken and the channel is full again, this sender must be the next to be woken.
fn channels() {
    let (sender, receiver) = channel(1);
    sender.try_send(0).unwrap();
    let (woken, mut one, mut other) = ([(); 2].map(|()| Arc::new(Count::default())), sender.send(1), sender.send(2));
    assert!(poll(&mut one, &woken[0]).is_pending() && poll(&mut other, &woken[1]).is_pending());
    receiver.try_recv().unwrap();
    sender.try_send(3).unwrap();
    assert!(poll(&mut one, &woken[0]).is_pending());
    receiver.try_recv().unwrap();
    assert!(poll(&mut one, &woken[0]).is_ready() && poll(&mut other, &woken[1]).is_pending());
    drop((one, other));
    drop((sender, receiver));

    let (runtime, (sender, receiver)) = (runtime(2), channel(1));
    let senders: Vec<_> = (0..3)
        .map(|me| {
            let sender = sender.clone();
            runtime.spawn(async move {
                for value in 0..2 {
                    sender.send((me, value)).await.unwrap();
                }
            })
        })
        .collect();
    drop(sender);
    let mut next = [0; 3];
    while let Some((me, value)) = runtime.block_on(receiver.recv()) {
        assert_eq!(next[me], value);
        next[me] += 1;
    }
    assert_eq!(next, [2; 3]);
    senders.into_iter().for_each(|task| runtime.block_on(task).unwrap());
}

/// Tasks stop waiting for a semaphore and a channel at a deadline. No permit and no value may be lost.
fn leaving() {
    let (runtime, gate, (sender, receiver)) = (runtime(2), Arc::new(Semaphore::new(1)), channel(1));
    let tasks: Vec<_> = (0..3)
        .map(|me| {
            let (gate, sender, millis) = (gate.clone(), sender.clone(), 1 + choose(3) as u32);
            runtime.spawn(async move {
                let permit = timeout(millis * MS, gate.acquire()).await;
                if permit.is_ok() {
                    sleep(MS).await;
                }
                timeout(MS, sender.send(me)).await.is_ok()
            })
        })
        .collect();
    drop(sender);
    let mut received = 0;
    thread::sleep(choose(4) as u32 * MS);
    while runtime.block_on(receiver.recv()).is_some() {
        received += 1;
    }
    let sent = tasks.into_iter().map(|task| runtime.block_on(task).unwrap()).filter(|&sent| sent).count();
    assert_eq!(sent, received);
    runtime.block_on(gate.acquire()).unwrap().forget();
}

fn timers() {
    let runtime = runtime(2);
    let sleeps = |millis: u32| async move {
        let due = now() + millis as u64 * 1_000_000;
        sleep(millis * MS).await;
        assert!((due..due + 1_200_000).contains(&now()), "late by {} us", now() as i64 / 1000 - due as i64 / 1000);
    };
    let tasks = [runtime.spawn(sleeps(3)), runtime.spawn(sleeps(1))];
    if choose(2) == 0 {
        thread::sleep(10 * MS);
    }
    runtime.block_on(sleeps(2));
    for task in tasks {
        runtime.block_on(task).unwrap();
    }
}

/// If the policy makes a worker inactive, another worker must run its ready tasks at once.
fn cores() {
    let policy = Policy { every: MS, ..Policy::default() };
    let runtime = Builder::new(4).places(16).slices(None).policy(policy).build().unwrap();
    let gate = Arc::new(Semaphore::new(0));
    let tasks: Vec<_> = (0..2)
        .map(|_| {
            let gate = gate.clone();
            runtime.spawn(async move {
                spawn_balanced(async move { gate.acquire().await.unwrap().forget() }).await.unwrap();
            })
        })
        .collect();
    thread::sleep((1 + choose(12)) as u32 * MS);
    let since = now();
    gate.add_permits(2);
    for task in tasks {
        runtime.block_on(task).unwrap();
    }
    assert!(now() - since < 300_000, "after {} us", (now() - since) / 1000);
}

/// A worker becomes inactive during a poll that waits for tasks of the worker's own local queue. Another worker must
/// run them.
fn returned() {
    let policy = Policy { every: MS, min_cores: 2, ..Policy::default() };
    let runtime = Builder::new(3).places(12).slices(None).policy(policy).build().unwrap();
    for _ in 0..3 {
        let ran = Arc::new(Count::default());
        let task = runtime.spawn(async move {
            let task = spawn_balanced(async move {
                let (one, other) = (ran.clone(), ran.clone());
                thread::sleep(choose(6) as u32 * MS);
                spawn(async move { one.add() });
                spawn(async move { other.add() });
                if choose(2) == 0 {
                    yield_now().await;
                }
                thread::sleep(choose(6) as u32 * MS);
                ran.await_all(2);
            });
            task.await.unwrap();
        });
        runtime.block_on(task).unwrap();
    }
}

/// Workers become active and inactive at any time. Each ready task must still run without delay.
fn granted() {
    let runtime = Builder::new(3).places(12).slices(None).build().unwrap();
    for _ in 0..3 {
        let gate = Arc::new(Semaphore::new(0));
        let waits = || {
            let gate = gate.clone();
            runtime.spawn(async move {
                spawn_balanced(async move { gate.acquire().await.unwrap().forget() }).await.unwrap();
            })
        };
        let tasks = [waits(), waits(), waits()];
        arachne::set_active(&runtime, 1 + choose(3));
        thread::sleep(choose(6) as u32 * MS);
        arachne::set_active(&runtime, 1 + choose(3));
        let since = now();
        gate.add_permits(3);
        for task in tasks {
            runtime.block_on(task).unwrap();
        }
        assert!(now() - since < 300_000, "after {} us", (now() - since) / 1000);
    }
}

/// The event of a closed socket must not wake the task of a later socket with the same descriptor number.
fn sockets() {
    let runtime = runtime(2);
    for round in 0..2 {
        let ((mut near, far), gate) = (UnixStream::pair().unwrap(), Arc::new(Semaphore::new(0)));
        let (far, leaves) = (Async::new(far).unwrap(), gate.clone());
        let task = runtime.spawn(async move {
            let (mut byte, mut blocked, mut left) = ([0], 0, Box::pin(leaves.acquire()));
            let read = poll_fn(|cx: &mut Context<'_>| {
                if left.as_mut().poll(cx).is_ready() {
                    return Poll::Ready(None);
                }
                let read = far.poll_read_with(cx, |mut far: &UnixStream| {
                    let read = far.read(&mut byte);
                    blocked += read.is_err() as usize;
                    read
                });
                read.map(Some)
            });
            let read = read.await.map(|read| read.unwrap());
            (read, blocked)
        });
        thread::sleep(MS / 4);
        let hangs_up = round == 0 && choose(2) == 0;
        if hangs_up {
            drop(near);
        } else {
            near.write_all(&[7]).unwrap();
        }
        told();
        if round == 0 {
            gate.add_permits(1);
        }
        let (read, blocked) = runtime.block_on(task).unwrap();
        assert!(blocked <= 1 && (read == Some(1 - hangs_up as usize) || round == 0 && read.is_none()));
    }
}

/// Even if one of three tasks that wait for a socket stops waiting, the others must each read a byte.
fn crowd() {
    let (runtime, (mut near, far)) = (runtime(2), UnixStream::pair().unwrap());
    let (far, leaves) = (Arc::new(Async::new(far).unwrap()), choose(2) == 0);
    let tasks: Vec<_> = (0..3)
        .map(|_| {
            let far = far.clone();
            runtime.spawn(async move { far.read_with(|mut far: &UnixStream| far.read(&mut [0])).await.unwrap() })
        })
        .collect();
    if leaves {
        tasks[choose(3)].abort();
    }
    for _ in 0..3 {
        near.write_all(&[7]).unwrap();
        told();
    }
    let read = tasks.into_iter().map(|task| runtime.block_on(task)).filter(|read| matches!(read, Ok(1))).count();
    assert!(read == 3 || leaves && read == 2);
}

/// Three tasks want a lock, and one of them may stop waiting, while the blocking pool has work. Only one task at a time
/// may hold the lock.
fn locks() {
    let (runtime, lock, inside) = (runtime(2), Arc::new(Lock::new(0)), Arc::new(Mutex::new(false)));
    let tasks: Vec<_> = (0..3)
        .map(|_| {
            let (lock, inside) = (lock.clone(), inside.clone());
            runtime.spawn(async move {
                let mut guard = lock.lock().await;
                assert!(!std::mem::replace(&mut *inside.lock().unwrap(), true));
                let leaves = Leaves(inside);
                yield_now().await;
                *guard += 1;
                drop(leaves);
            })
        })
        .collect();
    if choose(2) == 0 {
        tasks[1].abort();
    }
    let blocks = runtime.enter(|| spawn_blocking(|| 7));
    let ended = tasks.into_iter().map(|task| runtime.block_on(task)).filter(Result::is_ok).count();
    assert_eq!(*runtime.block_on(lock.lock()), ended);
    assert_eq!(runtime.block_on(blocks).unwrap(), 7);
}

struct Leaves(Arc<Mutex<bool>>);
impl Drop for Leaves {
    fn drop(&mut self) {
        *self.0.lock().unwrap() = false;
    }
}

/// A load's name, its function, and true if it is *exact* (no thread stands still at random).
type Load = (&'static str, fn(), bool);
const LOADS: [Load; 31] = [
    ("sleepers", sleepers, false),
    ("prompt", prompt, true),
    ("returned", returned, false),
    ("hands", hands, false),
    ("behind", behind, true),
    ("apart", apart, true),
    ("stands", stands, true),
    ("covered", covered, true),
    ("relief", relief, false),
    ("ticks", ticks, false),
    ("stale", stale, false),
    ("phases", phases, true),
    ("watcher", watcher, false),
    ("handles", handles, false),
    ("drain", drain, false),
    ("shutdown", shutdown, false),
    ("own", own, false),
    ("room", room, false),
    ("channels", channels, false),
    ("leaving", leaving, false),
    ("timers", timers, true),
    ("cores", cores, true),
    ("granted", granted, true),
    ("sockets", sockets, false),
    ("crowd", crowd, false),
    ("locks", locks, false),
    ("aborts", aborts, false),
    ("sets", sets, false),
    ("closing", closing, false),
    ("door", door, false),
    ("resets", resets, true),
];

fn main() {
    let words: Vec<String> = std::env::args().collect();
    let number = |at: usize| words.get(at).and_then(|word| word.parse::<u64>().ok());
    let names = words.get(1).map_or("all", |word| word);
    let (count, first) = (number(2).unwrap_or(1000), number(3).unwrap_or(0));
    explorer::prepare(arachne::forget_thread);
    for wanted in names.split(',') {
        let loads: Vec<&Load> = LOADS.iter().filter(|load| [load.0, "all"].contains(&wanted)).collect();
        assert!(!loads.is_empty(), "there is no load {wanted}");
        for (name, load, exact) in loads {
            let (begin, mut points, mut switches) = (std::time::Instant::now(), 0, 0);
            for seed in first..first + count {
                let took = explorer::run(name, *load, *exact, seed, arachne::forget_runtimes);
                (points, switches) = (points + took.0, switches + took.1);
            }
            let (time, mean) = (begin.elapsed().as_secs_f64(), |all: u64| all / count.max(1));
            print!("{name}: {count} schedules in {time:.1} s ({:.0} a second), ", count as f64 / time);
            println!("{} points and {} switches each", mean(points), mean(switches));
        }
    }
}
