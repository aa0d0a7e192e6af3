//! Tests of each part of the crate: abort, time, channels, semaphores, limits, shutdown, blocking work, observation.
use arachne::{
    block_on, channel, net, sleep, spawn, spawn_background, spawn_blocking, spawn_named, stopping, timeout, yield_now,
    Builder, Doing, Elapsed, Hooks, JoinError, Limit, Lock, Policy, Runtime, Semaphore, SendError, Signal,
};
use std::future::Future;
use std::io::{Read, Write};
use std::sync::atomic::{AtomicBool, AtomicUsize, Ordering::*};
use std::sync::{Arc, Mutex};
use std::task::{Context, Poll, Wake};
use std::thread;
use std::time::{Duration, Instant};

const MS: Duration = Duration::from_millis(1);
const LONG: Duration = Duration::from_secs(120);

struct Nobody;
impl Wake for Nobody {
    fn wake(self: Arc<Self>) {}
}

fn poll_once<F: Future + Unpin>(future: &mut F) -> Poll<F::Output> {
    let waker = Arc::new(Nobody).into();
    std::pin::Pin::new(future).poll(&mut Context::from_waker(&waker))
}

struct OnDrop(Arc<AtomicUsize>);
impl Drop for OnDrop {
    fn drop(&mut self) {
        self.0.fetch_add(1, SeqCst);
    }
}

#[test]
fn an_aborted_task_is_dropped_and_says_so() {
    let runtime = Runtime::new(2);
    let dropped = Arc::new(AtomicUsize::new(0));
    let tasks: Vec<_> = (0..500)
        .map(|_| {
            let at = OnDrop(dropped.clone());
            runtime.spawn(async move {
                let _at = at;
                std::future::pending::<()>().await
            })
        })
        .collect();
    while runtime.stats().polls < 250 {
        thread::yield_now();
    }
    tasks.iter().for_each(|task| task.abort());
    for task in tasks {
        assert!(matches!(block_on(task), Err(JoinError::Aborted)));
    }
    assert_eq!(dropped.load(SeqCst), 500);
    let task = runtime.spawn(async { 7 });
    while !task.is_finished() {
        thread::yield_now();
    }
    task.abort();
    assert_eq!(block_on(task).unwrap(), 7);
}

#[test]
fn a_wake_in_the_midst_of_a_poll_is_heard() {
    let runtime = Runtime::new(2);
    let mut polls = 0;
    let task = runtime.spawn(arachne::poll_fn(move |cx| {
        polls += 1;
        if polls == 20 {
            return Poll::Ready(());
        }
        let waker = cx.waker().clone();
        thread::spawn(move || waker.wake()).join().unwrap();
        Poll::Pending
    }));
    block_on(task).unwrap();
}

#[test]
fn a_worker_that_sleeps_is_woken() {
    let runtime = Runtime::new(1);
    for i in 0..20 {
        thread::sleep(2 * MS);
        let task = runtime.spawn(async move {
            yield_now().await;
            i
        });
        assert_eq!(block_on(task).unwrap(), i);
    }
}

#[test]
fn sleeps_end_in_order_and_not_early() {
    let runtime = Runtime::new(2);
    let start = Instant::now();
    let tasks: Vec<_> = (0..50u32)
        .map(|i| {
            runtime.spawn(async move {
                let wanted = MS * (50 - i);
                sleep(wanted).await;
                assert!(start.elapsed() >= wanted);
            })
        })
        .collect();
    tasks.into_iter().for_each(|task| block_on(task).unwrap());
    let start = Instant::now();
    runtime.block_on(sleep(5 * MS));
    assert!(start.elapsed() >= 5 * MS);
    runtime.block_on(arachne::sleep_until(start + 10 * MS));
    assert!(start.elapsed() >= 10 * MS);
}

#[test]
fn a_timeout_gives_the_output_or_elapsed() {
    let runtime = Runtime::new(1);
    assert_eq!(runtime.block_on(timeout(LONG, async { 3 })), Ok(3));
    assert_eq!(runtime.block_on(timeout(5 * MS, std::future::pending::<()>())), Err(Elapsed));
    let task = runtime.spawn(async { timeout(5 * MS, sleep(LONG)).await });
    assert_eq!(block_on(task).unwrap(), Err(Elapsed));
    // `Elapsed` converts to an `io::Error`, for a read or write that took too long.
    let late = async { std::io::Result::Ok(timeout(MS, std::future::pending::<()>()).await?) };
    assert_eq!(runtime.block_on(late).unwrap_err().kind(), std::io::ErrorKind::TimedOut);
}

#[test]
fn a_full_channel_keeps_its_senders_waiting() {
    let runtime = Runtime::new(3);
    let (sender, receiver) = channel(4);
    let most = Arc::new(AtomicUsize::new(0));
    let senders: Vec<_> = (0..8u64)
        .map(|s| {
            let sender = sender.clone();
            runtime.spawn(async move {
                for i in 0..500 {
                    sender.send(s * 500 + i).await.unwrap();
                }
            })
        })
        .collect();
    drop(sender);
    let receivers: Vec<_> = (0..3)
        .map(|_| {
            let (receiver, most) = (receiver.clone(), most.clone());
            runtime.spawn(async move {
                let mut sum = 0;
                while let Some(n) = receiver.recv().await {
                    most.fetch_max(receiver.len(), SeqCst);
                    sum += n;
                    if n % 7 == 0 {
                        yield_now().await;
                    }
                }
                sum
            })
        })
        .collect();
    senders.into_iter().for_each(|task| block_on(task).unwrap());
    let sum: u64 = receivers.into_iter().map(|task| block_on(task).unwrap()).sum();
    assert_eq!(sum, 4000 * 3999 / 2);
    assert!(most.load(SeqCst) <= 4);
}

#[test]
fn a_channel_tells_of_a_missing_end() {
    let (sender, receiver) = channel(1);
    assert_eq!(sender.try_send(1), Ok(()));
    assert_eq!(sender.try_send(2), Err(SendError::Full(2)));
    // A send that is dropped while it waits sends nothing, and the send that waits behind it succeeds.
    let mut first = sender.send(3);
    let mut second = sender.send(4);
    assert!(poll_once(&mut first).is_pending() && poll_once(&mut second).is_pending());
    drop(first);
    assert_eq!(receiver.try_recv(), Some(1));
    assert_eq!(poll_once(&mut second), Poll::Ready(Ok(())));
    drop(second);
    assert_eq!(receiver.try_recv(), Some(4));
    drop(receiver);
    assert_eq!(sender.try_send(5), Err(SendError::Closed(5)));
    assert_eq!(block_on(sender.send(6)), Err(6));
}

#[test]
fn permits_are_given_in_order_and_come_back() {
    let semaphore = Semaphore::new(3);
    let one = semaphore.try_acquire_many(2).unwrap();
    let mut large = semaphore.acquire_many(3);
    let mut small = semaphore.acquire();
    assert!(poll_once(&mut large).is_pending());
    assert!(poll_once(&mut small).is_pending(), "the small one went before the large one");
    drop(large);
    assert!(poll_once(&mut small).is_ready(), "one that left held the line up");
    drop(one);
    assert_eq!(semaphore.available_permits(), 3);
    let runtime = Runtime::new(4);
    let (semaphore, inside) = (Arc::new(Semaphore::new(5)), Arc::new(AtomicUsize::new(0)));
    let tasks: Vec<_> = (0..100)
        .map(|_| {
            let (semaphore, inside) = (semaphore.clone(), inside.clone());
            runtime.spawn(async move {
                let _permit = semaphore.acquire().await.unwrap();
                assert!(inside.fetch_add(1, SeqCst) < 5);
                yield_now().await;
                inside.fetch_sub(1, SeqCst);
            })
        })
        .collect();
    tasks.into_iter().for_each(|task| block_on(task).unwrap());
    assert_eq!(semaphore.available_permits(), 5);
}

#[test]
fn a_lock_is_tried_and_left() {
    let mut lock = Lock::new(0);
    *lock.get_mut() += 1;
    let guard = lock.try_lock().unwrap();
    assert!(lock.try_lock().is_none());
    let mut waits = lock.lock();
    assert!(poll_once(&mut waits).is_pending());
    drop(waits);
    drop(guard);
    assert_eq!(*block_on(lock.lock()), 1);
    assert!(lock.try_lock().is_some());
}

#[test]
fn a_connection_is_made_without_blocking_and_refused() {
    let runtime = Runtime::new(2);
    let listener = net::TcpListener::bind("127.0.0.1:0").unwrap();
    let at = listener.local_addr().unwrap();
    let server = runtime.spawn(async move {
        let (stream, _) = listener.accept().await.unwrap();
        let mut bytes = [0; 5];
        stream.read_exact(&mut bytes).await.unwrap();
        stream.write_all(&bytes).await.unwrap();
        bytes
    });
    let client = runtime.spawn(async move {
        let stream = net::TcpStream::connect(at).await.unwrap();
        stream.write_all(b"hello").await.unwrap();
        let mut bytes = [0; 5];
        stream.read_exact(&mut bytes).await.unwrap();
        assert_eq!(stream.read(&mut [0; 8]).await.unwrap(), 0);
        bytes
    });
    assert_eq!(&block_on(client).unwrap(), b"hello");
    assert_eq!(&block_on(server).unwrap(), b"hello");
    // Another test may have the port now, but not at this address.
    let nobody = std::net::SocketAddr::from(([127, 98, 76, 54], at.port()));
    let refused = runtime.spawn(async move { net::TcpStream::connect(nobody).await.map(drop) });
    assert!(block_on(refused).unwrap().is_err());
}

#[test]
fn work_that_blocks_has_threads_of_its_own() {
    let runtime = Builder::new(1).blocking_threads(3).build().unwrap();
    let start = Instant::now();
    let all: Vec<_> = runtime.block_on(async {
        (0..6)
            .map(|i| {
                spawn_blocking(move || {
                    thread::sleep(20 * MS);
                    i
                })
            })
            .collect()
    });
    let quick = runtime.spawn(async {});
    block_on(quick).unwrap();
    let sum: i32 = all.into_iter().map(|task| block_on(task).unwrap()).sum();
    assert_eq!(sum, 15);
    assert!(start.elapsed() >= 40 * MS, "more threads than were allowed");
    let inner = runtime.block_on(async { spawn_blocking(|| spawn(async { 7 })).await.unwrap() });
    assert_eq!(block_on(inner).unwrap(), 7);
}

#[test]
fn two_hundred_block_at_once() {
    let runtime = Runtime::new(1);
    // No piece of work ends before all have begun.
    let all = Arc::new(std::sync::Barrier::new(200));
    let work = |_| {
        let all = all.clone();
        runtime.enter(|| spawn_blocking(move || all.wait().is_leader()))
    };
    let tasks: Vec<_> = (0..200).map(work).collect();
    assert_eq!(tasks.into_iter().map(|task| block_on(task).unwrap() as usize).sum::<usize>(), 1);
}

#[test]
fn what_has_no_place_is_refused_or_waits() {
    let runtime = Builder::new(1).places(1).build().unwrap();
    let gate = Arc::new(Semaphore::new(0));
    let places = 4096;
    let waiting: Vec<_> = (0..places)
        .map(|_| {
            let gate = gate.clone();
            runtime.spawn(async move { gate.acquire().await.unwrap().forget() })
        })
        .collect();
    while runtime.stats().polls < places as u64 {
        thread::yield_now();
    }
    let queued: Vec<_> = (0..100).map(|i| runtime.spawn(async move { i })).collect();
    assert!(runtime.try_spawn(async {}).is_err());
    thread::sleep(5 * MS);
    assert!(queued.iter().all(|task| !task.is_finished()));
    gate.add_permits(places);
    let sum: i32 = queued.into_iter().map(|task| block_on(task).unwrap()).sum();
    assert_eq!(sum, 99 * 100 / 2);
    waiting.into_iter().for_each(|task| block_on(task).unwrap());
}

/// A server that reads a byte from each connection, and sends it back after 30 ms.
async fn slow_echo(listener: net::TcpListener, accepted: Arc<AtomicUsize>) {
    while let Ok((stream, _)) = listener.accept().await {
        accepted.fetch_add(1, SeqCst);
        spawn(async move {
            let mut byte = [0];
            stream.read_exact(&mut byte).await.unwrap();
            sleep(30 * MS).await;
            stream.write_all(&byte).await.unwrap();
        });
    }
}

#[test]
fn the_end_lets_what_is_in_flight_end() {
    let runtime = Runtime::new(2);
    let listener = net::TcpListener::bind("127.0.0.1:0").unwrap();
    let at = listener.local_addr().unwrap();
    let accepted = Arc::new(AtomicUsize::new(0));
    runtime.spawn(slow_echo(listener, accepted.clone()));
    runtime.spawn(async { stopping().await });
    let mut clients: Vec<_> = (0..10).map(|_| std::net::TcpStream::connect(at).unwrap()).collect();
    clients.iter_mut().for_each(|client| client.write_all(b"x").unwrap());
    while accepted.load(SeqCst) < 10 {
        thread::yield_now();
    }
    assert_eq!(runtime.shutdown_within(Duration::MAX).aborted, 0);
    for mut client in clients {
        let mut byte = [0];
        client.read_exact(&mut byte).unwrap();
    }
}

#[test]
fn what_has_not_ended_by_the_deadline_is_dropped() {
    let runtime = Runtime::new(2);
    let stuck = runtime.spawn(std::future::pending::<()>());
    let start = Instant::now();
    assert_eq!(runtime.shutdown_within(50 * MS).aborted, 1);
    assert!(start.elapsed() >= 50 * MS);
    assert!(matches!(block_on(stuck), Err(JoinError::Cancelled)));
}

#[test]
fn what_has_come_when_the_end_begins_is_read() {
    const COUNT: usize = 50;
    let runtime = Runtime::new(1);
    let listener = net::TcpListener::bind("127.0.0.1:0").unwrap();
    let to = listener.local_addr().unwrap();
    runtime.spawn(async move {
        for i in 0..COUNT {
            let (stream, _) = listener.accept().await.unwrap();
            spawn(async move {
                let (mut end, mut buffer) = (stopping(), [0; 16]);
                loop {
                    // Half of the connections' tasks check for the runtime's end before they check the socket.
                    let first = arachne::poll_fn(|cx| match std::pin::Pin::new(&mut end).poll(cx) {
                        Poll::Ready(()) => Poll::Ready(Ok(0)),
                        Poll::Pending => stream.poll_read(cx, &mut buffer),
                    });
                    let len = match i % 2 {
                        0 => first.await,
                        _ => end.or(stream.read(&mut buffer)).await.unwrap_or(Ok(0)),
                    };
                    match len.unwrap() {
                        0 => return,
                        len => stream.write_all(&buffer[..len]).await.unwrap(),
                    }
                }
            });
        }
    });
    let ask = |mut stream: &std::net::TcpStream, byte| stream.write_all(&[byte]).unwrap();
    let answer = |mut stream: &std::net::TcpStream| {
        let mut byte = [0];
        stream.read_exact(&mut byte).map(|()| byte[0])
    };
    let streams: Vec<_> = (0..COUNT).map(|_| std::net::TcpStream::connect(to).unwrap()).collect();
    streams.iter().for_each(|stream| ask(stream, 1));
    streams.iter().for_each(|stream| assert_eq!(answer(stream).unwrap(), 1));
    // The only worker checks no socket until the runtime's end begins. Then it must read data that arrived before.
    let near = std::net::TcpListener::bind("127.0.0.1:0").unwrap();
    let far = std::net::TcpStream::connect(near.local_addr().unwrap()).unwrap();
    let near = net::TcpStream::from_std(near.accept().unwrap().0).unwrap();
    let (runs, told) = (Arc::new(AtomicBool::new(false)), Arc::new(AtomicBool::new(false)));
    let (begun, may_end) = (runs.clone(), told.clone());
    let reads = runtime.spawn(async move {
        let reads = arachne::poll_fn(|cx| {
            let read = near.poll_read(cx, &mut [0]);
            if begun.swap(true, SeqCst) {
                return read;
            }
            assert!(read.is_pending());
            while !arachne::is_stopping() || !may_end.load(SeqCst) {
                thread::yield_now();
            }
            near.poll_read(cx, &mut [0])
        });
        matches!(stopping().or(reads).await, Some(Ok(1)))
    });
    while !runs.load(SeqCst) {
        thread::yield_now();
    }
    streams.iter().chain([&far]).for_each(|stream| ask(stream, 2));
    told.store(true, SeqCst);
    assert_eq!(runtime.shutdown_within(LONG).aborted, 0);
    let lost = streams.iter().filter(|stream| answer(stream).ok() != Some(2)).count();
    assert_eq!(lost, 0, "of {COUNT}");
    assert!(block_on(reads).unwrap());
}

#[test]
fn the_end_waits_for_nothing_in_the_background() {
    let runtime = Runtime::new(2);
    let (dropped, ended) = (Arc::new(AtomicUsize::new(0)), Arc::new(AtomicUsize::new(0)));
    let sweeps = |at: OnDrop| async move {
        loop {
            sleep(MS).await;
            let _ = &at;
        }
    };
    let first = runtime.spawn_background(sweeps(OnDrop(dropped.clone())));
    let (at, ends) = (OnDrop(dropped.clone()), ended.clone());
    // This task takes a while to end. Before that, it spawns background tasks, some of which end.
    runtime.spawn(async move {
        drop(spawn_background(sweeps(at)));
        for _ in 0..300 {
            spawn_background(yield_now());
            spawn_background(yield_now()).await.unwrap();
        }
        sleep(100 * MS).await;
        ends.fetch_add(1, SeqCst);
    });
    let start = Instant::now();
    assert_eq!(runtime.shutdown_within(LONG).aborted, 0);
    assert!(start.elapsed() < LONG);
    assert_eq!((ended.load(SeqCst), dropped.load(SeqCst)), (1, 2));
    assert!(matches!(block_on(first), Err(JoinError::Cancelled)));
    // The runtime's end still waits for a task that isn't in the background.
    let runtime = Runtime::new(2);
    runtime.spawn_background(std::future::pending::<()>());
    runtime.spawn(std::future::pending::<()>());
    while runtime.stats().polls < 2 {
        thread::yield_now();
    }
    assert_eq!(runtime.live(), 2);
    assert_eq!(runtime.shutdown_within(20 * MS).aborted, 1);
}

#[test]
fn a_signal_is_heard() {
    let signal = Signal::heard(12).unwrap();
    raise("USR2");
    assert!(signal.wait());
}

/// A signal of a fault can't be caught, because the failed instruction would be repeated and fail again.
#[test]
fn signals_of_faults_are_refused() {
    let error = |number| Signal::heard(number).unwrap_err().raw_os_error();
    [4, 7, 8, 9, 11, 19].into_iter().for_each(|number| assert_eq!(error(number), Some(22), "{number}"));
}

fn raise(signal: &str) {
    let kill = format!("kill -{signal} {}", std::process::id());
    assert!(std::process::Command::new("sh").args(["-c", &kill]).status().unwrap().success());
}

#[test]
fn a_limit_tells_the_next_one_at_once() {
    let limit = Limit::new(2);
    let (one, two) = (limit.enter().unwrap(), limit.enter().unwrap());
    assert!(limit.enter().is_none());
    drop(one);
    assert!(limit.enter().is_some());
    drop(two);
    assert_eq!(limit.count(), 0);
}

#[derive(Default)]
struct Counting([AtomicUsize; 5]);
impl Hooks for Counting {
    fn spawned(&self, _: &arachne::About) {
        self.0[0].fetch_add(1, SeqCst);
    }
    fn poll_begins(&self, _: u64, _: &arachne::About) {
        self.0[1].fetch_add(1, SeqCst);
    }
    fn poll_ends(&self, _: u64) {
        self.0[2].fetch_add(1, SeqCst);
    }
    fn woken(&self, _: usize) {
        self.0[3].fetch_add(1, SeqCst);
    }
    fn ended(&self, _: u64) {
        self.0[4].fetch_add(1, SeqCst);
    }
}

#[test]
fn an_observed_runtime_lists_its_tasks() {
    let counts = Arc::new(Counting::default());
    let runtime = Builder::new(2).places(8192).hooks(counts.clone()).build().unwrap();
    let tasks: Vec<_> = (0..5).map(|_| runtime.spawn_named("waits", async { sleep(LONG).await })).collect();
    let waits = |task: &arachne::TaskInfo| task.doing == Doing::Waits && task.age >= 2 * MS;
    while runtime.tasks().iter().filter(|task| waits(task)).count() < 5 {
        thread::sleep(MS);
    }
    // Without this call, the signal that is raised next would end the process.
    runtime.list_tasks_at(10).unwrap();
    raise("USR1");
    for task in runtime.tasks() {
        assert_eq!(task.about.name.unwrap().as_str(), "waits");
        assert!(task.about.spawned.file().ends_with("parts.rs"));
    }
    tasks.iter().for_each(|task| task.abort());
    tasks.into_iter().for_each(|task| assert!(block_on(task).is_err()));
    let yields = runtime.spawn(async {
        spawn_named("inner", async { yield_now().await }).await.unwrap();
    });
    block_on(yields).unwrap();
    let stats = runtime.stats();
    assert!(stats.ready_to_taken.iter().sum::<u64>() > 0);
    drop(runtime);
    let seen: Vec<_> = counts.0.iter().map(|count| count.load(SeqCst)).collect();
    assert_eq!((seen[0], seen[4]), (7, 7));
    assert!(seen[1] == seen[2] && seen[1] >= 9 && seen[3] >= 1, "{seen:?}");
}

#[test]
fn a_pinned_worker_has_one_processor() {
    let runtime = Builder::new(1).pinned(true).build().unwrap();
    let task = runtime.spawn(async { thread::available_parallelism().unwrap().get() });
    assert_eq!(block_on(task).unwrap(), 1);
}

#[test]
fn a_slow_poll_is_seen_and_its_worker_relieved() {
    let runtime = Builder::new(1).watch_polls(5 * MS, false).build().unwrap();
    let runs = Arc::new(AtomicBool::new(false));
    let (told, ends) = (runs.clone(), Arc::new(AtomicBool::new(false)));
    let end = ends.clone();
    let slow = runtime.spawn(async move {
        told.store(true, SeqCst);
        while !end.load(SeqCst) {
            std::hint::spin_loop();
        }
    });
    while !runs.load(SeqCst) {
        thread::yield_now();
    }
    // The only worker is in a poll that doesn't end before these tasks have begun.
    let others: Vec<_> = (0..20)
        .map(|i| {
            runtime.spawn(async move {
                sleep(MS).await;
                i
            })
        })
        .collect();
    let sum: i32 = others.into_iter().map(|task| block_on(task).unwrap()).sum();
    assert_eq!(sum, 190);
    assert!(!slow.is_finished() && runtime.stats().rescued >= 20);
    while runtime.stats().slow_polls == 0 {
        thread::sleep(MS);
    }
    ends.store(true, SeqCst);
    block_on(slow).unwrap();
}

#[test]
fn cores_are_given_back_and_asked_for() {
    let policy = Policy { every: MS, ..Policy::default() };
    let runtime = Builder::new(4).policy(policy).build().unwrap();
    let start = Instant::now();
    while runtime.stats().active > 1 {
        assert!(start.elapsed() < LONG, "idle cores are not given back");
        thread::sleep(MS);
    }
    let stop = Arc::new(AtomicBool::new(false));
    let busy: Vec<_> = (0..64)
        .map(|_| {
            let stop = stop.clone();
            runtime.spawn(async move {
                while !stop.load(Relaxed) {
                    (0..2000).for_each(|_| std::hint::spin_loop());
                    yield_now().await;
                }
            })
        })
        .collect();
    let start = Instant::now();
    while runtime.stats().active < 2 {
        assert!(start.elapsed() < LONG, "no core is asked for");
        thread::sleep(MS);
    }
    stop.store(true, SeqCst);
    busy.into_iter().for_each(|task| block_on(task).unwrap());
}

/// Other tasks must still be polled, sockets be read, and timers fire.
#[test]
fn tasks_that_yield_for_ever_hold_nobody_up() {
    // With only one worker, no other worker can check its epoll.
    [1, 2].into_iter().for_each(echo_beside_yields);
}

fn echo_beside_yields(cores: usize) {
    let runtime = Runtime::new(cores);
    let stop = Arc::new(AtomicBool::new(false));
    let busy: Vec<_> = (0..80)
        .map(|_| {
            let stop = stop.clone();
            runtime.spawn(async move {
                while !stop.load(Relaxed) {
                    yield_now().await;
                }
            })
        })
        .collect();
    let listener = net::TcpListener::bind("127.0.0.1:0").unwrap();
    let at = listener.local_addr().unwrap();
    runtime.spawn(async move {
        let (stream, _) = listener.accept().await.unwrap();
        let mut byte = [0];
        while stream.read_exact(&mut byte).await.is_ok() {
            stream.write_all(&byte).await.unwrap();
        }
    });
    let mut client = std::net::TcpStream::connect(at).unwrap();
    client.set_nodelay(true).unwrap();
    client.set_read_timeout(Some(LONG)).unwrap();
    for i in 0..100 {
        let mut byte = [i];
        client.write_all(&byte).unwrap();
        client.read_exact(&mut byte).unwrap();
        assert_eq!(byte, [i]);
    }
    block_on(runtime.spawn(sleep(2 * MS))).unwrap();
    stop.store(true, SeqCst);
    busy.into_iter().for_each(|task| block_on(task).unwrap());
}

/// No task may run twice as often as another.
#[test]
fn tasks_that_yield_for_ever_run_equally_often() {
    for (cores, count) in [(1, 20), (1, 1000), (1, 5000)] {
        let runtime = Runtime::new(cores);
        let polls: Arc<Vec<AtomicUsize>> = Arc::new((0..count).map(|_| AtomicUsize::new(0)).collect());
        let (begin, end) = (Arc::new(AtomicBool::new(false)), Arc::new(AtomicBool::new(false)));
        let tasks: Vec<_> = (0..count)
            .map(|i| {
                let (polls, begin, end) = (polls.clone(), begin.clone(), end.clone());
                runtime.spawn(async move {
                    while !end.load(SeqCst) {
                        yield_now().await;
                        if begin.load(SeqCst) && polls[i].fetch_add(1, SeqCst) == 200 {
                            end.store(true, SeqCst);
                        }
                    }
                })
            })
            .collect();
        begin.store(true, SeqCst);
        tasks.into_iter().for_each(|task| block_on(task).unwrap());
        let least = polls.iter().map(|count| count.load(SeqCst)).min();
        assert!(least >= Some(100), "of {count} tasks one was polled 200 times and one {least:?}");
    }
}

/// While all workers are busy, one has many tasks. Once another is idle, it must get to run some of these tasks.
#[test]
fn what_is_in_hand_is_for_whoever_has_nothing_to_do() {
    let runtime = Runtime::new(2);
    let (busy, ends) = (Arc::new(AtomicBool::new(false)), Arc::new(AtomicBool::new(false)));
    let (begun, waits) = (busy.clone(), ends.clone());
    let other = runtime.spawn(async move {
        begun.store(true, SeqCst);
        while !waits.load(SeqCst) {
            std::hint::spin_loop();
        }
    });
    while !busy.load(SeqCst) {
        thread::yield_now();
    }
    let all = runtime.spawn(async move {
        let seen = Arc::new(Mutex::new(Vec::new()));
        let task = |ends: Arc<AtomicBool>, seen: Arc<Mutex<Vec<thread::ThreadId>>>| async move {
            yield_now().await;
            ends.store(true, SeqCst);
            seen.lock().unwrap().push(thread::current().id());
            // Some polls end, so that their worker sees that the other is idle.
            thread::sleep(30 * MS);
            let (begin, others) = (Instant::now(), || {
                let seen = seen.lock().unwrap();
                seen.len() < 5 || seen.iter().any(|thread| *thread != seen[0])
            });
            while !others() && begin.elapsed() < LONG {
                thread::sleep(MS);
            }
            others()
        };
        let tasks: Vec<_> = (0..14).map(|_| spawn(task(ends.clone(), seen.clone()))).collect();
        let mut all = true;
        for task in tasks {
            all &= task.await.unwrap();
        }
        all
    });
    assert!(block_on(all).unwrap(), "one worker ran all");
    block_on(other).unwrap();
}

/// The only worker must still run other tasks.
#[test]
fn a_socket_that_always_has_more_holds_nobody_up() {
    for waits in [false, true] {
        let runtime = Runtime::new(1);
        let listener = net::TcpListener::bind("127.0.0.1:0").unwrap();
        let mut client = std::net::TcpStream::connect(listener.local_addr().unwrap()).unwrap();
        if !waits {
            client.write_all(&[1; 65536]).unwrap();
        }
        let reader = runtime.spawn(async move {
            let (stream, mut byte) = (listener.accept().await.unwrap().0, [0]);
            while stream.read(&mut byte).await.unwrap() == 1 {}
        });
        thread::sleep(5 * MS);
        let (done, ends) = (Arc::new(AtomicBool::new(false)), Arc::new(AtomicBool::new(false)));
        let seen = done.clone();
        let other = runtime.spawn(async move {
            for _ in 0..100 {
                yield_now().await;
            }
            seen.store(true, SeqCst);
        });
        let (begin, seen) = (Instant::now(), ends.clone());
        let writer = thread::spawn(move || {
            while !seen.load(SeqCst) && begin.elapsed() < LONG {
                client.write_all(&[1; 65536]).unwrap();
            }
        });
        while !done.load(SeqCst) && begin.elapsed() < LONG / 2 {
            thread::sleep(MS);
        }
        let held = !done.load(SeqCst);
        ends.store(true, SeqCst);
        writer.join().unwrap();
        block_on(other).unwrap();
        block_on(reader).unwrap();
        assert!(!held, "a task waited for one that reads on and on");
    }
}

#[test]
fn what_always_has_more_ends_at_the_deadline() {
    let (runtime, (near, mut far)) = (Runtime::new(2), std::os::unix::net::UnixStream::pair().unwrap());
    far.write_all(&[1]).unwrap();
    let near = net::Async::new(near).unwrap();
    runtime.spawn(async move {
        let mut end = stopping();
        // The read takes nothing out of the socket, so there is always more.
        while let Some(Ok(())) = end.or(near.read_with(|_| Ok(()))).await {}
    });
    thread::sleep(5 * MS);
    let begin = Instant::now();
    assert_eq!(runtime.shutdown_within(20 * MS).aborted, 1);
    assert!(begin.elapsed() < LONG / 2);
}

/// When the runtime begins to end, data that arrived before must still be read, even if one poll can't read all of it.
#[test]
fn what_was_put_off_is_read_before_the_end() {
    const LEN: usize = 40_000;
    let runtime = Runtime::new(1);
    let (near, mut far) = std::os::unix::net::UnixStream::pair().unwrap();
    let near = net::UnixStream::from_std(near).unwrap();
    far.write_all(&[1; LEN]).unwrap();
    let reads = runtime.spawn(async move {
        while !arachne::is_stopping() {
            yield_now().await;
        }
        let (mut end, mut got) = (stopping(), 0);
        while let Some(Ok(len)) = end.or(near.read(&mut [0; 2])).await {
            got += len;
        }
        got
    });
    assert_eq!(runtime.shutdown_within(LONG).aborted, 0);
    assert_eq!(block_on(reads).unwrap(), LEN);
}

#[test]
fn all_who_had_connected_are_accepted_at_the_end() {
    let runtime = Runtime::new(1);
    let listener = net::TcpListener::bind("127.0.0.1:0").unwrap();
    let at = listener.local_addr().unwrap();
    let (accepted, is_ready) = (Arc::new(AtomicUsize::new(0)), Arc::new(AtomicBool::new(false)));
    let (counted, told) = (accepted.clone(), is_ready.clone());
    runtime.spawn(async move {
        told.store(true, SeqCst);
        while !arachne::is_stopping() {
            yield_now().await;
        }
        while listener.accept().await.is_ok() {
            counted.fetch_add(1, SeqCst);
        }
    });
    while !is_ready.load(SeqCst) {
        thread::yield_now();
    }
    let _clients: Vec<_> = (0..100).map(|_| std::net::TcpStream::connect(at).unwrap()).collect();
    runtime.shutdown_within(LONG);
    assert_eq!(accepted.load(SeqCst), 100);
}

#[test]
fn what_is_read_within_block_on_in_a_task_is_not_put_off() {
    let runtime = Runtime::new(2);
    let listener = net::TcpListener::bind("127.0.0.1:0").unwrap();
    let mut client = std::net::TcpStream::connect(listener.local_addr().unwrap()).unwrap();
    let task = runtime.spawn(async move {
        let (stream, _) = listener.accept().await.unwrap();
        block_on(async {
            let (mut bytes, mut got) = ([0; 10], 0);
            while got < 50 {
                got += stream.read(&mut bytes).await.unwrap();
            }
            got
        })
    });
    for _ in 0..5 {
        thread::sleep(5 * MS);
        client.write_all(&[1; 10]).unwrap();
    }
    assert_eq!(block_on(task).unwrap(), 50);
}

#[test]
fn sockets_are_heard_in_the_order_in_which_they_were_told_of() {
    for count in [8, 200] {
        let runtime = Runtime::new(1);
        let listener = std::net::TcpListener::bind("127.0.0.1:0").unwrap();
        let (order, waiting) = (Arc::new(Mutex::new(Vec::new())), Arc::new(AtomicUsize::new(0)));
        let (mut clients, mut tasks) = (Vec::new(), Vec::new());
        for i in 0..count {
            clients.push(std::net::TcpStream::connect(listener.local_addr().unwrap()).unwrap());
            let stream = net::TcpStream::from_std(listener.accept().unwrap().0).unwrap();
            let (order, waiting) = (order.clone(), waiting.clone());
            tasks.push(runtime.spawn(async move {
                waiting.fetch_add(1, SeqCst);
                stream.read(&mut [0]).await.unwrap();
                order.lock().unwrap().push(i);
            }));
        }
        let [is_blocked, ends] = [(); 2].map(|()| Arc::new(AtomicBool::new(false)));
        let (told, end) = (is_blocked.clone(), ends.clone());
        let until = |done: &dyn Fn() -> bool| {
            while !done() {
                thread::sleep(MS / 4);
            }
        };
        // Here the worker has handled the events that say that the sockets are writable, and sleeps.
        until(&|| {
            waiting.load(SeqCst) == count && {
                let parks = runtime.stats().parks;
                thread::sleep(20 * MS);
                parks == runtime.stats().parks
            }
        });
        let blocks = runtime.spawn(async move {
            told.store(true, SeqCst);
            while !end.load(SeqCst) {
                thread::sleep(MS / 4);
            }
        });
        until(&|| is_blocked.load(SeqCst));
        clients.iter_mut().for_each(|client| client.write_all(&[1]).unwrap());
        ends.store(true, SeqCst);
        block_on(blocks).unwrap();
        tasks.into_iter().for_each(|task| block_on(task).unwrap());
        assert_eq!(*order.lock().unwrap(), (0..count).collect::<Vec<_>>());
    }
}

#[test]
fn a_burst_of_connections_waits_to_be_accepted() {
    let most = std::fs::read_to_string("/proc/sys/net/core/somaxconn").unwrap().trim().parse::<usize>().unwrap();
    let count = most.min(500);
    let runtime = Runtime::new(2);
    let listener = net::TcpListener::bind("127.0.0.1:0").unwrap();
    let to = listener.local_addr().unwrap();
    // No task accepts yet, so a client for which the backlog has no room can't connect.
    let connect = |_| std::net::TcpStream::connect_timeout(&to, 10_000 * MS).expect("there is no room for it");
    let begun: Vec<_> = (0..count).map(connect).collect();
    let accepts = runtime.spawn(async move {
        for _ in 0..count {
            listener.accept().await.unwrap().0.write_all(b"+").await.unwrap();
        }
    });
    for mut stream in begun {
        stream.read_exact(&mut [0]).unwrap();
    }
    runtime.block_on(accepts).unwrap();
}

thread_local! {
    static STARTED: std::cell::Cell<usize> = const { std::cell::Cell::new(0) };
}

#[test]
fn each_kernel_thread_is_started_before_its_first_task() {
    let count = Arc::new(AtomicUsize::new(0));
    let counts = count.clone();
    let starts = move || {
        counts.fetch_add(1, SeqCst);
        STARTED.with(|started| started.set(started.get() + 1));
    };
    let runtime = Builder::new(3).on_worker_start(starts.clone()).build().unwrap();
    let tasks: Vec<_> = (0..1000).map(|_| runtime.spawn(async { STARTED.with(|started| started.get()) })).collect();
    assert!(tasks.into_iter().all(|task| block_on(task).unwrap() == 1));
    drop(runtime);
    assert_eq!(count.swap(0, SeqCst), 3);
    // The watcher (a kernel thread that watches polls) polls tasks too, if no worker is free.
    let runtime = Builder::new(1).watch_polls(5 * MS, false).on_worker_start(starts).build().unwrap();
    let (runs, ends) = (Arc::new(AtomicBool::new(false)), Arc::new(AtomicBool::new(false)));
    let (told, end) = (runs.clone(), ends.clone());
    let slow = runtime.spawn(async move {
        told.store(true, SeqCst);
        while !end.load(SeqCst) {
            thread::sleep(MS);
        }
    });
    while !runs.load(SeqCst) {
        thread::sleep(MS);
    }
    let task = runtime.spawn(async { STARTED.with(|started| started.get()) });
    assert_eq!(block_on(task).unwrap(), 1);
    assert!(!slow.is_finished());
    ends.store(true, SeqCst);
    block_on(slow).unwrap();
    drop(runtime);
    assert_eq!(count.load(SeqCst), 2);
}

async fn boxed(task: arachne::JoinHandle<u8>) -> Result<u8, Box<dyn std::error::Error + Send + Sync>> {
    Ok(task.await?)
}

#[test]
fn a_panic_is_an_error_and_can_go_on() {
    let runtime = Runtime::new(1);
    let panics = || {
        runtime.spawn(async {
            if true {
                std::panic::panic_any(7u32);
            }
            0
        })
    };
    let error = block_on(boxed(panics())).unwrap_err();
    assert!(error.downcast_ref::<JoinError>().unwrap().is_panic());
    let error = block_on(panics()).unwrap_err();
    assert!(!error.is_cancelled() && format!("{error:?}, {error}") == "Panicked(..), the task panicked");
    assert_eq!(*error.into_panic().downcast::<u32>().unwrap(), 7);
    let waits = runtime.spawn(std::future::pending::<u8>());
    waits.abort();
    let error = block_on(boxed(waits)).unwrap_err().downcast::<JoinError>().unwrap();
    assert!(error.is_cancelled() && matches!(error.try_into_panic(), Err(JoinError::Aborted)));
    match block_on(runtime.spawn(async { panic!("on {}", "purpose") })) {
        Err::<(), _>(JoinError::Panicked(panic)) => assert_eq!(panic.message(), Some("on purpose")),
        _ => unreachable!(),
    }
}

#[test]
fn other_descriptors_are_awaited() {
    use std::os::unix::net::UnixStream;
    let runtime = Runtime::new(2);
    // A megabyte is sent there and back through a Unix socket, whose buffer is smaller.
    let (near, far) = UnixStream::pair().unwrap();
    let bytes: Vec<u8> = (0..1_000_000u32).map(|i| (i % 251) as u8).collect();
    let echoes = runtime.spawn(async move {
        let (far, mut buffer) = (net::Async::new(far).unwrap(), [0; 7000]);
        loop {
            let len = far.read_with(|mut far| far.read(&mut buffer)).await.unwrap();
            let mut at = 0;
            while at != len {
                at += far.write_with(|mut far| far.write(&buffer[at..len])).await.unwrap();
            }
            if len == 0 {
                return;
            }
        }
    });
    let near = Arc::new(net::Async::new(near).unwrap());
    let (writes, sent) = (near.clone(), bytes.clone());
    let writer = runtime.spawn(async move {
        let mut at = 0;
        while at != sent.len() {
            at += writes.write_with(|mut near| near.write(&sent[at..])).await.unwrap();
        }
        writes.get_ref().shutdown(std::net::Shutdown::Write).unwrap();
    });
    let reader = runtime.spawn(async move {
        let (mut got, mut buffer) = (Vec::new(), [0; 9000]);
        loop {
            match near.read_with(|mut near| near.read(&mut buffer)).await.unwrap() {
                0 => return got,
                len => got.extend_from_slice(&buffer[..len]),
            }
        }
    });
    block_on(writer).unwrap();
    block_on(echoes).unwrap();
    assert!(block_on(reader).unwrap() == bytes);
    let socket = || net::Async::new(std::net::UdpSocket::bind("127.0.0.1:0").unwrap()).unwrap();
    let (near, far) = (socket(), socket());
    let to = far.get_ref().local_addr().unwrap();
    runtime.spawn(async move {
        let mut buffer = [0; 16];
        loop {
            let (len, from) = far.read_with(|far| far.recv_from(&mut buffer)).await.unwrap();
            far.write_with(|far| far.send_to(&buffer[..len], from)).await.unwrap();
        }
    });
    let asks = runtime.spawn(async move {
        let mut buffer = [0; 16];
        for i in 0..500u64 {
            near.write_with(|near| near.send_to(&i.to_le_bytes(), to)).await.unwrap();
            let (len, _) = near.read_with(|near| near.recv_from(&mut buffer)).await.unwrap();
            assert_eq!(buffer[..len], i.to_le_bytes());
        }
    });
    block_on(asks).unwrap();
}

#[derive(Debug)]
#[allow(dead_code)]
struct Shown<'a> {
    runtime: Runtime,
    builder: Builder,
    lock: arachne::Guard<'a, u8>,
    locking: arachne::Locking<'a, u8>,
    semaphore: &'a Semaphore,
    permit: arachne::SemaphorePermit<'a>,
    acquire: arachne::Acquire<'a>,
    send: arachne::Sending<'a, u8>,
    recv: arachne::Recv<'a, u8>,
    limit: Limit,
    ticket: arachne::Ticket,
    stopping: arachne::Stopping,
    sleep: arachne::Timeout<arachne::Sleep>,
    listener: net::TcpListener,
    stream: net::TcpStream,
    pair: net::Async<std::os::unix::net::UnixStream>,
}

#[test]
fn what_is_public_is_shown_and_sockets_have_descriptors() {
    use std::os::unix::io::{AsFd, AsRawFd};
    let (lock, semaphore, (sender, receiver)) = (Lock::new(7), Semaphore::new(2), channel(1));
    let listener = net::TcpListener::bind("127.0.0.1:0").unwrap();
    let limit = Limit::new(1);
    let runtime = Runtime::new(1);
    let stream = runtime.block_on(net::TcpStream::connect(listener.local_addr().unwrap())).unwrap();
    let (_, from) = runtime.block_on(listener.accept()).unwrap();
    assert_eq!((from, listener.local_addr().unwrap()), (stream.local_addr().unwrap(), stream.peer_addr().unwrap()));
    // A socket's options can be set through a copy of its descriptor.
    let options = std::net::TcpStream::from(stream.as_fd().try_clone_to_owned().unwrap());
    options.set_ttl(17).unwrap();
    assert_eq!(options.ttl().unwrap(), 17);
    assert!(stream.as_raw_fd() != listener.as_raw_fd());
    let shown = Shown {
        runtime,
        builder: Builder::new(3),
        lock: lock.try_lock().unwrap(),
        locking: lock.lock(),
        semaphore: &semaphore,
        permit: semaphore.try_acquire().unwrap(),
        acquire: semaphore.acquire(),
        send: sender.send(1),
        recv: receiver.recv(),
        ticket: limit.enter().unwrap(),
        limit,
        stopping: stopping(),
        sleep: timeout(MS, sleep(MS)),
        listener,
        stream,
        pair: net::Async::new(std::os::unix::net::UnixStream::pair().unwrap().0).unwrap(),
    };
    let text = format!("{shown:?}");
    let parts =
        ["Builder(3 cores, 65536 places)", "lock: 7", "Semaphore(1 available)", "TcpListener {", "Async(UnixStream"];
    parts.iter().for_each(|part| assert!(text.contains(part), "{text} hasn't {part}"));
}
