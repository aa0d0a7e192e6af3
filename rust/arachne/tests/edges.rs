//! Futures, tasks and runtimes that are dropped, aborted or ended early. Nothing may leak, or wait for ever.
use arachne::{
    block_on, channel, net, sleep, spawn, spawn_blocking, stopping, timeout, yield_now, Builder, JoinError, Lock,
    Runtime, Semaphore, Signal,
};
use std::future::Future;
use std::io::Read;
use std::pin::Pin;
use std::sync::atomic::{AtomicBool, AtomicUsize, Ordering::*};
use std::sync::{Arc, Mutex};
use std::task::{Context, Poll, Wake};
use std::thread;
use std::time::{Duration, Instant};

const MS: Duration = Duration::from_millis(1);
const LONG: Duration = Duration::from_secs(120);

struct Nobody;
impl Wake for Nobody {
    fn wake(self: Arc<Self>) {}
}

#[derive(Default)]
struct Woken(AtomicUsize);
impl Wake for Woken {
    fn wake(self: Arc<Self>) {
        self.0.fetch_add(1, SeqCst);
    }
}

fn poll_once<F: Future + Unpin>(future: &mut F) -> Poll<F::Output> {
    let waker = Arc::new(Nobody).into();
    Pin::new(future).poll(&mut Context::from_waker(&waker))
}

#[derive(Debug)]
struct OnDrop(Arc<AtomicUsize>);
impl Drop for OnDrop {
    fn drop(&mut self) {
        self.0.fetch_add(1, SeqCst);
    }
}

/// Once `let_it` has made the future ready, the future must have dropped its waker.
fn frees_its_waker(runtime: &Runtime, what: &str, future: impl Future, let_it: impl FnOnce()) {
    let (mut future, counted, start) = (Box::pin(future), Arc::new(Nobody), Instant::now());
    let mut poll = || {
        let waker = counted.clone().into();
        runtime.enter(|| future.as_mut().poll(&mut Context::from_waker(&waker)).is_pending())
    };
    assert!(poll(), "{what} doesn't wait");
    let_it();
    while poll() {
        thread::sleep(MS);
    }
    // The thread that wakes the task may still use the waker.
    while Arc::strong_count(&counted) != 1 {
        assert!(start.elapsed() < LONG, "{what} keeps its waker");
        thread::sleep(MS);
    }
}

/// A future that is dropped while it waits must have dropped its waker.
fn frees_its_waker_at_drop(runtime: &Runtime, what: &str, future: impl Future) {
    let (mut future, counted) = (Box::pin(future), Arc::new(Nobody));
    let waker = counted.clone().into();
    assert!(runtime.enter(|| future.as_mut().poll(&mut Context::from_waker(&waker))).is_pending());
    drop((future, waker));
    assert_eq!(Arc::strong_count(&counted), 1, "{what} keeps its waker");
}

#[test]
fn wakers_of_others_are_freed() {
    let runtime = Runtime::new(1);
    let (sender, receiver) = channel(1);
    let (lock, semaphore) = (Lock::new(()), Semaphore::new(1));
    let (guard, permit) = (lock.try_lock().unwrap(), semaphore.try_acquire().unwrap());
    frees_its_waker_at_drop(&runtime, "a receiver", receiver.recv());
    frees_its_waker_at_drop(&runtime, "a lock", lock.lock());
    frees_its_waker_at_drop(&runtime, "a semaphore", semaphore.acquire());
    frees_its_waker_at_drop(&runtime, "a sleep", sleep(LONG));
    frees_its_waker_at_drop(&runtime, "the end", stopping());
    let (near, far) = arachne::net::UnixStream::pair().unwrap();
    frees_its_waker_at_drop(&runtime, "a read", far.read(&mut [0; 8]));
    frees_its_waker(&runtime, "a read", far.read(&mut [0; 8]), || runtime.block_on(near.write_all(b"hello")).unwrap());
    frees_its_waker(&runtime, "a receiver", receiver.recv(), || sender.try_send(1).unwrap());
    frees_its_waker(&runtime, "a lock", lock.lock(), || drop(guard));
    frees_its_waker(&runtime, "a semaphore", semaphore.acquire(), || drop(permit));
    frees_its_waker(&runtime, "a sleep", sleep(200 * MS), || {});
    let gate = Arc::new(Semaphore::new(0));
    let waits = gate.clone();
    let task = runtime.spawn(async move { waits.acquire().await.unwrap().forget() });
    frees_its_waker(&runtime, "a handle", task, || gate.add_permits(1));
}

/// If a future is woken as its turn comes, and dropped before it is polled, the next one in the queue must be woken.
#[test]
fn a_turn_that_was_given_is_handed_on_at_drop() {
    let (sender, receiver) = channel(1);
    let (mut first, mut second) = (receiver.recv(), receiver.recv());
    assert!(poll_once(&mut first).is_pending() && poll_once(&mut second).is_pending());
    sender.try_send(1).unwrap();
    drop(first);
    assert_eq!(poll_once(&mut second), Poll::Ready(Some(1)));
    sender.try_send(2).unwrap();
    let (mut first, mut second) = (sender.send(3), sender.send(4));
    assert!(poll_once(&mut first).is_pending() && poll_once(&mut second).is_pending());
    assert_eq!(receiver.try_recv(), Some(2));
    drop(first);
    assert_eq!(poll_once(&mut second), Poll::Ready(Ok(())));

    let semaphore = Semaphore::new(0);
    let (mut first, mut second) = (semaphore.acquire_many(2), semaphore.acquire());
    assert!(poll_once(&mut first).is_pending() && poll_once(&mut second).is_pending());
    semaphore.add_permits(2);
    drop(first);
    assert!(poll_once(&mut second).is_ready());
    assert_eq!(semaphore.available_permits(), 2);
}

/// Values that nobody can receive must be dropped.
#[test]
fn whoever_waits_hears_that_the_other_end_is_gone() {
    let runtime = Runtime::new(1);
    let (sender, receiver) = channel::<u32>(1);
    let receives = runtime.spawn(async move { receiver.recv().await });
    while runtime.stats().polls == 0 {
        thread::yield_now();
    }
    drop(sender);
    assert_eq!(block_on(receives).unwrap(), None);

    let dropped = Arc::new(AtomicUsize::new(0));
    let (sender, receiver) = channel(1);
    sender.try_send(OnDrop(dropped.clone())).unwrap();
    let (late, polls) = (OnDrop(dropped.clone()), runtime.stats().polls);
    let sends = runtime.spawn(async move { sender.send(late).await.map_err(drop) });
    while runtime.stats().polls == polls {
        thread::yield_now();
    }
    drop(receiver);
    assert_eq!(block_on(sends).unwrap(), Err(()));
    assert_eq!(dropped.load(SeqCst), 2);
    let (sender, receiver) = channel(1);
    sender.try_send(OnDrop(dropped.clone())).unwrap();
    drop(receiver);
    assert_eq!(dropped.load(SeqCst), 3, "a value without a receiver is kept as long as a sender is there");
}

#[test]
fn what_is_aborted_before_it_begins_never_runs() {
    let runtime = Builder::new(1).blocking_threads(1).build().unwrap();
    let (runs, gate) = (Arc::new(AtomicBool::new(false)), Arc::new(AtomicBool::new(false)));
    let (told, opens) = (runs.clone(), gate.clone());
    let busy = move || {
        told.store(true, SeqCst);
        while !opens.load(SeqCst) {
            thread::yield_now();
        }
    };
    // The only worker, or the only thread of the blocking pool, is busy until the second task or work was aborted.
    for blocking in [false, true] {
        (runs.store(false, SeqCst), gate.store(false, SeqCst));
        let (first, began) = (busy.clone(), Arc::new(AtomicBool::new(false)));
        let (begins, second) = (began.clone(), move |began: Arc<AtomicBool>| began.store(true, SeqCst));
        let first =
            if blocking { runtime.enter(|| spawn_blocking(first)) } else { runtime.spawn(async move { first() }) };
        while !runs.load(SeqCst) {
            thread::yield_now();
        }
        let aborted = if blocking {
            runtime.enter(|| spawn_blocking(move || second(begins)))
        } else {
            runtime.spawn(async move { second(begins) })
        };
        aborted.abort();
        gate.store(true, SeqCst);
        assert!(matches!(block_on(aborted), Err(JoinError::Aborted)), "blocking: {blocking}");
        assert!(!began.load(SeqCst));
        block_on(first).unwrap();
    }
}

#[test]
fn a_timer_wakes_once() {
    let runtime = Runtime::new(2);
    let polls = Arc::new(AtomicUsize::new(0));
    let counts = polls.clone();
    let mut sleeps = sleep(2 * MS);
    let mut is_due = false;
    let task = runtime.spawn(arachne::poll_fn(move |cx| {
        counts.fetch_add(1, SeqCst);
        is_due = is_due || Pin::new(&mut sleeps).poll(cx).is_ready();
        Poll::<()>::Pending
    }));
    // These sleeps follow one another, so that a busy machine doesn't merge several wakes into one.
    (0..8).for_each(|_| block_on(runtime.spawn(sleep(4 * MS))).unwrap());
    assert!(polls.load(SeqCst) <= 2, "{} polls", polls.load(SeqCst));
    task.abort();
}

#[test]
fn a_sleep_wakes_whoever_polled_it_last() {
    let runtime = Runtime::new(2);
    let (sender, receiver) = channel(1);
    let (back, comes) = channel(1);
    // A task polls the sleep twice. A second task polls it, and then this thread, which moves it to a third task.
    runtime.spawn(async move {
        let mut sleeps = sleep(150 * MS);
        for _ in 0..2 {
            arachne::poll_fn(|cx| Poll::Ready(Pin::new(&mut sleeps).poll(cx).is_ready())).await;
        }
        assert!(sender.send(sleeps).await.is_ok());
        std::future::pending::<()>().await
    });
    let second = runtime.spawn(async move {
        let mut sleeps = receiver.recv().await.unwrap();
        arachne::poll_fn(|cx| Poll::Ready(Pin::new(&mut sleeps).poll(cx).is_ready())).await;
        assert!(back.send(sleeps).await.is_ok());
    });
    let mut sleeps = runtime.block_on(comes.recv()).unwrap();
    block_on(second).unwrap();
    runtime.block_on(arachne::poll_fn(|cx| Poll::Ready(Pin::new(&mut sleeps).poll(cx).is_ready())));
    let third = runtime.spawn(async move { sleeps.await });
    block_on(runtime.spawn(arachne::timeout(LONG, third))).unwrap().unwrap().unwrap();
    // The sleep moves from one task to another, and no other task is polled in between.
    let (sender, receiver) = channel(1);
    let first = runtime.spawn(async move {
        let mut sleeps = sleep(100 * MS);
        arachne::poll_fn(|cx| Poll::Ready(Pin::new(&mut sleeps).poll(cx).is_ready())).await;
        assert!(sender.send(sleeps).await.is_ok());
        std::future::pending::<()>().await
    });
    let second = runtime.spawn(async move { receiver.recv().await.unwrap().await });
    block_on(runtime.spawn(arachne::timeout(LONG, second))).unwrap().unwrap().unwrap();
    first.abort();
}

#[test]
fn the_end_waits_for_work_that_blocks() {
    let runtime = Builder::new(1).blocking_threads(1).build().unwrap();
    let done = Arc::new(AtomicUsize::new(0));
    let work = |runtime: &Runtime| {
        let done = done.clone();
        runtime.enter(|| {
            spawn_blocking(move || {
                thread::sleep(2 * MS);
                done.fetch_add(1, SeqCst)
            })
        })
    };
    let all: Vec<_> = (0..5).map(|_| work(&runtime)).collect();
    assert_eq!(runtime.shutdown_within(LONG).aborted, 0);
    assert_eq!(done.load(SeqCst), 5);
    all.into_iter().for_each(|task| assert!(block_on(task).is_ok()));
    // If no time is left, the runtime cancels work that has not begun, and work that is requested later.
    let runtime = Builder::new(1).blocking_threads(1).build().unwrap();
    let (dropped, began) = (Arc::new(AtomicUsize::new(0)), Arc::new(AtomicBool::new(false)));
    let (seen, begins, kept) = (dropped.clone(), began.clone(), OnDrop(dropped));
    let asks_late = runtime.enter(|| {
        spawn_blocking(move || {
            begins.store(true, SeqCst);
            while seen.load(SeqCst) == 0 {
                thread::yield_now();
            }
            spawn_blocking(|| ())
        })
    });
    let waits = runtime.enter(|| spawn_blocking(move || drop(kept)));
    while !began.load(SeqCst) {
        thread::yield_now();
    }
    runtime.shutdown();
    assert!(matches!(block_on(waits), Err(JoinError::Cancelled)));
    assert!(matches!(block_on(block_on(asks_late).unwrap()), Err(JoinError::Cancelled)));
}

/// A closure of `spawn_blocking` that never ends delays the runtime's end only until the deadline. A task that the
/// closure spawns after that must not run in a later runtime.
#[test]
fn the_end_leaves_work_that_blocks_for_ever() {
    let (release, blocks) = std::sync::mpsc::channel::<()>();
    let runtime = Runtime::new(1);
    let handle = runtime.handle();
    let work = runtime.enter(|| {
        spawn_blocking(move || {
            blocks.recv().unwrap_err();
            let spawned = block_on(spawn(async { 1 }));
            (spawned, block_on(spawn_blocking(|| 2)))
        })
    });
    let idle = runtime.spawn(std::future::pending::<()>());
    assert_eq!(runtime.shutdown_within(20 * MS).aborted, 1);
    assert!(matches!(block_on(idle), Err(JoinError::Cancelled)));
    assert!(matches!(block_on(handle.spawn(async {})), Err(JoinError::Cancelled)));
    let next = Runtime::new(1);
    assert_eq!(block_on(next.spawn(async { 7 })).unwrap(), 7);
    drop(release);
    let (spawned, asked) = block_on(work).unwrap();
    assert!(matches!((spawned, asked), (Err(JoinError::Cancelled), Err(JoinError::Cancelled))));
    assert_eq!(next.live(), 0);
}

/// The end must come even if a `spawn_blocking` closure spawns a task, and waits for it, while the runtime ends.
#[test]
fn the_end_cancels_what_work_that_blocks_has_spawned() {
    let runtime = Runtime::new(1);
    let began = Arc::new(AtomicBool::new(false));
    let (begins, handle) = (began.clone(), runtime.handle());
    let work = handle.spawn_blocking(move || {
        begins.store(true, SeqCst);
        thread::sleep(20 * MS);
        block_on(spawn(async { 1 }))
    });
    while !began.load(SeqCst) {
        thread::yield_now();
    }
    drop(runtime);
    assert!(matches!(block_on(work).unwrap(), Err(JoinError::Cancelled)));
}

/// While the only worker is in an endless poll, timers of other threads, and of a `block_on` in this poll, must still
/// fire.
#[test]
fn timers_of_other_threads_fire_while_the_worker_blocks() {
    let (runtime, blocks) = (Runtime::new(1), Arc::new(AtomicBool::new(true)));
    let blocked = blocks.clone();
    let task = runtime.spawn(async move {
        block_on(sleep(2 * MS));
        while blocked.load(SeqCst) {
            thread::sleep(MS);
        }
    });
    assert!(runtime.block_on(timeout(10 * MS, sleep(LONG))).is_err());
    runtime.block_on(sleep(MS));
    blocks.store(false, SeqCst);
    runtime.block_on(task).unwrap();
}

#[test]
fn a_runtime_is_entered_and_ended_within_a_task_of_another_or_its_own() {
    let (outer, inner) = (Runtime::new(1), Runtime::new(1));
    let answer = outer.spawn(async move { inner.block_on(async { timeout(LONG, spawn(async { 7 })).await }) });
    assert_eq!(block_on(answer).unwrap().expect("spawned on the runtime whose task blocks").unwrap(), 7);
    let own = Arc::new(Mutex::new(None));
    let (runtime, taken) = (Runtime::new(2), own.clone());
    let waits = runtime.spawn(std::future::pending::<()>());
    let drops = runtime.spawn(async move {
        loop {
            let runtime: Option<Runtime> = taken.lock().unwrap().take();
            if let Some(runtime) = runtime {
                return drop(runtime);
            }
            yield_now().await;
        }
    });
    *own.lock().unwrap() = Some(runtime);
    assert!(matches!(block_on(waits), Err(JoinError::Cancelled)));
    drop(block_on(drops));
}

/// `stopping` must wake only the waker with which it was polled last.
#[test]
fn who_waits_for_the_end_may_change() {
    let runtime = Runtime::new(1);
    let wakers: Vec<_> = (0..3).map(|_| Arc::new(Woken::default())).collect();
    let mut end = stopping();
    for woken in [&wakers[0], &wakers[0], &wakers[1], &wakers[2], &wakers[2]] {
        let waker = woken.clone().into();
        assert!(runtime.enter(|| Pin::new(&mut end).poll(&mut Context::from_waker(&waker))).is_pending());
    }
    runtime.shutdown_within(LONG);
    let woken: Vec<_> = wakers.iter().map(|woken| woken.0.load(SeqCst)).collect();
    assert_eq!(woken, [0, 0, 1]);
}

/// A worker that sleeps while the only other one is in an endless poll must run each task that is woken.
#[test]
fn a_sleeper_is_woken_beside_a_busy_worker() {
    let runtime = Runtime::new(2);
    let gates: Vec<_> = (0..64).map(|_| Arc::new(Semaphore::new(0))).collect();
    let wait = |gate: &Arc<Semaphore>| {
        let gate = gate.clone();
        runtime.spawn(async move { gate.acquire().await.unwrap().forget() })
    };
    let tasks: Vec<_> = gates.iter().map(wait).collect();
    while runtime.stats().polls < 64 {
        thread::yield_now();
    }
    let (runs, ends) = (Arc::new(AtomicBool::new(false)), Arc::new(AtomicBool::new(false)));
    let (told, end) = (runs.clone(), ends.clone());
    let busy = runtime.spawn(async move {
        told.store(true, SeqCst);
        while !end.load(SeqCst) {
            thread::yield_now();
        }
    });
    while !runs.load(SeqCst) {
        thread::yield_now();
    }
    for (gate, task) in gates.iter().zip(tasks) {
        thread::sleep(MS / 2);
        gate.add_permits(1);
        block_on(task).unwrap();
    }
    ends.store(true, SeqCst);
    block_on(busy).unwrap();
}

#[test]
fn a_writer_waits_for_room() {
    const BYTES: usize = 16 << 20;
    let runtime = Runtime::new(1);
    let listener = net::TcpListener::bind("127.0.0.1:0").unwrap();
    let at = listener.local_addr().unwrap();
    let writes = runtime.spawn(async move {
        let (stream, _) = listener.accept().await.unwrap();
        stream.write_all(&vec![7; BYTES]).await.unwrap();
    });
    let mut client = std::net::TcpStream::connect(at).unwrap();
    client.set_read_timeout(Some(LONG)).unwrap();
    thread::sleep(20 * MS);
    let mut bytes = Vec::new();
    client.read_to_end(&mut bytes).unwrap();
    assert!(bytes.len() == BYTES && bytes.iter().all(|&byte| byte == 7));
    block_on(writes).unwrap();
}

struct Panics {
    in_drop: bool,
    _kept: OnDrop,
}
impl Future for Panics {
    type Output = u32;
    fn poll(self: Pin<&mut Self>, _: &mut Context<'_>) -> Poll<u32> {
        assert!(self.in_drop, "on purpose, in a poll");
        Poll::Ready(7)
    }
}
impl Drop for Panics {
    fn drop(&mut self) {
        assert!(!self.in_drop, "on purpose, in a drop");
    }
}

#[test]
fn a_panic_leaks_nothing_and_is_told() {
    let (runtime, dropped) = (Runtime::new(1), Arc::new(AtomicUsize::new(0)));
    for in_drop in [false, true] {
        let told = block_on(runtime.spawn(Panics { in_drop, _kept: OnDrop(dropped.clone()) }));
        let error = told.expect_err("a panic that is told as an output");
        let wanted = format!("the task panicked: on purpose, in a {}", if in_drop { "drop" } else { "poll" });
        assert!(error.is_panic() && error.to_string() == wanted, "{error}");
    }
    assert_eq!(dropped.load(SeqCst), 2);
}

/// If no task slot is free, `try_spawn` must return the future in its error.
#[test]
fn what_has_no_place_comes_back() {
    let runtime = Builder::new(1).places(1).build().unwrap();
    let gate = Arc::new(Semaphore::new(0));
    let spawn_one = |_| {
        let gate = gate.clone();
        runtime.spawn(async move { gate.acquire().await.unwrap().forget() })
    };
    let tasks: Vec<_> = (0..4096).map(spawn_one).collect();
    let refused = runtime.try_spawn(async { 7 }).expect_err("there was a place").0;
    assert_eq!(block_on(refused), 7);
    assert_eq!((runtime.live(), runtime.stats().queued), (4096, 0));
    gate.add_permits(4096);
    tasks.into_iter().for_each(|task| block_on(task).unwrap());
    assert_eq!(block_on(runtime.try_spawn(async { 8 }).expect("there is room")).unwrap(), 8);
}

#[test]
fn what_has_no_place_at_the_end_is_cancelled() {
    let (runtime, dropped) = (Builder::new(1).places(1).build().unwrap(), Arc::new(AtomicUsize::new(0)));
    let spawn_one = |_| {
        let dropped = OnDrop(dropped.clone());
        runtime.spawn(async move {
            let _dropped = dropped;
            std::future::pending::<()>().await
        })
    };
    let tasks: Vec<_> = (0..4096 + 50).map(spawn_one).collect();
    drop(runtime);
    assert_eq!(dropped.load(SeqCst), 4096 + 50);
    tasks.into_iter().for_each(|task| assert!(matches!(block_on(task), Err(JoinError::Cancelled))));
}

/// During a long poll, the watcher (a kernel thread) runs some tasks, which the runtime's end must find too.
#[test]
fn what_the_watcher_ran_ends_with_the_runtime() {
    let runtime = Builder::new(1).watch_polls(5 * MS, false).build().unwrap();
    let (runs, ends) = (Arc::new(AtomicBool::new(false)), Arc::new(AtomicBool::new(false)));
    let (told, end) = (runs.clone(), ends.clone());
    let slow = runtime.spawn(async move {
        told.store(true, SeqCst);
        while !end.load(SeqCst) {
            thread::yield_now();
        }
    });
    while !runs.load(SeqCst) {
        thread::yield_now();
    }
    let waiting: Vec<_> = (0..20).map(|_| runtime.spawn(std::future::pending::<()>())).collect();
    while runtime.stats().rescued < 20 {
        thread::sleep(MS);
    }
    ends.store(true, SeqCst);
    block_on(slow).unwrap();
    drop(runtime);
    waiting.into_iter().for_each(|task| assert!(matches!(block_on(task), Err(JoinError::Cancelled))));
}

#[test]
fn a_socket_of_an_ended_runtime_keeps_nobody_waiting() {
    let (ends, runtime) = (Runtime::new(1), Runtime::new(2));
    let socket = Arc::new(net::UdpSocket::bind("127.0.0.1:0").unwrap());
    let receive = |socket: &Arc<net::UdpSocket>| {
        let socket = socket.clone();
        async move { socket.recv_from(&mut [0; 8]).await.map(drop) }
    };
    assert!(ends.block_on(timeout(MS, receive(&socket))).is_err());
    let (elsewhere, own, blocking) = (receive(&socket), ends.spawn(receive(&socket)), receive(&socket));
    let elsewhere = runtime.spawn(elsewhere);
    let blocking = ends.handle().spawn_blocking(move || block_on(blocking));
    thread::sleep(10 * MS);
    drop(ends);
    assert!(matches!(block_on(own), Err(JoinError::Cancelled)));
    let message = |got: std::io::Result<()>| got.unwrap_err().to_string();
    assert_eq!(message(block_on(elsewhere).unwrap()), "the runtime of this socket has ended");
    assert_eq!(message(runtime.block_on(receive(&socket))), "the runtime of this socket has ended");
    match block_on(blocking) {
        Ok(got) => assert_eq!(message(got), "the runtime of this socket has ended"),
        Err(error) => assert!(error.is_cancelled(), "it had not begun"),
    }
}

#[test]
fn a_sleep_outlives_its_runtime() {
    let (ends, runtime) = (Runtime::new(1), Runtime::new(2));
    let mut sleeps = [sleep(100 * MS), sleep(100 * MS)];
    ends.enter(|| sleeps.iter_mut().for_each(|sleep| assert!(poll_once(sleep).is_pending())));
    let [waits, moved] = sleeps;
    let waits = runtime.spawn(waits);
    thread::sleep(10 * MS);
    drop(ends);
    block_on(waits).unwrap();
    runtime.block_on(moved);
}

/// A wait for a socket of an ended runtime must fail even if a later runtime of the same size reuses the state. No
/// other test uses this size, 7 workers.
#[test]
fn a_socket_of_an_ended_runtime_waits_in_no_later_one() {
    let (ends, signal) = (Runtime::new(7), Signal::heard(10).unwrap());
    let socket = net::UdpSocket::bind("127.0.0.1:0").unwrap();
    assert!(ends.block_on(timeout(MS, socket.recv_from(&mut [0; 8]))).is_err());
    assert!(ends.block_on(timeout(MS, signal.recv())).is_err());
    drop(ends);
    let later = Runtime::new(7);
    let message = |got: std::io::Result<()>| got.unwrap_err().to_string();
    let got = later.block_on(timeout(LONG, socket.recv_from(&mut [0; 8]))).unwrap();
    assert_eq!(message(got.map(drop)), "the runtime of this socket has ended");
    let got = later.block_on(timeout(LONG, signal.recv())).unwrap();
    assert_eq!(message(got), "the runtime of this socket has ended");
    // A socket that is made anew waits in the new runtime.
    let socket = net::UdpSocket::from_std(socket.into_std().unwrap()).unwrap();
    assert!(later.block_on(timeout(MS, socket.recv_from(&mut [0; 8]))).is_err());
    let signal = Signal::heard(10).unwrap();
    assert!(later.block_on(timeout(MS, signal.recv())).is_err());
}
