//! Tests of the types that a program ported from tokio needs, such as abort handles, sets of tasks, and sockets.
use arachne::net::{TcpListener, TcpStream, UdpSocket, UnixListener, UnixStream};
use arachne::{
    block_on, interval, interval_at, sleep, spawn, timeout, yield_now, AcquireError, Handle, JoinError, JoinSet,
    MissedTickBehavior, Runtime, Semaphore, TryAcquireError,
};
use std::future::{pending, Future};
use std::io::{Read, Write};
use std::pin::Pin;
use std::sync::atomic::{AtomicUsize, Ordering::*};
use std::sync::Arc;
use std::thread;
use std::time::{Duration, Instant};

const MS: Duration = Duration::from_millis(1);
const LONG: Duration = Duration::from_secs(120);

struct OnDrop(Arc<AtomicUsize>);
impl Drop for OnDrop {
    fn drop(&mut self) {
        self.0.fetch_add(1, SeqCst);
    }
}

fn counted() -> (Arc<AtomicUsize>, OnDrop) {
    let dropped = Arc::new(AtomicUsize::new(0));
    (dropped.clone(), OnDrop(dropped))
}

fn wait_until(what: &str, mut holds: impl FnMut() -> bool) {
    let begin = Instant::now();
    while !holds() {
        assert!(begin.elapsed() < LONG, "{what}");
        thread::sleep(MS / 4);
    }
}

fn is_cancelled<T>(output: Result<T, JoinError>) -> bool {
    output.map_or_else(|error| error.is_cancelled() && !error.is_panic(), |_| false)
}

#[test]
fn an_abort_handle_ends_its_task_and_may_outlive_it() {
    let runtime = Runtime::new(2);
    let (dropped, within) = counted();
    let task = runtime.spawn(async move {
        let _within = within;
        pending::<()>().await
    });
    let handles = [task.abort_handle(), task.abort_handle(), task.abort_handle().clone()];
    assert!(!handles[0].is_finished());
    handles[1].abort();
    assert!(is_cancelled(runtime.block_on(task)));
    assert_eq!(dropped.load(SeqCst), 1);
    drop(runtime);
    assert!(handles.iter().all(|handle| handle.is_finished()));
    handles[2].abort();
    assert_eq!(format!("{:?}", handles[0]), "AbortHandle { is_finished: true }");
}

#[test]
fn an_abort_handle_keeps_no_output() {
    let runtime = Runtime::new(2);
    // First the task ends before the handle for its output is dropped, then after it.
    for first in [true, false] {
        let ((dropped, output), gate) = (counted(), Arc::new(Semaphore::new(0)));
        let opens = gate.clone();
        let task = runtime.spawn(async move {
            gate.acquire().await.unwrap().forget();
            output
        });
        let handle = task.abort_handle();
        let task = Some(task).filter(|_| first);
        opens.add_permits(1);
        wait_until("the task ends", || handle.is_finished());
        assert!(!first || dropped.load(SeqCst) == 0);
        drop(task);
        wait_until("the output is dropped", || dropped.load(SeqCst) == 1);
        drop(handle);
    }
}

#[test]
fn handles_are_dropped_and_made_as_their_task_ends() {
    let (runtime, dropped) = (Runtime::new(2), Arc::new(AtomicUsize::new(0)));
    let rounds = 2_000;
    for round in 0..rounds {
        let output = OnDrop(dropped.clone());
        let task = runtime.spawn(async move {
            if round % 3 == 0 {
                yield_now().await;
            }
            output
        });
        let early = task.abort_handle();
        let also = early.clone();
        let other = thread::Builder::new().spawn(move || {
            if round % 2 == 0 {
                also.abort();
            }
            also.is_finished()
        });
        let late = task.abort_handle();
        match round % 4 {
            0 => drop(task),
            1 => drop(runtime.block_on(task)),
            2 => drop((early, late, runtime.block_on(task))),
            _ => drop((late, task, early)),
        }
        other.unwrap().join().unwrap();
    }
    drop(runtime);
    assert_eq!(dropped.load(SeqCst), rounds);
}

#[test]
fn a_set_gives_outputs_as_tasks_end() {
    let runtime = Runtime::new(2);
    runtime.block_on(async {
        let mut set = JoinSet::new();
        assert!(set.join_next().await.is_none());
        let gates: Vec<_> = (0..3).map(|_| Arc::new(Semaphore::new(0))).collect();
        for (n, gate) in gates.iter().cloned().enumerate() {
            set.spawn(async move { gate.acquire().await.map(|_| n) });
        }
        assert_eq!((set.len(), set.is_empty()), (3, false));
        assert!(set.try_join_next().is_none());
        for n in [1, 2, 0] {
            gates[n].add_permits(1);
            assert_eq!(set.join_next().await.unwrap().unwrap(), Ok(n));
        }
        assert!(set.is_empty() && set.join_next().await.is_none());
        set.spawn(async { panic!("on purpose") });
        assert!(set.join_next().await.unwrap().unwrap_err().is_panic());
        set.spawn(async {
            sleep(2 * MS).await;
            Ok(7)
        });
        assert_eq!(set.join_next().await.unwrap().unwrap(), Ok(7));
    });
}

#[test]
fn a_set_aborts_what_it_has_and_leaves_what_was_detached() {
    let runtime = Runtime::new(2);
    runtime.block_on(async {
        let (dropped, mut set) = (Arc::new(AtomicUsize::new(0)), JoinSet::new());
        let endless = |set: &mut JoinSet<()>| {
            let within = OnDrop(dropped.clone());
            set.spawn(async move {
                let _within = within;
                pending().await
            })
        };
        let one = endless(&mut set);
        endless(&mut set);
        one.abort();
        assert!(is_cancelled(set.join_next().await.unwrap()));
        set.shutdown().await;
        assert_eq!((dropped.load(SeqCst), set.len()), (2, 0));
        let detached = endless(&mut set);
        set.detach_all();
        let ready = set.spawn(async {});
        wait_until("a task of the set ends", || ready.is_finished());
        detached.abort();
        assert!(set.join_next().await.unwrap().is_ok());
        assert!(set.join_next().await.is_none());
        endless(&mut set);
        drop(set);
        wait_until("a dropped set's task ends", || dropped.load(SeqCst) == 4);
    });
}

#[test]
fn owned_permits_go_to_other_tasks() {
    let (runtime, permits) = (Runtime::new(2), Arc::new(Semaphore::new(3)));
    runtime.block_on(async {
        let (one, two) = (permits.clone().acquire_owned().await.unwrap(), permits.clone().try_acquire_many_owned(2));
        assert_eq!(permits.available_permits(), 0);
        assert_eq!(permits.try_acquire().map(drop), Err(TryAcquireError::NoPermits));
        assert_eq!(permits.clone().try_acquire_owned().map(drop), Err(TryAcquireError::NoPermits));
        let waits = spawn(permits.clone().acquire_many_owned(3));
        spawn(async move { drop((one, two)) }).await.unwrap();
        waits.await.unwrap().unwrap().forget();
        assert_eq!(permits.available_permits(), 0);
        // A future that waits for a permit and is dropped must not take the permit with it.
        assert!(timeout(MS, permits.clone().acquire_owned()).await.is_err());
        permits.add_permits(2);
        drop(permits.acquire_many(2).await.unwrap());
        assert_eq!(permits.available_permits(), 2);
    });
}

#[test]
fn a_closed_semaphore_gives_nothing() {
    let (runtime, permits) = (Runtime::new(2), Arc::new(Semaphore::new(1)));
    let held = permits.try_acquire().unwrap();
    let waits: Vec<_> = (0..8).map(|_| runtime.spawn(permits.clone().acquire_owned())).collect();
    wait_until("all wait", || runtime.stats().polls >= 8);
    permits.close();
    for task in waits {
        assert!(block_on(task).unwrap().is_err());
    }
    assert!(permits.is_closed() && !Semaphore::new(0).is_closed());
    drop(held);
    assert_eq!(permits.try_acquire().map(drop), Err(TryAcquireError::Closed));
    let refused: AcquireError = block_on(permits.acquire()).unwrap_err();
    assert_eq!(permits.available_permits(), 1);
    let messages = [refused.to_string(), TryAcquireError::NoPermits.to_string()];
    assert_eq!(messages, ["the semaphore is closed", "there are not so many permits"]);
    let failed = std::io::Error::from(refused);
    assert_eq!((failed.kind(), failed.to_string()), (std::io::ErrorKind::Other, "the semaphore is closed".to_string()));
}

#[test]
fn a_sleep_that_is_reset_wakes_at_its_new_time() {
    let runtime = Runtime::new(2);
    runtime.block_on(async {
        let (begin, mut nap) = (Instant::now(), sleep(LONG));
        assert!(timeout(MS, &mut nap).await.is_err());
        Pin::new(&mut nap).reset(Instant::now() + 2 * MS);
        (&mut nap).await;
        assert!(begin.elapsed() < LONG / 2);
        let begin = Instant::now();
        Pin::new(&mut nap).reset(begin + 8 * MS);
        nap.await;
        assert!(begin.elapsed() >= 8 * MS);
    });
    // Any thread may reset a sleep while a task waits for it. The task is woken at the new time.
    let nap = Arc::new(std::sync::Mutex::new(sleep(LONG)));
    let (waits, begin) = (nap.clone(), Instant::now());
    let task = runtime.spawn(arachne::poll_fn(move |cx| Pin::new(&mut *waits.lock().unwrap()).poll(cx)));
    wait_until("it waits", || runtime.stats().parks > 0);
    thread::sleep(2 * MS);
    Pin::new(&mut *nap.lock().unwrap()).reset(Instant::now() + 5 * MS);
    block_on(task).unwrap();
    assert!(begin.elapsed() >= 5 * MS && begin.elapsed() < LONG / 2);
}

#[test]
fn an_interval_ticks_by_its_period() {
    Runtime::new(1).block_on(async {
        let begin = Instant::now();
        let mut ticks = interval(4 * MS);
        assert_eq!(ticks.period(), 4 * MS);
        let first = ticks.tick().await;
        for n in 1..4 {
            assert_eq!(ticks.tick().await, first + n * 4 * MS);
            assert!(begin.elapsed() >= n * 4 * MS);
        }
        let next = timeout(Duration::ZERO, ticks.tick()).await.err().map(|_| first + 16 * MS);
        assert_eq!(ticks.tick().await, next.unwrap_or(first + 20 * MS));
        ticks.reset();
        assert!(ticks.tick().await >= first + 20 * MS);
    });
}

#[test]
fn an_interval_may_have_any_period() {
    Runtime::new(1).block_on(async {
        let mut ticks = interval(Duration::MAX);
        ticks.tick().await;
        assert!(timeout(2 * MS, ticks.tick()).await.is_err());
        ticks.reset();
        for behavior in [MissedTickBehavior::Burst, MissedTickBehavior::Delay, MissedTickBehavior::Skip] {
            let mut ticks = interval_at(Instant::now(), Duration::MAX);
            ticks.set_missed_tick_behavior(behavior);
            thread::sleep(10 * MS);
            ticks.tick().await;
            assert!(timeout(2 * MS, ticks.tick()).await.is_err());
        }
    });
}

/// Futures of named types may be moved between polls, so `poll_fn` can poll several without `pin!`.
#[test]
fn futures_with_a_name_may_be_moved() {
    fn moved<T: Unpin>() {}
    (moved::<arachne::Recv<'_, u8>>(), moved::<arachne::Sending<'_, u8>>(), moved::<arachne::Locking<'_, u8>>());
    (moved::<arachne::Acquire<'_>>(), moved::<arachne::JoinHandle<u8>>(), moved::<arachne::Sleep>());
    (moved::<arachne::Stopping>(), moved::<arachne::Yield>(), moved::<arachne::Timeout<arachne::Sleep>>());
}

#[test]
fn more_permits_than_can_be_counted_change_nothing() {
    let permits = Semaphore::new(2);
    let added = std::panic::catch_unwind(std::panic::AssertUnwindSafe(|| permits.add_permits(usize::MAX)));
    assert!(added.is_err());
    assert_eq!(permits.available_permits(), 2);
}

#[test]
fn ticks_that_were_missed_are_made_up_for_or_left_out() {
    Runtime::new(1).block_on(async {
        let begin = Instant::now() + 20 * MS;
        let mut ticks = interval_at(begin, 10 * MS);
        assert_eq!(ticks.tick().await, begin);
        thread::sleep(35 * MS);
        for n in 1..4 {
            assert_eq!(ticks.tick().await, begin + n * 10 * MS);
        }
        for behavior in [MissedTickBehavior::Delay, MissedTickBehavior::Skip] {
            let begin = Instant::now();
            let mut ticks = interval_at(begin, 10 * MS);
            ticks.set_missed_tick_behavior(behavior);
            thread::sleep(35 * MS);
            assert_eq!(ticks.tick().await, begin);
            let (now, next) = (Instant::now(), ticks.tick().await);
            let late = (next - begin).as_nanos() % 10_000_000;
            match behavior {
                MissedTickBehavior::Skip => assert!(late == 0 && next + 10 * MS >= now && next > begin + 30 * MS),
                _ => assert!(next >= begin + 45 * MS),
            }
        }
    });
}

#[test]
fn a_handle_spawns_from_any_thread_until_the_runtime_ends() {
    let runtime = Runtime::new(2);
    let handle = runtime.handle();
    let (also, within) = (handle.clone(), runtime.spawn(async { Handle::current() }));
    let spawned = thread::spawn(move || (also.spawn(async { 6 * 7 }), also.spawn_blocking(|| 7))).join().unwrap();
    assert_eq!((block_on(spawned.0).unwrap(), block_on(spawned.1).unwrap()), (42, 7));
    let current = block_on(within).unwrap();
    assert_eq!(block_on(current.spawn(async { 1 })).unwrap(), 1);
    assert!(Handle::try_current().is_none());
    assert_eq!((handle.stats().workers.len(), handle.stats().active), (2, 2));
    drop(runtime);
    assert_eq!((handle.stats().workers.len(), handle.stats().polls), (0, 0));
    // The next runtime of this size reuses the state of the one that ended.
    let (next, (dropped, within)) = (Runtime::new(2), counted());
    for handle in [handle, current] {
        assert!(is_cancelled(block_on(handle.spawn(async { 1 }))));
        assert!(is_cancelled(block_on(handle.spawn_blocking(|| 1))));
    }
    let handle = next.handle();
    let task = handle.spawn(async move {
        let _within = within;
        pending::<()>().await
    });
    drop(next);
    let error = block_on(task).unwrap_err();
    assert!(error.is_cancelled());
    assert_eq!(std::io::Error::from(error).to_string(), "the runtime ended before the task did");
    assert_eq!(dropped.load(SeqCst), 1);
}

#[test]
fn the_end_meets_handles_that_spawn() {
    for _ in 0..50 {
        let (runtime, dropped) = (Runtime::new(2), Arc::new(AtomicUsize::new(0)));
        let threads: Vec<_> = (0..3)
            .map(|_| {
                let (handle, dropped) = (runtime.handle(), dropped.clone());
                let spawns = move |n| {
                    let within = OnDrop(dropped.clone());
                    handle.spawn(async move {
                        let _within = within;
                        if n % 2 == 0 {
                            pending::<()>().await;
                        }
                    })
                };
                thread::spawn(move || (0..200).map(spawns).collect::<Vec<_>>())
            })
            .collect();
        thread::yield_now();
        drop(runtime);
        let tasks: Vec<_> = threads.into_iter().flat_map(|thread| thread.join().unwrap()).collect();
        assert_eq!(dropped.load(SeqCst), 600);
        for task in tasks {
            assert!(task.is_finished());
            block_on(task).map_or_else(|error| assert!(error.is_cancelled()), |()| ());
        }
    }
}

#[test]
fn a_connection_is_looked_at_and_goes_to_std_and_back() {
    let runtime = Runtime::new(2);
    let listener = std::net::TcpListener::bind("127.0.0.1:0").unwrap();
    let at = listener.local_addr().unwrap();
    let far = thread::spawn(move || listener.accept().unwrap().0);
    let near = runtime.block_on(TcpStream::connect(at)).unwrap();
    let mut far = far.join().unwrap();
    assert!(!near.nodelay().unwrap());
    near.set_nodelay(true).unwrap();
    assert!(near.nodelay().unwrap());
    let (near, mut far) = runtime.block_on(async {
        let mut buffer = [0; 8];
        // This poll registers the socket in the reactor.
        assert!(timeout(MS, near.peek(&mut buffer)).await.is_err());
        let write = arachne::spawn_blocking(move || far.write_all(b"hello").map(|()| far));
        assert!(near.peek(&mut buffer).await.unwrap() > 0);
        near.read_exact(&mut buffer[..5]).await.unwrap();
        assert_eq!(&buffer[..5], b"hello");
        (near, write.await.unwrap().unwrap())
    });
    // A socket from `into_std` is in no epoll, and returns at once if it has no data. Another runtime can then use it.
    let mut near = near.into_std().unwrap();
    assert_eq!(near.read(&mut [0; 1]).unwrap_err().kind(), std::io::ErrorKind::WouldBlock);
    near.set_nonblocking(false).unwrap();
    far.write_all(b"again").unwrap();
    let mut buffer = [0; 5];
    near.read_exact(&mut buffer).unwrap();
    drop(runtime);
    let (other, near) = (Runtime::new(1), TcpStream::from_std(near).unwrap());
    let late = thread::spawn(move || {
        thread::sleep(2 * MS);
        far.write_all(b"third").map(|()| far)
    });
    other.block_on(near.read_exact(&mut buffer)).unwrap();
    assert_eq!(&buffer, b"third");
    drop(late.join().unwrap());
    assert_eq!(other.block_on(near.peek(&mut buffer)).unwrap(), 0);
    let listener = TcpListener::bind("127.0.0.1:0").unwrap().into_std().unwrap();
    assert_eq!(listener.accept().unwrap_err().kind(), std::io::ErrorKind::WouldBlock);
}

#[test]
fn sockets_of_unix_are_served() {
    let path = std::env::temp_dir().join(format!("arachne-types-{}", std::process::id()));
    let _ = std::fs::remove_file(&path);
    let runtime = Runtime::new(2);
    let listener = UnixListener::bind(&path).unwrap();
    assert_eq!(listener.local_addr().unwrap().as_pathname(), Some(&*path));
    let server = runtime.spawn(async move {
        let mut served = 0;
        while let Ok((stream, _)) = listener.accept().await {
            served += 1;
            spawn(async move {
                let mut buffer = vec![0; 1 << 16];
                loop {
                    match stream.read(&mut buffer).await.unwrap() {
                        0 => break,
                        len => stream.write_all(&buffer[..len]).await.unwrap(),
                    }
                }
            });
        }
        served
    });
    let clients: Vec<_> = (0..8u8)
        .map(|n| {
            let path = path.clone();
            runtime.spawn(async move {
                let stream = Arc::new(UnixStream::connect(&path).await.unwrap());
                assert_eq!(stream.peer_addr().unwrap().as_pathname(), Some(&*path));
                assert!(stream.local_addr().unwrap().is_unnamed());
                let (sends, bytes) = (stream.clone(), vec![n; 1 << 20]);
                let write = spawn(async move { sends.write_all(&bytes).await });
                let mut back = vec![0; 1 << 20];
                stream.read_exact(&mut back).await.unwrap();
                write.await.unwrap().unwrap();
                stream.shutdown(std::net::Shutdown::Write).unwrap();
                assert_eq!(stream.read(&mut [0]).await.unwrap(), 0);
                back.iter().all(|&byte| byte == n)
            })
        })
        .collect();
    assert!(clients.into_iter().all(|client| block_on(client).unwrap()));
    assert_eq!(runtime.shutdown_within(LONG).aborted, 0);
    assert_eq!(block_on(server).unwrap(), 8);
    std::fs::remove_file(&path).unwrap();
    let runtime = Runtime::new(1);
    assert_eq!(runtime.block_on(UnixStream::connect(&path)).unwrap_err().kind(), std::io::ErrorKind::NotFound);
    for wrong in ["", "a\0b", &"long".repeat(27)] {
        let refused = runtime.block_on(UnixStream::connect(wrong)).unwrap_err();
        assert_eq!(refused.kind(), std::io::ErrorKind::InvalidInput);
    }
    let (near, far) = UnixStream::pair().unwrap();
    runtime.block_on(near.write_all(b"pair")).unwrap();
    let (far, mut buffer) = (far.into_std().unwrap(), [0; 4]);
    (&far).read_exact(&mut buffer).unwrap();
    assert_eq!(&buffer, b"pair");
}

#[test]
fn who_connects_where_too_many_wait_gets_there() {
    let path = std::env::temp_dir().join(format!("arachne-full-{}", std::process::id()));
    let _ = std::fs::remove_file(&path);
    let (runtime, listener) = (Runtime::new(2), UnixListener::bind(&path).unwrap());
    let wants = 5_000;
    let clients: Vec<_> = (0..wants)
        .map(|_| {
            let path = path.clone();
            runtime.spawn(async move { UnixStream::connect(&path).await.map(drop) })
        })
        .collect();
    wait_until("as many wait as may", || clients.iter().filter(|client| client.is_finished()).count() >= 64);
    let server = runtime.spawn(async move {
        for _ in 0..wants {
            drop(listener.accept().await.unwrap());
        }
    });
    clients.into_iter().for_each(|client| block_on(client).unwrap().unwrap());
    block_on(server).unwrap();
    std::fs::remove_file(&path).unwrap();
}

#[test]
fn datagrams_come_and_go() {
    let runtime = Runtime::new(2);
    let (near, far) = (UdpSocket::bind("127.0.0.1:0").unwrap(), UdpSocket::bind("127.0.0.1:0").unwrap());
    let to = far.local_addr().unwrap();
    let echo = runtime.spawn(async move {
        let mut buffer = [0; 64];
        loop {
            let (len, from) = far.recv_from(&mut buffer).await.unwrap();
            assert_eq!(far.send_to(&buffer[..len], from).await.unwrap(), len);
            if len == 0 {
                return far;
            }
        }
    });
    let far = runtime.block_on(async {
        near.connect(to).unwrap();
        assert_eq!(near.peer_addr().unwrap(), to);
        let mut buffer = [0; 64];
        for n in 0..1000u32 {
            near.send(&n.to_le_bytes()).await.unwrap();
            assert_eq!(near.recv(&mut buffer).await.unwrap(), 4);
            assert_eq!(buffer[..4], n.to_le_bytes());
        }
        near.send(&[]).await.unwrap();
        assert_eq!(near.recv(&mut buffer).await.unwrap(), 0);
        echo.await.unwrap()
    });
    let far = far.into_std().unwrap();
    assert_eq!(far.recv(&mut [0]).unwrap_err().kind(), std::io::ErrorKind::WouldBlock);
    assert_eq!(UdpSocket::from_std(far).unwrap().local_addr().unwrap(), to);
}

/// If one of two tasks that wait for a socket stops waiting, the other must still be woken.
#[test]
fn a_wait_that_is_given_up_leaves_the_others_their_socket() {
    let runtime = Runtime::new(2);
    for _ in 0..20 {
        let (near, far) = (UdpSocket::bind("127.0.0.1:0").unwrap(), Arc::new(UdpSocket::bind("127.0.0.1:0").unwrap()));
        let to = far.local_addr().unwrap();
        let (stays, leaves) = (far.clone(), far);
        let stays = runtime.spawn(async move { timeout(LONG, stays.recv(&mut [0; 8])).await });
        runtime.block_on(sleep(MS));
        let leaves = runtime.spawn(async move { timeout(2 * MS, leaves.recv(&mut [0; 8])).await });
        assert!(runtime.block_on(leaves).unwrap().is_err());
        assert_eq!(runtime.block_on(near.send_to(b"hello", to)).unwrap(), 5);
        assert_eq!(runtime.block_on(stays).unwrap().unwrap().unwrap(), 5);
    }
}

#[test]
fn several_accept_at_one_listener() {
    let runtime = Runtime::new(2);
    let listener = Arc::new(TcpListener::bind("127.0.0.1:0").unwrap());
    let at = listener.local_addr().unwrap();
    let accepts = |listener: Arc<TcpListener>| async move { timeout(LONG, listener.accept()).await.unwrap() };
    let tasks: Vec<_> = (0..4).map(|_| runtime.spawn(accepts(listener.clone()))).collect();
    let accepted = thread::scope(|scope| {
        let threads: Vec<_> =
            (0..2).map(|_| scope.spawn(|| runtime.block_on(accepts(listener.clone())).unwrap())).collect();
        thread::sleep(5 * MS);
        let _clients: Vec<_> = (0..6).map(|_| std::net::TcpStream::connect(at).unwrap()).collect();
        let by_threads = threads.into_iter().map(|thread| thread.join().unwrap()).count();
        by_threads + tasks.into_iter().map(|task| runtime.block_on(task).unwrap().unwrap()).count()
    });
    assert_eq!(accepted, 6);
}

/// Each of two readers must see the connection's end, and each of two writers must go on once there is room.
#[test]
fn several_read_and_write_one_stream() {
    let runtime = Runtime::new(2);
    let (near, far) = UnixStream::pair().unwrap();
    let near = Arc::new(near);
    let reads =
        |stream: Arc<UnixStream>| async move { timeout(LONG, stream.read(&mut [0; 8])).await.unwrap().unwrap() };
    let readers: Vec<_> = (0..2).map(|_| runtime.spawn(reads(near.clone()))).collect();
    const PART: usize = 1 << 20;
    let writes = |stream: Arc<UnixStream>| async move {
        timeout(LONG, stream.write_all(&vec![7; PART])).await.unwrap().unwrap()
    };
    let writers: Vec<_> = (0..2).map(|_| runtime.spawn(writes(near.clone()))).collect();
    runtime.block_on(async {
        sleep(5 * MS).await;
        let (mut buffer, mut got) = (vec![0; 1 << 16], 0);
        while got < 2 * PART {
            got += far.read(&mut buffer).await.unwrap();
        }
    });
    writers.into_iter().for_each(|writer| runtime.block_on(writer).unwrap());
    drop(far);
    readers.into_iter().for_each(|reader| assert_eq!(runtime.block_on(reader).unwrap(), 0));
}

#[test]
fn a_task_waits_for_a_signal_and_for_the_end() {
    let (runtime, signal) = (Runtime::new(2), Arc::new(arachne::Signal::heard(12).unwrap()));
    let raise = || {
        let id = std::process::id().to_string();
        assert!(std::process::Command::new("kill").args(["-USR2", &id]).status().unwrap().success());
    };
    let hears = signal.clone();
    let task = runtime.spawn(async move { hears.recv().await });
    raise();
    runtime.block_on(task).unwrap().unwrap();
    // A thread receives the next signal. If a signal has come before the thread waits, it receives that one at once.
    raise();
    assert!(signal.wait());
    raise();
    runtime.block_on(signal.recv()).unwrap();
    runtime.spawn(async move {
        let mut end = arachne::stopping();
        assert!(end.or(signal.recv()).await.is_none());
    });
    assert_eq!(runtime.shutdown_within(LONG).aborted, 0);
}

#[test]
fn tasks_and_handles_spawn_in_each_way() {
    let runtime = arachne::Builder::new(1).places(1).build().unwrap();
    let handle = runtime.handle();
    assert_eq!(runtime.block_on(handle.spawn_balanced(async { 1 })).unwrap(), 1);
    assert_eq!(runtime.block_on(runtime.spawn_balanced(async { 2 })).unwrap(), 2);
    runtime.block_on(async {
        let task = arachne::try_spawn(async { 3 }).map_err(drop).unwrap();
        assert_eq!(task.await.unwrap(), 3);
        let mut waiting = Vec::new();
        while waiting.len() < 4096 {
            match arachne::try_spawn(pending::<()>()) {
                Ok(task) => waiting.push(task),
                // The previous task's slot becomes free a moment after that task's output.
                Err(_) => arachne::sleep(Duration::from_millis(1)).await,
            }
        }
        let (dropped, within) = counted();
        let refused = handle.try_spawn(async move { drop(within) }).map(drop).unwrap_err();
        assert_eq!(dropped.load(SeqCst), 0);
        refused.0.await;
        assert_eq!(dropped.load(SeqCst), 1);
    });
    drop(runtime);
    assert!(handle.try_spawn(async {}).is_err());
    assert!(is_cancelled(block_on(handle.spawn_balanced(async {}))));
}

#[test]
fn a_host_is_looked_up_beside_the_workers() {
    let runtime = Runtime::new(1);
    let found = runtime.block_on(runtime.spawn(arachne::net::lookup_host(("127.0.0.1", 80)))).unwrap().unwrap();
    assert_eq!(found, [([127, 0, 0, 1], 80).into()]);
    assert!(runtime.block_on(arachne::net::lookup_host("no such host:80")).is_err());
}

#[test]
fn a_descriptor_that_cannot_be_watched_fails_at_its_first_wait() {
    let file = arachne::net::Async::new(std::fs::File::open("/proc/self/exe").unwrap()).unwrap();
    let runtime = Runtime::new(1);
    let mut buffer = [0; 4];
    assert_eq!(runtime.block_on(file.read_with(|mut file| file.read(&mut buffer))).unwrap(), 4);
    let waits = runtime.block_on(file.read_with(|_| Err::<(), _>(std::io::ErrorKind::WouldBlock.into())));
    assert_eq!(waits.unwrap_err().kind(), std::io::ErrorKind::PermissionDenied);
}
