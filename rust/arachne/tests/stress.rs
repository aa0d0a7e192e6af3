//! Stress tests: stale wakers, lost wakes, leaks, a runtime that ends at any moment, and the lock. The environment
//! variable ARACHNE_STRESS multiplies the repetitions.
use arachne::{block_on, net, poll_fn, spawn, spawn_balanced, yield_now, Builder, JoinError, Lock, Policy, Runtime};
use std::future::Future;
use std::pin::Pin;
use std::sync::atomic::{AtomicBool, AtomicU64, AtomicUsize, Ordering::*};
use std::sync::{Arc, Mutex};
use std::task::{Context, Poll, Waker};
use std::thread;
use std::time::Duration;

fn rounds(n: usize) -> usize {
    n * std::env::var("ARACHNE_STRESS").map_or(1, |t| t.parse::<usize>().unwrap())
}

struct Rng(u64);
impl Rng {
    fn next(&mut self) -> u64 {
        self.0 ^= self.0 << 13;
        self.0 ^= self.0 >> 7;
        self.0 ^= self.0 << 17;
        self.0
    }
}

/// A waker of a task that has ended must not wake the next task in the same slot.
#[test]
fn stale_wakers_wake_nobody() {
    let rt = Runtime::new(3);
    for round in 0..rounds(20) {
        let stale = Arc::new(Mutex::new(Vec::<Waker>::new()));
        let ended: Vec<_> = (0..2000)
            .map(|_| {
                let stale = stale.clone();
                rt.spawn(async move {
                    poll_fn(|cx| {
                        stale.lock().unwrap().push(cx.waker().clone());
                        Poll::Ready(())
                    })
                    .await
                })
            })
            .collect();
        for task in ended {
            block_on(task).unwrap();
        }
        let polls: Arc<Vec<AtomicUsize>> = Arc::new((0..1500).map(|_| AtomicUsize::new(0)).collect());
        let (wakers, go) = (Arc::new(Mutex::new(Vec::new())), Arc::new(AtomicBool::new(false)));
        let waiting: Vec<_> = (0..1500)
            .map(|i| {
                let (polls, wakers, go) = (polls.clone(), wakers.clone(), go.clone());
                rt.spawn(poll_fn(move |cx| {
                    polls[i].fetch_add(1, SeqCst);
                    wakers.lock().unwrap().push(cx.waker().clone());
                    if go.load(SeqCst) {
                        Poll::Ready(())
                    } else {
                        Poll::Pending
                    }
                }))
            })
            .collect();
        while wakers.lock().unwrap().len() < 1500 {
            thread::yield_now();
        }
        let all = std::mem::take(&mut *stale.lock().unwrap());
        let parts: Vec<_> = all
            .chunks(500)
            .map(|part| {
                let part = part.to_vec();
                thread::spawn(move || part.iter().for_each(|waker| waker.wake_by_ref()))
            })
            .collect();
        parts.into_iter().for_each(|part| part.join().unwrap());
        thread::sleep(Duration::from_millis(2));
        assert!(polls.iter().all(|n| n.load(SeqCst) == 1), "a stale waker woke a task in round {round}");
        go.store(true, SeqCst);
        let wakers = std::mem::take(&mut *wakers.lock().unwrap());
        wakers.into_iter().for_each(|waker| waker.wake());
        for task in waiting {
            block_on(task).unwrap();
        }
        assert!(polls.iter().all(|n| n.load(SeqCst) == 2));
    }
}

struct Mailbox(Mutex<(u64, Option<Waker>)>);
impl Mailbox {
    fn send(&self) {
        let waker = {
            let mut at = self.0.lock().unwrap();
            at.0 += 1;
            at.1.take()
        };
        if let Some(waker) = waker {
            waker.wake();
        }
    }
    fn poll(&self, cx: &Context<'_>) -> Poll<u64> {
        let mut at = self.0.lock().unwrap();
        if at.0 != 0 {
            return Poll::Ready(std::mem::take(&mut at.0));
        }
        at.1 = Some(cx.waker().clone());
        Poll::Pending
    }
}

/// Threads and tasks send messages to random tasks, which other threads wake too. No message may be lost.
#[test]
fn no_wake_is_lost() {
    let rt = Runtime::new(4);
    const TASKS: usize = 300;
    let each = rounds(300) as u64;
    let boxes: Arc<Vec<Mailbox>> = Arc::new((0..TASKS).map(|_| Mailbox(Mutex::new((0, None)))).collect());
    let noise: Arc<Vec<Mutex<Option<Waker>>>> = Arc::new((0..TASKS).map(|_| Mutex::new(None)).collect());
    let stop = Arc::new(AtomicBool::new(false));
    let tasks: Vec<_> = (0..TASKS)
        .map(|i| {
            let (boxes, noise) = (boxes.clone(), noise.clone());
            rt.spawn(async move {
                let mut got = 0;
                while got < each * 2 {
                    got += poll_fn(|cx| {
                        *noise[i].lock().unwrap() = Some(cx.waker().clone());
                        boxes[i].poll(cx)
                    })
                    .await;
                }
                got
            })
        })
        .collect();
    let noisy: Vec<_> = (0..2)
        .map(|t| {
            let (noise, stop) = (noise.clone(), stop.clone());
            thread::spawn(move || {
                let mut rng = Rng(77 + t);
                while !stop.load(Relaxed) {
                    if let Some(waker) = &*noise[rng.next() as usize % TASKS].lock().unwrap() {
                        waker.wake_by_ref();
                    }
                }
            })
        })
        .collect();
    // Half of the messages come from kernel threads, in a random order, and half from tasks.
    let threads: Vec<_> = (0..4)
        .map(|t| {
            let boxes = boxes.clone();
            thread::spawn(move || {
                let mut order: Vec<usize> = (0..TASKS * each as usize / 4).map(|i| i % TASKS).collect();
                let mut rng = Rng(5 + t);
                for i in (1..order.len()).rev() {
                    order.swap(i, rng.next() as usize % (i + 1));
                }
                order.into_iter().for_each(|i| boxes[i].send());
            })
        })
        .collect();
    let senders: Vec<_> = (0..4)
        .map(|_| {
            let boxes = boxes.clone();
            rt.spawn(async move {
                for n in 0..TASKS * each as usize / 4 {
                    boxes[n % TASKS].send();
                    if n % 7 == 0 {
                        yield_now().await;
                    }
                }
            })
        })
        .collect();
    threads.into_iter().for_each(|t| t.join().unwrap());
    for sender in senders {
        block_on(sender).unwrap();
    }
    for task in tasks {
        assert_eq!(block_on(task).unwrap(), each * 2);
    }
    stop.store(true, Relaxed);
    noisy.into_iter().for_each(|t| t.join().unwrap());
}

struct OnDrop(Arc<AtomicUsize>);
impl Drop for OnDrop {
    fn drop(&mut self) {
        self.0.fetch_add(1, SeqCst);
    }
}

static LIVE: AtomicUsize = AtomicUsize::new(0);
struct Alive;
impl Alive {
    fn new() -> Alive {
        LIVE.fetch_add(1, SeqCst);
        Alive
    }
}
impl Drop for Alive {
    fn drop(&mut self) {
        LIVE.fetch_sub(1, SeqCst);
    }
}

/// Tasks panic, join others and lose their handles, and the runtime is dropped. Then no task and no value may be left.
#[test]
fn nothing_leaks() {
    for round in 0..rounds(15) {
        let rt = Runtime::new(1 + round % 4);
        let mut rng = Rng(1 + round as u64);
        let mut kept = Vec::new();
        for i in 0..6000u64 {
            let (alive, what) = (Alive::new(), rng.next() % 8);
            let task = rt.spawn(async move {
                let _alive = alive;
                let output = Alive::new();
                match what {
                    0 => std::future::pending::<()>().await,
                    1 => std::panic::resume_unwind(Box::new(i)),
                    2 => yield_now().await,
                    3 => {
                        let inner = spawn(async move {
                            yield_now().await;
                            Alive::new()
                        });
                        let _inner = inner.await;
                    }
                    4 => drop(spawn(std::future::pending::<()>())),
                    _ => {}
                }
                output
            });
            if rng.next() % 2 == 0 {
                kept.push(task);
            }
        }
        if round % 2 == 0 {
            let half = kept.split_off(kept.len() / 2);
            let joiner = rt.spawn(async move {
                let mut ended = 0;
                for task in half {
                    let mut task = task;
                    // The task is polled only once, because some of these tasks wait for ever.
                    if poll_fn(|cx| Poll::Ready(Pin::new(&mut task).poll(cx).is_ready())).await {
                        ended += 1;
                    }
                }
                ended
            });
            block_on(joiner).unwrap();
        }
        let ended = rt.spawn(async { Alive::new() });
        while !ended.is_finished() {
            std::thread::yield_now();
        }
        drop(ended);
        drop(rt);
        for task in kept {
            let _ = block_on(task);
        }
        assert_eq!(LIVE.load(SeqCst), 0, "round {round}");
    }
}

/// A runtime ends while its tasks yield and are woken. Each must be dropped, and its handle be ready.
#[test]
fn the_end_finds_each_task() {
    for round in 0..rounds(100) {
        let runtime = Runtime::new(2 + round % 3);
        let dropped = Arc::new(AtomicUsize::new(0));
        let wakers = Arc::new(Mutex::new(Vec::<Waker>::new()));
        let tasks: Vec<_> = (0..3000u64)
            .map(|i| {
                let (dropped, wakers) = (OnDrop(dropped.clone()), wakers.clone());
                runtime.spawn(async move {
                    let _dropped = dropped;
                    if i % 4 == 0 {
                        poll_fn(|cx| {
                            wakers.lock().unwrap().push(cx.waker().clone());
                            Poll::<()>::Pending
                        })
                        .await;
                    }
                    for _ in 0..i % 8 {
                        yield_now().await;
                    }
                })
            })
            .collect();
        let stop = Arc::new(AtomicBool::new(false));
        let noisy = {
            let (wakers, stop) = (wakers.clone(), stop.clone());
            thread::spawn(move || {
                while !stop.load(Relaxed) {
                    let some = std::mem::take(&mut *wakers.lock().unwrap());
                    some.into_iter().for_each(|waker| waker.wake());
                }
            })
        };
        drop(runtime);
        assert_eq!(dropped.load(SeqCst), 3000, "round {round}");
        stop.store(true, Relaxed);
        noisy.join().unwrap();
        for task in tasks {
            assert!(matches!(block_on(task), Ok(()) | Err(JoinError::Cancelled)));
        }
    }
}

/// More tasks wait than there are slots in a shard (4,096). Each must end once it is woken.
#[test]
fn many_wait() {
    let rt = Runtime::new(2);
    let gate = Arc::new((AtomicBool::new(false), Mutex::new(Vec::<Waker>::new())));
    let tasks: Vec<_> = (0..20_000u64)
        .map(|i| {
            let gate = gate.clone();
            rt.spawn(async move {
                poll_fn(|cx| {
                    let mut wakers = gate.1.lock().unwrap();
                    if gate.0.load(SeqCst) {
                        return Poll::Ready(());
                    }
                    wakers.push(cx.waker().clone());
                    Poll::Pending
                })
                .await;
                i
            })
        })
        .collect();
    while gate.1.lock().unwrap().len() < 20_000 {
        thread::yield_now();
    }
    gate.0.store(true, SeqCst);
    let wakers = std::mem::take(&mut *gate.1.lock().unwrap());
    wakers.into_iter().for_each(|waker| waker.wake());
    let mut sum = 0;
    for task in tasks {
        sum += block_on(task).unwrap();
    }
    assert_eq!(sum, 20_000 * 19_999 / 2);
}

/// Dropping futures that wait for the lock must not stop the other waiters.
#[test]
fn the_lock_excludes() {
    let rt = Runtime::new(4);
    let lock = Arc::new(Lock::new((0u64, false)));
    let given_up = Arc::new(AtomicU64::new(0));
    let each = rounds(300);
    let tasks: Vec<_> = (0..40u64)
        .map(|t| {
            let (lock, given_up) = (lock.clone(), given_up.clone());
            rt.spawn(async move {
                let mut rng = Rng(t + 1);
                for _ in 0..each {
                    if rng.next() % 4 == 0 {
                        let mut ask = Box::pin(lock.lock());
                        if poll_fn(|cx| Poll::Ready(ask.as_mut().poll(cx).is_pending())).await {
                            if rng.next() % 2 == 0 {
                                yield_now().await;
                            }
                            given_up.fetch_add(1, Relaxed);
                        }
                        continue;
                    }
                    let mut at = lock.lock().await;
                    assert!(!at.1, "two hold the lock");
                    at.1 = true;
                    if rng.next() % 3 == 0 {
                        yield_now().await;
                    }
                    at.0 += 1;
                    at.1 = false;
                }
            })
        })
        .collect();
    let outside = lock.clone();
    let thread = thread::spawn(move || {
        for _ in 0..each {
            let mut at = block_on(outside.lock());
            assert!(!at.1);
            at.0 += 1;
        }
    });
    for task in tasks {
        block_on(task).unwrap();
    }
    thread.join().unwrap();
    assert!(block_on(lock.lock()).0 > 0);
    println!("{} asks were dropped while they waited", given_up.load(Relaxed));
}

/// Many connections must echo their bytes unchanged, while the policy changes the number of active workers.
#[test]
fn echo() {
    let rt = Builder::new(4).policy(Policy { every: Duration::from_millis(2), ..Policy::default() }).build().unwrap();
    let (listener, at) = rt.enter(|| {
        let listener = net::TcpListener::bind("127.0.0.1:0").unwrap();
        let at = listener.local_addr().unwrap();
        (listener, at)
    });
    rt.spawn(async move {
        loop {
            let (stream, _) = listener.accept().await.unwrap();
            spawn_balanced(async move {
                stream.set_nodelay(true).unwrap();
                let mut buffer = [0; 1024];
                loop {
                    match stream.read(&mut buffer).await {
                        Ok(0) | Err(_) => return,
                        Ok(n) => stream.write_all(&buffer[..n]).await.unwrap(),
                    }
                }
            });
        }
    });
    let clients: Vec<_> = (0..8)
        .map(|c| {
            thread::spawn(move || {
                use std::io::{Read, Write};
                let mut rng = Rng(c + 9);
                for _ in 0..rounds(15) {
                    let mut stream = std::net::TcpStream::connect(at).unwrap();
                    stream.set_nodelay(true).unwrap();
                    stream.set_read_timeout(Some(Duration::from_secs(120))).unwrap();
                    for _ in 0..20 {
                        let bytes: Vec<u8> = (0..1 + rng.next() % 5000).map(|_| rng.next() as u8).collect();
                        stream.write_all(&bytes).unwrap();
                        let mut back = vec![0; bytes.len()];
                        stream.read_exact(&mut back).unwrap();
                        assert!(bytes == back);
                        if rng.next() % 8 == 0 {
                            thread::sleep(Duration::from_millis(rng.next() % 5));
                        }
                    }
                }
            })
        })
        .collect();
    clients.into_iter().for_each(|c| c.join().unwrap());
    let stats = rt.stats();
    println!("{stats:?}");
}
