//! `executors EXECUTOR CORES LOAD N` prints the nanoseconds that an operation of a load takes on an executor.
//!
//! EXECUTOR is arachne, tokio or async-executor. These are the loads:
//! - spawn: spawn N tasks from outside, and join each.
//! - fan: spawn N tasks from within a task, and join each.
//! - pingpong: two tasks pass a number to each other, N times.
//! - pairs: 16 pairs of tasks pass numbers to each other at the same time, N times in all.
//! - lock: 64 tasks, N critical sections in all, with a yield inside.
//! - chain: a chain of N tasks, each spawned by the one before and awaiting the next.
//! - yield: 64 tasks, N yields in all.
use arachne::Lock;
use std::future::{poll_fn, Future};
use std::pin::Pin;
use std::sync::atomic::{AtomicBool, AtomicUsize, Ordering::*};
use std::sync::{Arc, Mutex, OnceLock};
use std::task::{Poll, Waker};
use std::time::Instant;

type Boxed<T> = Pin<Box<dyn Future<Output = T> + Send>>;

/// The operations of an executor that the loads need. These are generic, so that no future is boxed.
trait Exec: Send + Sync + Clone + 'static {
    type Join<T: Send + 'static>: Future<Output = T> + Send;
    fn spawn<F: Future + Send + 'static>(&self, f: F) -> Self::Join<F::Output>
    where
        F::Output: Send + 'static;
    fn block_on<F: Future>(&self, f: F) -> F::Output;
}

struct Unwrapped<J>(J);
impl<T, E: std::fmt::Debug, J: Future<Output = Result<T, E>> + Unpin> Future for Unwrapped<J> {
    type Output = T;
    fn poll(mut self: Pin<&mut Self>, cx: &mut std::task::Context<'_>) -> Poll<T> {
        Pin::new(&mut self.0).poll(cx).map(|r| r.unwrap())
    }
}

#[derive(Clone)]
struct Ours(Arc<arachne::Runtime>);
impl Exec for Ours {
    type Join<T: Send + 'static> = Unwrapped<arachne::JoinHandle<T>>;
    fn spawn<F: Future + Send + 'static>(&self, f: F) -> Self::Join<F::Output>
    where
        F::Output: Send + 'static,
    {
        Unwrapped(self.0.spawn(f))
    }
    fn block_on<F: Future>(&self, f: F) -> F::Output {
        arachne::block_on(f)
    }
}
#[derive(Clone)]
struct Tokio(Arc<tokio::runtime::Runtime>);
impl Exec for Tokio {
    type Join<T: Send + 'static> = Unwrapped<tokio::task::JoinHandle<T>>;
    fn spawn<F: Future + Send + 'static>(&self, f: F) -> Self::Join<F::Output>
    where
        F::Output: Send + 'static,
    {
        Unwrapped(self.0.spawn(f))
    }
    fn block_on<F: Future>(&self, f: F) -> F::Output {
        self.0.block_on(f)
    }
}
#[derive(Clone)]
struct Smol(Arc<async_executor::Executor<'static>>);
impl Exec for Smol {
    type Join<T: Send + 'static> = async_executor::Task<T>;
    fn spawn<F: Future + Send + 'static>(&self, f: F) -> Self::Join<F::Output>
    where
        F::Output: Send + 'static,
    {
        self.0.spawn(f)
    }
    fn block_on<F: Future>(&self, f: F) -> F::Output {
        futures_lite::future::block_on(f)
    }
}

/// A cell for a value, for which one task can wait.
struct Mail(Mutex<(Option<u64>, Option<Waker>)>);
impl Mail {
    fn new() -> Arc<Mail> {
        Arc::new(Mail(Mutex::new((None, None))))
    }
    fn send(&self, n: u64) {
        let waker = {
            let mut at = self.0.lock().unwrap();
            at.0 = Some(n);
            at.1.take()
        };
        if let Some(waker) = waker {
            waker.wake();
        }
    }
    async fn recv(&self) -> u64 {
        poll_fn(|cx| {
            let mut at = self.0.lock().unwrap();
            match at.0.take() {
                Some(n) => Poll::Ready(n),
                None => {
                    at.1 = Some(cx.waker().clone());
                    Poll::Pending
                }
            }
        })
        .await
    }
}

async fn yield_now() {
    let mut done = false;
    poll_fn(|cx| {
        if done {
            return Poll::Ready(());
        }
        done = true;
        cx.waker().wake_by_ref();
        Poll::Pending
    })
    .await
}

async fn ping<E: Exec>(e: E, n: u64) {
    let (a, b) = (Mail::new(), Mail::new());
    let (a2, b2) = (a.clone(), b.clone());
    let other = e.spawn(async move {
        for _ in 0..n {
            let x = a2.recv().await;
            b2.send(x + 1);
        }
    });
    for i in 0..n {
        a.send(i);
        assert_eq!(b.recv().await, i + 1);
    }
    other.await;
}

fn chain<E: Exec>(e: E, n: u64) -> Boxed<u64> {
    Box::pin(async move {
        if n == 0 {
            return 0;
        }
        let next = e.clone().spawn(chain(e.clone(), n - 1));
        1 + next.await
    })
}

fn run<E: Exec>(e: E, load: &str, n: u64, ours: bool) -> u64 {
    let e2 = e.clone();
    match load {
        "spawn" => {
            let handles: Vec<_> = (0..n).map(|i| e.spawn(async move { i })).collect();
            let sum: u64 = e.block_on(async {
                let mut sum = 0;
                for handle in handles {
                    sum += handle.await;
                }
                sum
            });
            assert_eq!(sum, n * (n - 1) / 2);
            n
        }
        "fan" => {
            let task = e.spawn(async move {
                let handles: Vec<_> = (0..n).map(|i| e2.spawn(async move { i })).collect();
                let mut sum = 0;
                for handle in handles {
                    sum += handle.await;
                }
                sum
            });
            assert_eq!(e.block_on(task), n * (n - 1) / 2);
            n
        }
        "pingpong" => {
            let task = e.spawn(ping(e2, n));
            e.block_on(task);
            n
        }
        "pairs" => {
            let tasks: Vec<_> = (0..16).map(|_| e.spawn(ping(e2.clone(), n / 16))).collect();
            e.block_on(async {
                for task in tasks {
                    task.await;
                }
            });
            n
        }
        "lock" => {
            let (each, tasks) = (n / 64, 64);
            if ours {
                let lock = Arc::new(Lock::new(0u64));
                let all: Vec<_> = (0..tasks)
                    .map(|_| {
                        let lock = lock.clone();
                        e.spawn(async move {
                            for _ in 0..each {
                                let mut at = lock.lock().await;
                                let seen = *at;
                                yield_now().await;
                                *at = seen + 1;
                            }
                        })
                    })
                    .collect();
                e.block_on(async {
                    for task in all {
                        task.await;
                    }
                    assert_eq!(*lock.lock().await, each * tasks);
                });
            } else {
                let lock = Arc::new(tokio::sync::Mutex::new(0u64));
                let all: Vec<_> = (0..tasks)
                    .map(|_| {
                        let lock = lock.clone();
                        e.spawn(async move {
                            for _ in 0..each {
                                let mut at = lock.lock().await;
                                let seen = *at;
                                yield_now().await;
                                *at = seen + 1;
                            }
                        })
                    })
                    .collect();
                e.block_on(async {
                    for task in all {
                        task.await;
                    }
                    assert_eq!(*lock.lock().await, each * tasks);
                });
            }
            n
        }
        "chain" => {
            let task = e.spawn(chain(e2, n));
            assert_eq!(e.block_on(task), n);
            n
        }
        "yield" => {
            let all: Vec<_> = (0..64)
                .map(|_| {
                    e.spawn(async move {
                        for _ in 0..n / 64 {
                            yield_now().await;
                        }
                    })
                })
                .collect();
            e.block_on(async {
                for task in all {
                    task.await;
                }
            });
            n
        }
        _ => panic!("no such load"),
    }
}

static STOP: OnceLock<AtomicBool> = OnceLock::new();

fn main() {
    let args: Vec<String> = std::env::args().collect();
    let (exec, cores, load, n) =
        (&*args[1], args[2].parse::<usize>().unwrap(), &*args[3], args[4].parse::<u64>().unwrap());
    let times = args.get(5).map_or(3, |t| t.parse().unwrap());
    let mut all = Vec::new();
    let mut note = String::new();
    let mut measure = |f: &mut dyn FnMut() -> u64| {
        for _ in 0..times {
            let start = Instant::now();
            let n = f();
            all.push(start.elapsed().as_nanos() as f64 / n as f64);
        }
    };
    match exec {
        "arachne" => {
            let e = Ours(Arc::new(arachne::Runtime::new(cores)));
            measure(&mut || run(e.clone(), load, n, true));
            let s = e.0.stats();
            note = format!("  takes {} parks {} queued {}", s.takes, s.parks, s.queued);
        }
        "tokio" => {
            let rt = tokio::runtime::Builder::new_multi_thread().worker_threads(cores).enable_all().build().unwrap();
            let e = Tokio(Arc::new(rt));
            measure(&mut || run(e.clone(), load, n, false));
        }
        "async-executor" => {
            let ex = Arc::new(async_executor::Executor::new());
            let stop = STOP.get_or_init(|| AtomicBool::new(false));
            let left = Arc::new(AtomicUsize::new(cores));
            for _ in 0..cores {
                let (ex, left) = (ex.clone(), left.clone());
                std::thread::spawn(move || {
                    futures_lite::future::block_on(ex.run(std::future::pending::<()>()));
                    left.fetch_sub(1, SeqCst);
                    stop.store(true, SeqCst);
                });
            }
            let e = Smol(ex);
            measure(&mut || run(e.clone(), load, n, false));
        }
        _ => panic!("no such executor"),
    }
    all.sort_by(|a, b| a.total_cmp(b));
    let (median, best) = (all[all.len() / 2], all[0]);
    println!("{exec:15} {cores} {load:9} {n:8} median {median:9.1} best {best:9.1} ns{note}");
    std::process::exit(0);
}
