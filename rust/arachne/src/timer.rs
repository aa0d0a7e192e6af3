//! Sleeps and timeouts. Each worker has a queue of timers, which it checks whenever it polls the epoll.

use crate::shared::{here, shared_of, Context as Worker, Shared};
use crate::sync::atomic::{AtomicU64, Ordering::*};
use crate::sync::{Instant, Mutex};
use crate::waker::{name_in, NOBODY};
use std::collections::BTreeMap;
use std::fmt;
use std::future::Future;
use std::pin::Pin;
use std::task::{Context, Poll, Waker};
use std::time::Duration;

pub(crate) use crate::sys::now;

type Key = (u64, u64);

#[derive(Default)]
struct Queue {
    waiting: BTreeMap<Key, Waker>,
    made: u64,
}

pub(crate) struct Timers {
    /// The time, in nanoseconds, at which the first timer is due; `u64::MAX` if there is none.
    next: AtomicU64,
    queue: Mutex<Queue>,
}

impl Default for Timers {
    fn default() -> Timers {
        Timers { next: AtomicU64::new(u64::MAX), queue: Mutex::default() }
    }
}

impl Timers {
    #[inline]
    pub(crate) fn next(&self) -> u64 {
        self.next.load(SeqCst)
    }

    /// Returns the timer's key, and true if no other timer is due before it.
    fn add(&self, at: u64, waker: Waker) -> (Key, bool) {
        let mut queue = self.queue.lock().unwrap();
        queue.made += 1;
        let key = (at, queue.made);
        queue.waiting.insert(key, waker);
        let first = at < self.next.load(Relaxed);
        if first {
            self.next.store(at, SeqCst);
        }
        (key, first)
    }

    /// Returns false if the timer has fired already.
    fn renew(&self, key: Key, waker: &Waker) -> bool {
        let mut queue = self.queue.lock().unwrap();
        match queue.waiting.get_mut(&key) {
            Some(old) => {
                if !old.will_wake(waker) {
                    *old = waker.clone();
                }
                true
            }
            None => false,
        }
    }

    /// Returns the timer's waker, or None if the timer has fired already.
    fn remove(&self, key: Key) -> Option<Waker> {
        let mut queue = self.queue.lock().unwrap();
        let waker = queue.waiting.remove(&key);
        if waker.is_some() {
            self.settle(&queue);
        }
        waker
    }

    fn settle(&self, queue: &Queue) {
        self.next.store(queue.waiting.keys().next().map_or(u64::MAX, |key| key.0), SeqCst);
    }

    /// Removes all timers that are due at `now`, and calls their wakers.
    pub(crate) fn fire(&self, now: u64) -> usize {
        let due = {
            let mut queue = self.queue.lock().unwrap();
            let later = queue.waiting.split_off(&(now + 1, 0));
            let due = std::mem::replace(&mut queue.waiting, later);
            self.settle(&queue);
            due
        };
        let count = due.len();
        due.into_iter().for_each(|(_, waker)| waker.wake());
        count
    }
}

/// A sleep's timer, and the identifier of the task that it wakes; `NOBODY` if its waker isn't that of a task.
struct Waits {
    timers: &'static Timers,
    key: Key,
    table: usize,
    name: u64,
}

/// The future of `sleep`. The future may be moved between polls, so it needs no `pin!`.
///
/// ```
/// use std::time::Duration;
/// let pause: arachne::Sleep = arachne::sleep(Duration::from_millis(1));
/// arachne::Runtime::new(1).block_on(pause);
/// ```
#[must_use = "a sleep does nothing unless it is awaited"]
pub struct Sleep {
    at: u64,
    waits: Option<Waits>,
}

/// Waits for at least `duration`. Timers have a resolution of a millisecond; for less, read a timerfd by `net::Async`.
///
/// ```
/// use std::time::{Duration, Instant};
/// let begin = Instant::now();
/// arachne::Runtime::new(1).block_on(arachne::sleep(Duration::from_millis(5)));
/// assert!(begin.elapsed() >= Duration::from_millis(5));
/// ```
///
/// # Panics
/// The future panics if it has to wait outside of a runtime. `sleep` itself may be called anywhere.
pub fn sleep(duration: Duration) -> Sleep {
    let nanos = duration.as_nanos().min(u64::MAX as u128 / 4) as u64;
    Sleep { at: now().saturating_add(nanos), waits: None }
}

/// Waits until `moment`, or a little longer; see `sleep`.
///
/// ```
/// use std::time::{Duration, Instant};
/// let moment = Instant::now() + Duration::from_millis(2);
/// arachne::Runtime::new(1).block_on(arachne::sleep_until(moment));
/// assert!(Instant::now() >= moment);
/// ```
///
/// # Panics
/// Panics as `sleep` does.
pub fn sleep_until(moment: Instant) -> Sleep {
    sleep(moment.saturating_duration_since(Instant::now()))
}

impl fmt::Debug for Sleep {
    fn fmt(&self, f: &mut fmt::Formatter<'_>) -> fmt::Result {
        write!(f, "Sleep({:?} to go)", Duration::from_nanos(self.at.saturating_sub(now())))
    }
}

impl Sleep {
    /// Changes the time at which the sleep ends, even if a task already waits for it.
    ///
    /// ```
    /// use std::{pin::Pin, time::{Duration, Instant}};
    /// arachne::Runtime::new(1).block_on(async {
    ///     let mut sleep = arachne::sleep(Duration::from_secs(60));
    ///     Pin::new(&mut sleep).reset(Instant::now() + Duration::from_millis(1));
    ///     sleep.await;
    /// });
    /// ```
    pub fn reset(mut self: Pin<&mut Self>, deadline: Instant) {
        self.at = sleep_until(deadline).at;
        if let Some(waits) = self.waits.take() {
            if let (Some(waker), Some(shared)) = (waits.timers.remove(waits.key), shared_of(waits.table)) {
                self.start(shared, &waker);
            }
        }
    }

    fn start(&mut self, shared: &'static Shared, waker: &Waker) {
        let me = Worker::with(|worker| worker.filter(|w| std::ptr::eq(w.shared, shared)).map(|w| w.me));
        let timers = me.map_or(&shared.visitors, |me| &shared.workers[me].0.timers);
        let (key, first) = timers.add(self.at, waker.clone());
        if first && me.is_none() {
            shared.ring(0);
        }
        let (table, name) = (shared.table, name_in(waker, shared.table).unwrap_or(NOBODY));
        self.waits = Some(Waits { timers, key, table, name });
    }
}

impl Future for Sleep {
    type Output = ();
    fn poll(mut self: Pin<&mut Self>, cx: &mut Context<'_>) -> Poll<()> {
        if now() >= self.at {
            return Poll::Ready(());
        }
        match &mut self.waits {
            // The timer already has this task's waker, so its queue needn't be locked.
            Some(waits) if name_in(cx.waker(), waits.table) == Some(waits.name) => {}
            Some(waits) if waits.timers.renew(waits.key, cx.waker()) => {
                waits.name = name_in(cx.waker(), waits.table).unwrap_or(NOBODY);
            }
            _ => self.start(here().expect("a sleep outside of a runtime"), cx.waker()),
        }
        Poll::Pending
    }
}

impl Drop for Sleep {
    fn drop(&mut self) {
        if let Some(waits) = &self.waits {
            waits.timers.remove(waits.key);
        }
    }
}

/// The error of `timeout`: the future was not ready in time.
///
/// ```
/// assert_eq!(std::io::Error::from(arachne::Elapsed).kind(), std::io::ErrorKind::TimedOut);
/// ```
#[derive(Clone, Copy, PartialEq, Eq, Debug)]
pub struct Elapsed;

impl fmt::Display for Elapsed {
    fn fmt(&self, f: &mut fmt::Formatter<'_>) -> fmt::Result {
        f.write_str("the time was over")
    }
}
impl std::error::Error for Elapsed {}

impl From<Elapsed> for std::io::Error {
    fn from(elapsed: Elapsed) -> std::io::Error {
        std::io::Error::new(std::io::ErrorKind::TimedOut, elapsed)
    }
}

/// The future of `timeout`.
///
/// ```
/// use std::time::Duration;
/// let (_sender, receiver) = arachne::channel::<u32>(1);
/// let waits: arachne::Timeout<arachne::Recv<'_, u32>> = arachne::timeout(Duration::from_millis(1), receiver.recv());
/// assert!(arachne::Runtime::new(1).block_on(waits).is_err());
/// ```
#[must_use = "a timeout does nothing unless it is awaited"]
#[derive(Debug)]
pub struct Timeout<F> {
    future: F,
    sleep: Sleep,
}

/// Waits for a future's output for at most `duration`. If that time passes first, returns `Elapsed`.
///
/// ```
/// use std::time::Duration;
/// let never = arachne::timeout(Duration::from_millis(2), std::future::pending::<()>());
/// assert_eq!(arachne::Runtime::new(1).block_on(never), Err(arachne::Elapsed));
/// ```
///
/// # Panics
/// Panics as `sleep` does, unless the future is ready at once.
pub fn timeout<F: Future>(duration: Duration, future: F) -> Timeout<F> {
    Timeout { future, sleep: sleep(duration) }
}

impl<F: Future> Future for Timeout<F> {
    type Output = Result<F::Output, Elapsed>;
    fn poll(self: Pin<&mut Self>, cx: &mut Context<'_>) -> Poll<Self::Output> {
        // SAFETY: the future is not moved out of `self`, which has no Drop of its own. A `Sleep` may be moved.
        let (future, sleep) = unsafe {
            let this = self.get_unchecked_mut();
            (Pin::new_unchecked(&mut this.future), &mut this.sleep)
        };
        if let Poll::Ready(output) = future.poll(cx) {
            return Poll::Ready(Ok(output));
        }
        Pin::new(sleep).poll(cx).map(|()| Err(Elapsed))
    }
}

/// Returns the timers for futures that this thread polls: its worker's own, or those shared by all other threads.
pub(crate) fn of_this_thread() -> Option<&'static Timers> {
    let shared = here()?;
    let me = Worker::with(|worker| worker.filter(|w| std::ptr::eq(w.shared, shared)).map(|w| w.me));
    Some(me.map_or(&shared.visitors, |me| &shared.workers[me].0.timers))
}

/// Returns the milliseconds until the first timer of `workers` is due (at most a minute); -1 if there is none.
pub(crate) fn rest(shared: &Shared, workers: impl Iterator<Item = usize>) -> i32 {
    let next = workers.map(|worker| shared.next_timer(worker)).min().unwrap_or(u64::MAX);
    if next == u64::MAX {
        return -1;
    }
    (next.saturating_sub(now()).saturating_add(999_999) / 1_000_000).min(60_000) as i32
}
