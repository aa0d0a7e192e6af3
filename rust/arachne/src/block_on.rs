//! The functions `block_on`, `yield_now` and `poll_fn`.

use crate::sync::atomic::{AtomicBool, Ordering::*};
use crate::sync::thread::{self, Thread};
use crate::sync::Arc;
use crate::timer;
use std::cell::RefCell;
use std::fmt;
use std::future::Future;
use std::pin::Pin;
use std::task::{Context, Poll, Wake, Waker};
use std::time::Duration;

struct Parker {
    thread: Thread,
    woken: AtomicBool,
}

impl Wake for Parker {
    fn wake(self: Arc<Self>) {
        self.wake_by_ref();
    }
    fn wake_by_ref(self: &Arc<Self>) {
        if !self.woken.swap(true, SeqCst) {
            self.thread.unpark();
        }
    }
}

thread_local! {
    /// This thread's `Parker` for its next `block_on`; `None` at first, and while a `block_on` uses it.
    static PARKER: RefCell<Option<Arc<Parker>>> = const { RefCell::new(None) };
}

#[cfg(feature = "explore")]
pub(crate) fn forget_parker() {
    PARKER.with(|parker| *parker.borrow_mut() = None);
}

/// Polls a future on the calling thread until it is ready. The thread sleeps while the future waits.
///
/// In a task use `await` instead, because this call would block the task's worker.
///
/// ```
/// let (sender, receiver) = arachne::channel(1);
/// std::thread::spawn(move || sender.try_send(42));
/// assert_eq!(arachne::block_on(receiver.recv()), Some(42));
/// ```
pub fn block_on<F: Future>(future: F) -> F::Output {
    let kept = PARKER.with(|parker| parker.borrow_mut().take());
    let parker = kept.unwrap_or_else(|| Arc::new(Parker { thread: thread::current(), woken: AtomicBool::new(false) }));
    parker.woken.store(false, SeqCst);
    let waker = Waker::from(parker.clone());
    let mut cx = Context::from_waker(&waker);
    let mut future = future;
    // SAFETY: until the future is dropped it is used only through this pin, so it isn't moved.
    let mut future = unsafe { Pin::new_unchecked(&mut future) };
    loop {
        if let Poll::Ready(output) = future.as_mut().poll(&mut cx) {
            PARKER.with(|kept| *kept.borrow_mut() = Some(parker));
            return output;
        }
        while !parker.woken.swap(false, SeqCst) {
            park();
        }
    }
}

/// A thread that waits in `block_on` fires its timers itself if they are late by this many nanoseconds.
const LATE: u64 = 2_000_000;

/// Parks this thread until it is unparked. If a timer that this thread set is late, because the worker that should fire
/// it is in a long poll or is this thread, fires the timer instead.
fn park() {
    let timers = timer::of_this_thread();
    let due = timers.map_or(u64::MAX, |timers| timers.next().saturating_add(LATE));
    let now = timer::now();
    match timers {
        Some(timers) if due <= now => drop(timers.fire(now)),
        Some(_) if due != u64::MAX => thread::park_timeout(Duration::from_nanos(due - now)),
        _ => thread::park(),
    }
}

/// The future of `yield_now`, which is pending at its first poll and ready at its second.
///
/// ```
/// let pause: arachne::Yield = arachne::yield_now();
/// arachne::block_on(pause);
/// ```
#[must_use = "a yield does nothing unless it is awaited"]
#[derive(Debug)]
pub struct Yield(bool);

/// Lets other ready tasks run first. A task should call this if it computes for long, or never has to wait.
///
/// ```
/// let runtime = arachne::Runtime::new(1);
/// let sums = runtime.spawn(async {
///     let mut sum = 0u64;
///     for n in 0..1_000_000 {
///         sum += n;
///         if n % 10_000 == 0 {
///             arachne::yield_now().await;
///         }
///     }
///     sum
/// });
/// assert_eq!(runtime.block_on(sums).unwrap(), 499_999_500_000);
/// ```
pub fn yield_now() -> Yield {
    Yield(false)
}

impl Future for Yield {
    type Output = ();
    fn poll(mut self: Pin<&mut Self>, cx: &mut Context<'_>) -> Poll<()> {
        if self.0 {
            return Poll::Ready(());
        }
        self.0 = true;
        cx.waker().wake_by_ref();
        Poll::Pending
    }
}

/// The future of `poll_fn`. The future may be moved between polls.
///
/// ```
/// use std::task::{Context, Poll};
/// fn ready(_: &mut Context<'_>) -> Poll<u32> {
///     Poll::Ready(42)
/// }
/// let future: arachne::PollFn<fn(&mut Context<'_>) -> Poll<u32>> = arachne::poll_fn(ready);
/// assert_eq!(arachne::block_on(future), 42);
/// ```
pub struct PollFn<F>(F);
impl<F> Unpin for PollFn<F> {}

impl<F> fmt::Debug for PollFn<F> {
    fn fmt(&self, f: &mut fmt::Formatter<'_>) -> fmt::Result {
        f.write_str("PollFn")
    }
}

/// Returns a future whose every poll calls `poll`. (std has this function, too, but rustc 1.63 lacks it.)
///
/// ```
/// use std::task::Poll;
/// let mut polls = 0;
/// let third = arachne::poll_fn(|cx| {
///     polls += 1;
///     cx.waker().wake_by_ref();
///     if polls == 3 { Poll::Ready(polls) } else { Poll::Pending }
/// });
/// assert_eq!(arachne::block_on(third), 3);
/// ```
///
/// By `poll_fn`, a task can wait for the first of several futures:
///
/// ```
/// use std::{future::Future, pin::Pin, task::Poll, time::Duration};
/// let (sender, receiver) = arachne::channel(1);
/// arachne::Runtime::new(1).block_on(async {
///     arachne::spawn(async move { sender.send(42).await });
///     let (mut next, mut late) = (receiver.recv(), arachne::sleep(Duration::from_secs(60)));
///     let first = arachne::poll_fn(|cx| match Pin::new(&mut next).poll(cx) {
///         Poll::Ready(value) => Poll::Ready(value),
///         Poll::Pending => Pin::new(&mut late).poll(cx).map(|()| None),
///     });
///     assert_eq!(first.await, Some(42));
/// });
/// ```
pub fn poll_fn<T, F: FnMut(&mut Context<'_>) -> Poll<T>>(poll: F) -> PollFn<F> {
    PollFn(poll)
}

impl<T, F: FnMut(&mut Context<'_>) -> Poll<T>> Future for PollFn<F> {
    type Output = T;
    #[inline]
    fn poll(mut self: Pin<&mut Self>, cx: &mut Context<'_>) -> Poll<T> {
        (self.0)(cx)
    }
}
