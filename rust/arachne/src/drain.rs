//! An orderly end of a runtime (`shutdown_within` and `stopping`), signals, and a limit on concurrent requests.

use crate::block_on::poll_fn;
use crate::net::Async;
use crate::runtime::Runtime;
use crate::shared::{here, is_own, Shared};
use crate::sync::atomic::{AtomicBool, AtomicUsize, Ordering::*};
use crate::sync::{thread, Arc, Instant, Mutex};
use crate::sys;
use crate::waker::in_own_poll;
use std::collections::BTreeMap;
use std::fmt;
use std::future::Future;
use std::io;
use std::os::unix::io::{AsRawFd, RawFd};
use std::pin::Pin;
use std::task::{Context, Poll, Waker};
use std::time::Duration;

#[derive(Default)]
pub(crate) struct Draining {
    begun: AtomicBool,
    waiting: Mutex<(u64, BTreeMap<u64, Waker>)>,
}

impl Draining {
    pub(crate) fn reset(&self) {
        self.begun.store(false, SeqCst);
    }

    pub(crate) fn begin(&self) {
        self.begun.store(true, SeqCst);
        let waiting = std::mem::take(&mut self.waiting.lock().unwrap().1);
        waiting.into_values().for_each(Waker::wake);
    }

    #[inline]
    pub(crate) fn has_begun(&self) -> bool {
        self.begun.load(SeqCst)
    }
}

/// Returns true once `Runtime::shutdown_within` was called for this task's runtime; false outside of a runtime.
///
/// A task that gets true should finish the work that it has begun, and begin nothing new.
///
/// ```
/// let runtime = arachne::Runtime::new(1);
/// let task = runtime.spawn(async {
///     while !arachne::is_stopping() {
///         arachne::sleep(std::time::Duration::from_millis(1)).await;
///     }
/// });
/// assert_eq!(runtime.shutdown_within(std::time::Duration::from_secs(5)).aborted, 0);
/// arachne::block_on(task).unwrap();
/// ```
#[must_use]
pub fn is_stopping() -> bool {
    here().map_or(false, |shared| shared.draining.has_begun())
}

/// The future of `stopping`, which is ready once `Runtime::shutdown_within` was called.
///
/// ```
/// async fn waits_at_most_until_the_end(receiver: arachne::Receiver<u32>) -> Option<u32> {
///     let mut end: arachne::Stopping = arachne::stopping();
///     end.or(receiver.recv()).await.flatten()
/// }
/// ```
#[must_use = "it waits once it is awaited"]
pub struct Stopping {
    shared: Option<&'static Shared>,
    /// If the future waits: the key under which it is registered with the runtime, and the waker registered there.
    waits: Option<(u64, Waker)>,
    /// The number of polls since `shutdown_within` was called in which the task had not yet tried to read a socket.
    blind: u32,
}

/// After `shutdown_within` was called, the future stays pending for at most this many polls in which its task has read
/// no socket. A `select!` with a random order most likely tries its socket first in one of these polls.
const BLIND: u32 = 4;

/// Waits until `Runtime::shutdown_within` is called, in order to end an idle connection, say; see `Stopping::or`.
///
/// If the task also waits for a socket, this future becomes ready only after the task has tried to read, or after a few
/// polls. So a request that has arrived is still read.
///
/// ```
/// use std::time::Duration;
/// let runtime = arachne::Runtime::new(1);
/// let task = runtime.spawn(async {
///     arachne::stopping().await;
///     "what was in flight is done"
/// });
/// assert_eq!(runtime.shutdown_within(Duration::from_secs(5)).aborted, 0);
/// assert_eq!(arachne::block_on(task).unwrap(), "what was in flight is done");
/// ```
pub fn stopping() -> Stopping {
    Stopping { shared: None, waits: None, blind: 0 }
}

impl Stopping {
    /// Waits for the output of `future`. Returns None if `shutdown_within` is called before `future` is ready.
    ///
    /// `future` is polled first. The same `Stopping` can be used for each read of a connection.
    ///
    /// ```
    /// async fn serve(stream: arachne::net::TcpStream) -> std::io::Result<()> {
    ///     let (mut buffer, mut end) = ([0; 4096], arachne::stopping());
    ///     while let Some(read) = end.or(stream.read(&mut buffer)).await {
    ///         match read? {
    ///             0 => break,
    ///             len => stream.write_all(&buffer[..len]).await?,
    ///         }
    ///     }
    ///     Ok(())
    /// }
    /// ```
    pub async fn or<F: Future>(&mut self, mut future: F) -> Option<F::Output> {
        poll_fn(|cx| {
            // SAFETY: the future is in this function's frame until it is dropped, and nothing else refers to it.
            match unsafe { Pin::new_unchecked(&mut future) }.poll(cx) {
                Poll::Ready(output) => Poll::Ready(Some(output)),
                Poll::Pending => Pin::new(&mut *self).poll(cx).map(|()| None),
            }
        })
        .await
    }
}

impl fmt::Debug for Stopping {
    fn fmt(&self, f: &mut fmt::Formatter<'_>) -> fmt::Result {
        f.write_str("Stopping")
    }
}

impl Future for Stopping {
    type Output = ();
    fn poll(mut self: Pin<&mut Self>, cx: &mut Context<'_>) -> Poll<()> {
        let shared = match self.shared.or_else(here) {
            Some(shared) => shared,
            None => return Poll::Pending,
        };
        self.shared = Some(shared);
        // A read that the runtime has delayed to the task's next poll comes first, since there may be data.
        let reads_later = in_own_poll(cx.waker(), |worker| worker.put_off.get());
        if shared.draining.has_begun() {
            let is_blind = self.waits.is_some() && in_own_poll(cx.waker(), |worker| worker.reads.get() == 0);
            if reads_later || is_blind && self.blind < BLIND {
                self.blind += is_blind as u32;
                cx.waker().wake_by_ref();
                return Poll::Pending;
            }
            return Poll::Ready(());
        }
        if self.waits.as_ref().map_or(false, |(_, waker)| waker.will_wake(cx.waker())) {
            return Poll::Pending;
        }
        {
            let mut waiting = shared.draining.waiting.lock().unwrap();
            let key = self.waits.take().map_or(waiting.0, |(key, _)| key);
            waiting.0 = waiting.0.max(key + 1);
            waiting.1.insert(key, cx.waker().clone());
            self.waits = Some((key, cx.waker().clone()));
        }
        // Read again after the waker is registered, because `begin` sets the flag first, and then takes the wakers.
        if !shared.draining.has_begun() {
            return Poll::Pending;
        }
        if reads_later {
            cx.waker().wake_by_ref();
            return Poll::Pending;
        }
        Poll::Ready(())
    }
}

impl Drop for Stopping {
    fn drop(&mut self) {
        if let (Some(shared), Some((key, _))) = (self.shared, &self.waits) {
            shared.draining.waiting.lock().unwrap().1.remove(key);
        }
    }
}

/// The result of `Runtime::shutdown_within`.
///
/// ```
/// let runtime = arachne::Runtime::new(1);
/// runtime.spawn(std::future::pending::<()>());
/// let ended: arachne::Ended = runtime.shutdown_within(std::time::Duration::from_millis(1));
/// assert_eq!(ended.aborted, 1);
/// ```
#[derive(Clone, Copy, PartialEq, Eq, Debug)]
#[non_exhaustive]
pub struct Ended {
    /// The number of tasks that were dropped at the deadline, without those of `spawn_background`.
    pub aborted: u64,
}

impl Runtime {
    /// Returns the number of tasks that have not ended.
    ///
    /// ```
    /// let runtime = arachne::Runtime::new(1);
    /// let _waits = runtime.spawn(std::future::pending::<()>());
    /// assert_eq!(runtime.live(), 1);
    /// ```
    #[must_use]
    pub fn live(&self) -> u64 {
        self.shared().live()
    }

    /// Ends the runtime in order: waits for its tasks until the deadline, and then drops all tasks that are left.
    ///
    /// From this call on, `stopping` is ready, and `accept` fails once it has accepted all connections that had
    /// arrived. The call doesn't wait for tasks of `spawn_background`. With `Duration::MAX` there is no deadline.
    ///
    /// The call waits for polls that are in progress at the deadline. `spawn_blocking` closures that still run then
    /// continue without the runtime, and aren't counted in `aborted`. Tasks that they spawn after the deadline are
    /// cancelled. A task that calls this function waits for itself until the deadline, and is counted in `aborted`.
    ///
    /// ```
    /// use std::time::Duration;
    /// let runtime = arachne::Runtime::new(1);
    /// let task = runtime.spawn(arachne::sleep(Duration::from_millis(5)));
    /// assert_eq!(runtime.shutdown_within(Duration::from_secs(5)).aborted, 0);
    /// assert!(task.is_finished());
    /// ```
    pub fn shutdown_within(mut self, deadline: Duration) -> Ended {
        let until = Instant::now().checked_add(deadline);
        self.shared().draining.begin();
        let busy = || self.shared().awaited() != 0 || self.shared().blocking.is_busy();
        while busy() && until.map_or(true, |until| Instant::now() < until) {
            thread::sleep(Duration::from_micros(500));
        }
        let aborted = self.shared().awaited();
        if is_own(self.shared()) {
            self.shutdown();
        } else {
            self.end(until);
        }
        Ended { aborted }
    }
}

/// Catches a signal of the operating system, in place of its previous action. Tasks and threads can wait for it.
///
/// ```no_run
/// # fn main() -> std::io::Result<()> {
/// let end = arachne::Signal::heard(15)?;                      // SIGTERM
/// let runtime = arachne::Builder::new(4).build()?;
/// end.wait();
/// runtime.shutdown_within(std::time::Duration::from_secs(5));
/// # Ok(())
/// # }
/// ```
#[derive(Debug)]
pub struct Signal(Async<Event>);

/// An eventfd that a signal handler raises, and that is therefore never closed.
#[derive(Debug)]
struct Event(RawFd);

impl AsRawFd for Event {
    fn as_raw_fd(&self) -> RawFd {
        self.0
    }
}

impl Signal {
    /// Catches the signal `number` from now on; 15 is SIGTERM, 2 is SIGINT.
    ///
    /// The signal stays caught after this value is dropped. A later `Signal` for the same number replaces this one.
    ///
    /// Fails if `number` is no signal, or one that can't be caught, such as 9 (SIGKILL). Also fails for 4, 7, 8 and 11
    /// (SIGILL, SIGBUS, SIGFPE, SIGSEGV), since a real fault must end the process.
    ///
    /// ```
    /// # fn main() -> std::io::Result<()> {
    /// let reload = arachne::Signal::heard(10)?;       // SIGUSR1
    /// let id = std::process::id().to_string();
    /// std::process::Command::new("kill").args(["-USR1", &id]).status()?;
    /// assert!(reload.wait());
    /// # Ok(())
    /// # }
    /// ```
    pub fn heard(number: i32) -> io::Result<Signal> {
        let event = sys::new_event()?;
        sys::raise_at(number, event)?;
        Ok(Signal(Async::new(Event(event))?))
    }

    /// Waits for the signal. Returns at once if the signal has come since the last wait.
    ///
    /// If several tasks wait, one of them gets the signal. Like a socket, a `Signal` belongs to the runtime in which it
    /// first waits, so a later runtime needs a new one.
    ///
    /// ```
    /// # fn main() -> std::io::Result<()> {
    /// let (runtime, reload) = (arachne::Runtime::new(1), arachne::Signal::heard(12)?);       // SIGUSR2
    /// let task = runtime.spawn(async move { reload.recv().await });
    /// std::process::Command::new("kill").args(["-USR2", &std::process::id().to_string()]).status()?;
    /// runtime.block_on(task).unwrap()
    /// # }
    /// ```
    ///
    /// # Errors
    /// Fails if it has to wait outside of a runtime, or once the signal's runtime has ended.
    pub async fn recv(&self) -> io::Result<()> {
        let not_yet = || io::Error::from(io::ErrorKind::WouldBlock);
        let take = |event: &Event| sys::take_event(event.0).then_some(()).ok_or_else(not_yet);
        self.0.read_with(take).await
    }

    /// Blocks the calling thread until the signal comes. Returns at once if the signal has come since the last wait.
    ///
    /// Returns false if the wait fails, otherwise true. In a task use `recv`, since `wait` blocks its thread and, in
    /// `spawn_blocking`, delays the runtime's end. See the example at `heard`.
    pub fn wait(&self) -> bool {
        sys::await_event(self.0.get_ref().0)
    }
}

/// Limits how many uses of something, such as requests, are in progress at once.
///
/// A request that computes for long should call `yield_now` first, so that the worker reads, and can refuse, those that
/// have arrived behind it. To make connections wait instead, call `Semaphore::acquire_owned` before `accept`.
///
/// ```
/// let limit = arachne::Limit::new(1);
/// let ticket = limit.enter().expect("a place");
/// assert!(limit.enter().is_none());
/// drop(ticket);
/// assert!(limit.enter().is_some());
/// ```
#[derive(Clone, Debug)]
pub struct Limit(Arc<(AtomicUsize, usize)>);

/// One use in progress under a `Limit`, from `Limit::enter`. Dropping the ticket ends the use.
///
/// ```
/// let limit = arachne::Limit::new(8);
/// let ticket: arachne::Ticket = limit.enter().unwrap();
/// assert_eq!(limit.count(), 1);
/// drop(ticket);
/// assert_eq!(limit.count(), 0);
/// ```
#[derive(Debug)]
#[must_use = "a place is given back when this is dropped"]
pub struct Ticket(Limit);

impl Limit {
    /// Returns a limit of `most` uses in progress at once. Clones of a limit share the count.
    ///
    /// ```
    /// let limit = arachne::Limit::new(1);
    /// let other = limit.clone();
    /// let _ticket = limit.enter();
    /// assert!(other.enter().is_none());
    /// ```
    #[must_use]
    pub fn new(most: usize) -> Limit {
        Limit(Arc::new((AtomicUsize::new(0), most)))
    }

    /// Begins a use. Returns None, without waiting, if as many uses as the limit allows are in progress.
    ///
    /// ```
    /// let limit = arachne::Limit::new(100);
    /// let answer = match limit.enter() {
    ///     Some(_ticket) => "served",
    ///     None => "busy, try again",
    /// };
    /// assert_eq!(answer, "served");
    /// ```
    #[must_use]
    pub fn enter(&self) -> Option<Ticket> {
        let (count, most) = &*self.0;
        let entered = count.fetch_update(SeqCst, SeqCst, |count| (count < *most).then(|| count + 1));
        entered.is_ok().then(|| Ticket(self.clone()))
    }

    /// Returns the number of uses in progress; see the example at `Ticket`.
    #[must_use]
    pub fn count(&self) -> usize {
        self.0 .0.load(SeqCst)
    }
}

impl Drop for Ticket {
    fn drop(&mut self) {
        self.0 .0 .0.fetch_sub(1, SeqCst);
    }
}
