//! A semaphore with the names and results of tokio's. It gives permits in the order of the requests.

use crate::reactor::Slot;
use crate::shared::here;
use crate::sync::atomic::{AtomicBool, Ordering::*};
use crate::sync::{Arc, Mutex};
use std::collections::VecDeque;
use std::fmt;
use std::future::Future;
use std::pin::Pin;
use std::task::{Context, Poll};

struct Node {
    wants: usize,
    granted: AtomicBool,
    slot: Slot,
}

#[derive(Default)]
struct State {
    permits: usize,
    closed: bool,
    line: VecDeque<Arc<Node>>,
}

/// A number of permits that tasks can take and give back. A task waits if it wants more permits than are left.
///
/// ```
/// use std::sync::Arc;
/// let (runtime, permits) = (arachne::Runtime::new(2), Arc::new(arachne::Semaphore::new(10)));
/// runtime.block_on(async {
///     let permit = permits.clone().acquire_owned().await.unwrap();
///     let task = arachne::spawn(async move { drop(permit) });     // one of ten at a time
///     assert!(permits.available_permits() >= 9);
///     task.await.unwrap();
/// });
/// ```
pub struct Semaphore {
    state: Mutex<State>,
}

impl fmt::Debug for Semaphore {
    fn fmt(&self, f: &mut fmt::Formatter<'_>) -> fmt::Result {
        write!(f, "Semaphore({} available)", self.available_permits())
    }
}

/// The error of `Semaphore::acquire`: the semaphore is closed.
///
/// ```
/// let permits = arachne::Semaphore::new(0);
/// permits.close();
/// let error = arachne::block_on(permits.acquire()).unwrap_err();
/// assert_eq!(error.to_string(), "the semaphore is closed");
/// assert_eq!(std::io::Error::from(error).kind(), std::io::ErrorKind::Other);     // so `?` serves in I/O code, too
/// ```
#[derive(Clone, Copy, PartialEq, Eq, Debug)]
#[non_exhaustive]
pub struct AcquireError;

impl fmt::Display for AcquireError {
    fn fmt(&self, f: &mut fmt::Formatter<'_>) -> fmt::Result {
        f.write_str("the semaphore is closed")
    }
}
impl std::error::Error for AcquireError {}

impl From<AcquireError> for std::io::Error {
    fn from(error: AcquireError) -> std::io::Error {
        std::io::Error::new(std::io::ErrorKind::Other, error)
    }
}

/// The error of `Semaphore::try_acquire`.
///
/// ```
/// let permits = arachne::Semaphore::new(1);
/// assert_eq!(permits.try_acquire_many(2).unwrap_err(), arachne::TryAcquireError::NoPermits);
/// permits.close();
/// assert_eq!(permits.try_acquire().unwrap_err(), arachne::TryAcquireError::Closed);
/// ```
#[derive(Clone, Copy, PartialEq, Eq, Debug)]
pub enum TryAcquireError {
    /// The semaphore is closed.
    Closed,
    /// There are too few permits, or other tasks wait for permits.
    NoPermits,
}

impl fmt::Display for TryAcquireError {
    fn fmt(&self, f: &mut fmt::Formatter<'_>) -> fmt::Result {
        f.write_str(match self {
            TryAcquireError::Closed => "the semaphore is closed",
            TryAcquireError::NoPermits => "there are not so many permits",
        })
    }
}
impl std::error::Error for TryAcquireError {}

impl Semaphore {
    /// Returns a semaphore with `permits` available permits.
    ///
    /// ```
    /// assert_eq!(arachne::Semaphore::new(3).available_permits(), 3);
    /// ```
    #[must_use]
    pub fn new(permits: usize) -> Semaphore {
        Semaphore { state: Mutex::new(State { permits, ..State::default() }) }
    }

    /// Returns how many permits are left, even if a task waits for more; see the example at `new`.
    #[must_use]
    pub fn available_permits(&self) -> usize {
        self.state.lock().unwrap().permits
    }

    /// Waits for a permit, in the order of the requests. Fails if the semaphore is closed.
    ///
    /// ```
    /// let permits = arachne::Semaphore::new(1);
    /// let permit = arachne::block_on(permits.acquire()).unwrap();
    /// assert_eq!(permits.available_permits(), 0);
    /// drop(permit);
    /// assert_eq!(permits.available_permits(), 1);
    /// ```
    pub fn acquire(&self) -> Acquire<'_> {
        self.acquire_many(1)
    }

    /// Waits for `wants` permits together, in the order of the requests. Fails if the semaphore is closed.
    ///
    /// ```
    /// let permits = arachne::Semaphore::new(5);
    /// let _three = arachne::block_on(permits.acquire_many(3)).unwrap();
    /// assert_eq!(permits.available_permits(), 2);
    /// ```
    pub fn acquire_many(&self, wants: u32) -> Acquire<'_> {
        Acquire { semaphore: self, wants: wants as usize, node: None }
    }

    /// Like `acquire`, but returns a permit that can be moved to another task; see the example at `Semaphore`.
    pub async fn acquire_owned(self: Arc<Self>) -> Result<OwnedSemaphorePermit, AcquireError> {
        self.acquire_many_owned(1).await
    }

    /// Like `acquire_many`, but returns permits that can be moved to another task.
    ///
    /// ```
    /// let permits = std::sync::Arc::new(arachne::Semaphore::new(5));
    /// let all = arachne::block_on(permits.clone().acquire_many_owned(5)).unwrap();
    /// std::thread::spawn(move || drop(all)).join().unwrap();
    /// assert_eq!(permits.available_permits(), 5);
    /// ```
    pub async fn acquire_many_owned(self: Arc<Self>, wants: u32) -> Result<OwnedSemaphorePermit, AcquireError> {
        self.acquire_many(wants).await?.forget();
        Ok(OwnedSemaphorePermit { semaphore: self, count: wants as usize })
    }

    /// Takes a permit if one is left and no task waits for permits; see the example at `TryAcquireError`.
    pub fn try_acquire(&self) -> Result<SemaphorePermit<'_>, TryAcquireError> {
        self.try_acquire_many(1)
    }

    /// Takes `wants` permits if they are left and no task waits for permits; see the example at `TryAcquireError`.
    pub fn try_acquire_many(&self, wants: u32) -> Result<SemaphorePermit<'_>, TryAcquireError> {
        let count = wants as usize;
        self.take(count).map(|()| SemaphorePermit { semaphore: self, count })
    }

    /// Like `try_acquire`, but returns a permit that can be moved to another task.
    ///
    /// ```
    /// let permits = std::sync::Arc::new(arachne::Semaphore::new(1));
    /// let permit = permits.clone().try_acquire_owned();
    /// assert!(permit.is_ok() && permits.try_acquire_owned().is_err());
    /// ```
    pub fn try_acquire_owned(self: Arc<Self>) -> Result<OwnedSemaphorePermit, TryAcquireError> {
        self.try_acquire_many_owned(1)
    }

    /// Like `try_acquire_many`, but returns permits that can be moved to another task.
    ///
    /// ```
    /// let permits = std::sync::Arc::new(arachne::Semaphore::new(3));
    /// let two = permits.clone().try_acquire_many_owned(2);
    /// assert!(two.is_ok() && permits.try_acquire_many_owned(2).is_err());
    /// ```
    pub fn try_acquire_many_owned(self: Arc<Self>, wants: u32) -> Result<OwnedSemaphorePermit, TryAcquireError> {
        let count = wants as usize;
        self.take(count)?;
        Ok(OwnedSemaphorePermit { semaphore: self, count })
    }

    fn take(&self, wants: usize) -> Result<(), TryAcquireError> {
        let mut state = self.state.lock().unwrap();
        if state.closed {
            return Err(TryAcquireError::Closed);
        }
        if !state.line.is_empty() || state.permits < wants {
            return Err(TryAcquireError::NoPermits);
        }
        state.permits -= wants;
        Ok(())
    }

    /// Adds `count` permits, and wakes the waiting tasks whose requests can be served now.
    ///
    /// ```
    /// let permits = std::sync::Arc::new(arachne::Semaphore::new(0));
    /// let adds = permits.clone();
    /// std::thread::spawn(move || adds.add_permits(1));
    /// arachne::block_on(permits.acquire()).unwrap().forget();
    /// ```
    ///
    /// # Panics
    /// Panics if there would be more permits than fit into a `usize`.
    #[track_caller]
    pub fn add_permits(&self, count: usize) {
        let mut state = self.state.lock().unwrap();
        match state.permits.checked_add(count) {
            Some(permits) => state.permits = permits,
            None => {
                drop(state);
                panic!("more permits than can be counted");
            }
        }
        self.grant(state);
    }

    /// Closes the semaphore: waiting tasks and later requests get an error. Permits that tasks already have stay valid.
    ///
    /// ```
    /// let permits = arachne::Semaphore::new(1);
    /// permits.close();
    /// assert!(permits.is_closed() && permits.try_acquire().is_err());
    /// ```
    pub fn close(&self) {
        let mut state = self.state.lock().unwrap();
        state.closed = true;
        let line = std::mem::take(&mut state.line);
        drop(state);
        line.iter().for_each(|node| node.slot.wake());
    }

    /// Returns true if `close` was called; see the example there.
    #[must_use]
    pub fn is_closed(&self) -> bool {
        self.state.lock().unwrap().closed
    }

    /// Gives permits to the first waiters as long as they suffice, releases the lock, and then wakes these waiters.
    fn grant(&self, mut state: crate::sync::MutexGuard<'_, State>) {
        let mut granted = Vec::new();
        while state.line.front().map_or(false, |node| node.wants <= state.permits) {
            if let Some(node) = state.line.pop_front() {
                state.permits -= node.wants;
                node.granted.store(true, SeqCst);
                granted.push(node);
            }
        }
        drop(state);
        granted.iter().for_each(|node| node.slot.wake());
    }
}

/// The future of `Semaphore::acquire`. A future that is dropped while it waits leaves the queue.
///
/// ```
/// let permits = arachne::Semaphore::new(1);
/// let waits: arachne::Acquire<'_> = permits.acquire();
/// assert!(arachne::block_on(waits).is_ok());
/// ```
#[must_use = "permits are taken once the future is awaited"]
pub struct Acquire<'a> {
    semaphore: &'a Semaphore,
    wants: usize,
    node: Option<Arc<Node>>,
}

impl fmt::Debug for Acquire<'_> {
    fn fmt(&self, f: &mut fmt::Formatter<'_>) -> fmt::Result {
        write!(f, "Acquire({})", self.wants)
    }
}

impl<'a> Future for Acquire<'a> {
    type Output = Result<SemaphorePermit<'a>, AcquireError>;
    fn poll(mut self: Pin<&mut Self>, cx: &mut Context<'_>) -> Poll<Self::Output> {
        let (semaphore, count) = (self.semaphore, self.wants);
        let permit = || Poll::Ready(Ok(SemaphorePermit { semaphore, count }));
        if let Some(node) = &self.node {
            node.slot.set(cx.waker());
            if !node.granted.load(SeqCst) {
                // Checked after the waker is set: `close` sets the flag before it wakes all waiters.
                return if semaphore.is_closed() { Poll::Ready(Err(AcquireError)) } else { Poll::Pending };
            }
            self.node = None;
            return permit();
        }
        match semaphore.take(count) {
            Ok(()) => return permit(),
            Err(TryAcquireError::Closed) => return Poll::Ready(Err(AcquireError)),
            Err(TryAcquireError::NoPermits) => {}
        }
        let table = here().map_or(usize::MAX, |shared| shared.table);
        let node = Arc::new(Node { wants: count, granted: AtomicBool::new(false), slot: Slot::new(table) });
        node.slot.set(cx.waker());
        let mut state = semaphore.state.lock().unwrap();
        if state.closed {
            return Poll::Ready(Err(AcquireError));
        }
        state.line.push_back(node.clone());
        semaphore.grant(state);
        if node.granted.load(SeqCst) {
            return permit();
        }
        self.node = Some(node);
        Poll::Pending
    }
}

impl Drop for Acquire<'_> {
    fn drop(&mut self) {
        if let Some(node) = self.node.take() {
            let mut state = self.semaphore.state.lock().unwrap();
            match state.line.iter().position(|other| Arc::ptr_eq(other, &node)) {
                Some(at) => drop(state.line.remove(at)),
                None if node.granted.load(SeqCst) => state.permits += node.wants,
                // The semaphore was closed.
                None => {}
            }
            self.semaphore.grant(state);
        }
    }
}

/// Permits of a semaphore, which are given back when this value is dropped.
///
/// ```
/// let permits = arachne::Semaphore::new(2);
/// let permit: arachne::SemaphorePermit<'_> = permits.try_acquire().unwrap();
/// drop(permit);
/// permits.try_acquire().unwrap().forget();
/// assert_eq!(permits.available_permits(), 1);
/// ```
#[must_use = "permits are given back when this is dropped"]
pub struct SemaphorePermit<'a> {
    semaphore: &'a Semaphore,
    count: usize,
}

/// Like `SemaphorePermit`, but from a semaphore in an `Arc`, so that it can be moved to another task.
///
/// ```
/// let permits = std::sync::Arc::new(arachne::Semaphore::new(1));
/// let permit: arachne::OwnedSemaphorePermit = permits.clone().try_acquire_owned().unwrap();
/// std::thread::spawn(move || drop(permit)).join().unwrap();
/// assert_eq!(permits.available_permits(), 1);
/// ```
#[must_use = "permits are given back when this is dropped"]
pub struct OwnedSemaphorePermit {
    semaphore: Arc<Semaphore>,
    count: usize,
}

macro_rules! permit {
    ($name:literal, $($permit:tt)*) => {
        impl fmt::Debug for $($permit)* {
            fn fmt(&self, f: &mut fmt::Formatter<'_>) -> fmt::Result {
                write!(f, "{}({})", $name, self.count)
            }
        }

        impl $($permit)* {
            /// Drops this value without giving the permits back; see the example at `SemaphorePermit`.
            pub fn forget(mut self) {
                self.count = 0;
            }
        }

        impl Drop for $($permit)* {
            fn drop(&mut self) {
                if self.count != 0 {
                    self.semaphore.add_permits(self.count);
                }
            }
        }
    };
}
permit!("SemaphorePermit", SemaphorePermit<'_>);
permit!("OwnedSemaphorePermit", OwnedSemaphorePermit);
