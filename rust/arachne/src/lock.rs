//! A lock for tasks and threads. The proved core decides who holds the lock, and passes it on to the first waiter.

use crate::core::{Asked, Freed, LockCore};
use crate::reactor::Slot;
use crate::shared::here;
use crate::sync::atomic::{AtomicBool, Ordering::*};
use crate::sync::Arc;
use std::cell::UnsafeCell;
use std::fmt;
use std::future::Future;
use std::ops::{Deref, DerefMut};
use std::pin::Pin;
use std::task::{Context, Poll};

/// A waiter or holder of the lock. The core's queue owns an `Arc` of each waiting node.
struct Node {
    granted: AtomicBool,
    slot: Slot,
}

/// A lock around a value, for tasks and threads. A task may keep the guard across an `await`.
///
/// ```
/// use std::sync::Arc;
/// let (runtime, count) = (arachne::Runtime::new(2), Arc::new(arachne::Lock::new(0)));
/// let adds = |count: Arc<arachne::Lock<u32>>| async move { *count.lock().await += 1 };
/// let tasks: Vec<_> = (0..10).map(|_| runtime.spawn(adds(count.clone()))).collect();
/// tasks.into_iter().for_each(|task| runtime.block_on(task).unwrap());
/// assert_eq!(*count.try_lock().unwrap(), 10);
/// ```
pub struct Lock<T: ?Sized> {
    core: LockCore,
    value: UnsafeCell<T>,
}

// SAFETY: whoever has the lock has the value, and only one task or thread has the lock at a time.
unsafe impl<T: ?Sized + Send> Send for Lock<T> {}
// SAFETY: as above; the holder, on whatever thread, is the only one with access to the value.
unsafe impl<T: ?Sized + Send> Sync for Lock<T> {}

impl<T> Lock<T> {
    /// Returns a lock that is free.
    ///
    /// ```
    /// let lock = arachne::Lock::new(vec![1, 2]);
    /// arachne::block_on(async { lock.lock().await.push(3) });
    /// assert_eq!(lock.into_inner(), [1, 2, 3]);
    /// ```
    #[must_use]
    pub fn new(value: T) -> Lock<T> {
        Lock { core: LockCore::default(), value: UnsafeCell::new(value) }
    }

    /// Returns the value; see the example at `new`.
    pub fn into_inner(self) -> T {
        self.value.into_inner()
    }
}

impl<T: Default> Default for Lock<T> {
    fn default() -> Lock<T> {
        Lock::new(T::default())
    }
}

impl<T: ?Sized> fmt::Debug for Lock<T> {
    fn fmt(&self, f: &mut fmt::Formatter<'_>) -> fmt::Result {
        f.write_str("Lock")
    }
}

impl<T: ?Sized> Lock<T> {
    /// Waits for the lock, in the order of the requests. Dropping the future ends its wait.
    ///
    /// ```
    /// let lock = arachne::Lock::new(1);
    /// let guard = arachne::block_on(lock.lock());
    /// assert_eq!(*guard, 1);
    /// ```
    pub fn lock(&self) -> Locking<'_, T> {
        Locking { lock: self, node: None }
    }

    /// Takes the lock if it is free, or returns None.
    ///
    /// ```
    /// let lock = arachne::Lock::new(1);
    /// let guard = lock.try_lock();
    /// assert!(guard.is_some() && lock.try_lock().is_none());
    /// ```
    #[must_use]
    pub fn try_lock(&self) -> Option<Guard<'_, T>> {
        self.core.try_ask().map(|who| Guard { lock: self, who, _node: None })
    }

    /// Returns the value without taking the lock, because nobody else has a reference to the lock.
    ///
    /// ```
    /// let mut lock = arachne::Lock::new(1);
    /// *lock.get_mut() += 1;
    /// assert_eq!(lock.into_inner(), 2);
    /// ```
    pub fn get_mut(&mut self) -> &mut T {
        self.value.get_mut()
    }

    fn free(&self, who: u64) {
        if let Freed::HandedOn(next) = self.core.free(who) {
            if next % 2 == 1 {
                // The next waiter is in the middle of `try_ask`, which now finds that it has the lock.
                return;
            }
            // SAFETY: each waiter has left one count of its node's `Arc` in the queue. The holder that passes the lock
            // on to the waiter takes over this count.
            let node = unsafe { Arc::from_raw(next as usize as *const Node) };
            node.granted.store(true, SeqCst);
            node.slot.wake();
        }
    }
}

/// The future of `Lock::lock`.
///
/// ```
/// let lock = arachne::Lock::new(1);
/// let waits: arachne::Locking<'_, u32> = lock.lock();
/// assert_eq!(*arachne::block_on(waits), 1);
/// ```
#[must_use = "a lock is taken once its future is awaited"]
pub struct Locking<'a, T: ?Sized> {
    lock: &'a Lock<T>,
    node: Option<Arc<Node>>,
}

impl<T: ?Sized> fmt::Debug for Locking<'_, T> {
    fn fmt(&self, f: &mut fmt::Formatter<'_>) -> fmt::Result {
        f.write_str("Locking")
    }
}

impl<'a, T: ?Sized> Future for Locking<'a, T> {
    type Output = Guard<'a, T>;
    fn poll(mut self: Pin<&mut Self>, cx: &mut Context<'_>) -> Poll<Guard<'a, T>> {
        let lock = self.lock;
        if let Some(node) = &self.node {
            if !node.granted.load(SeqCst) {
                node.slot.set(cx.waker());
                if !node.granted.load(SeqCst) {
                    return Poll::Pending;
                }
            }
            let who = Arc::as_ptr(node) as usize as u64;
            return Poll::Ready(Guard { lock, who, _node: self.node.take() });
        }
        if let Some(who) = lock.core.try_ask() {
            return Poll::Ready(Guard { lock, who, _node: None });
        }
        let table = here().map_or(usize::MAX, |shared| shared.table);
        let node = Arc::new(Node { granted: AtomicBool::new(false), slot: Slot::new(table) });
        node.slot.set(cx.waker());
        let who = Arc::into_raw(node.clone());
        match lock.core.ask(who as usize as u64) {
            Asked::Queued => {
                self.node = Some(node);
                Poll::Pending
            }
            Asked::Granted => {
                // SAFETY: this is the count that was left above. The queue doesn't have it, since the lock was free.
                drop(unsafe { Arc::from_raw(who) });
                Poll::Ready(Guard { lock, who: who as usize as u64, _node: Some(node) })
            }
        }
    }
}

impl<T: ?Sized> Drop for Locking<'_, T> {
    fn drop(&mut self) {
        if let Some(node) = self.node.take() {
            let who = Arc::as_ptr(&node);
            if self.lock.core.withdraw(who as usize as u64) {
                // SAFETY: this is the count that was in the queue, which the waiter has left.
                drop(unsafe { Arc::from_raw(who) });
            } else {
                // This waiter got the lock before it could leave the queue, so it must free the lock.
                self.lock.free(who as usize as u64);
            }
        }
    }
}

/// Access to the value of a lock. The lock stays locked until the guard is dropped.
///
/// ```
/// let lock = arachne::Lock::new(1);
/// let mut guard: arachne::Guard<'_, u32> = lock.try_lock().unwrap();
/// *guard += 1;
/// drop(guard);
/// assert_eq!(*lock.try_lock().unwrap(), 2);
/// ```
pub struct Guard<'a, T: ?Sized> {
    lock: &'a Lock<T>,
    who: u64,
    /// Keeps the node allocated, because its address identifies the holder of the lock.
    _node: Option<Arc<Node>>,
}
// SAFETY: the guard is the only access to the value, on whatever thread.
unsafe impl<T: ?Sized + Send> Send for Guard<'_, T> {}
// SAFETY: a shared guard gives only shared access to the value.
unsafe impl<T: ?Sized + Sync> Sync for Guard<'_, T> {}

impl<T: ?Sized + fmt::Debug> fmt::Debug for Guard<'_, T> {
    fn fmt(&self, f: &mut fmt::Formatter<'_>) -> fmt::Result {
        (**self).fmt(f)
    }
}

impl<T: ?Sized> Deref for Guard<'_, T> {
    type Target = T;
    fn deref(&self) -> &T {
        // SAFETY: the guard's lock is locked.
        unsafe { &*self.lock.value.get() }
    }
}
impl<T: ?Sized> DerefMut for Guard<'_, T> {
    fn deref_mut(&mut self) -> &mut T {
        // SAFETY: the guard's lock is locked, and the guard is not shared.
        unsafe { &mut *self.lock.value.get() }
    }
}
impl<T: ?Sized> Drop for Guard<'_, T> {
    fn drop(&mut self) {
        self.lock.free(self.who);
    }
}
