//! Handles on a runtime, by which any thread can spawn tasks.

use crate::runtime::{Runtime, Stats};
use crate::shared::{here, Shared};
use crate::spawn::Refused;
use crate::sync::atomic::{AtomicU64, Ordering::*};
use crate::sync::thread;
use crate::task::{self, About, JoinHandle};
use std::fmt;
use std::future::Future;
use std::panic::Location;

/// The word of a `Door` counts calls in progress and, from the bit `TURN` on, how often the door was opened or closed.
const CALL: u64 = 1;
const TURN: u64 = 1 << 32;

/// Lets a `Handle` use its runtime's shared state only while that runtime exists. A later runtime reuses the state, and
/// old handles must not reach it. So each handle stores the door's count `turns` at the time when the handle was made.
#[derive(Default)]
pub(crate) struct Door(AtomicU64);

impl Door {
    pub(crate) fn open(&self) {
        self.0.fetch_add(TURN, SeqCst);
    }

    /// Closes the door to new calls, and waits for the calls in progress.
    pub(crate) fn close(&self) {
        self.0.fetch_add(TURN, SeqCst);
        while self.0.load(SeqCst) % TURN != 0 {
            thread::yield_now();
        }
    }

    /// Returns how often the door was opened or closed. No two runtimes that use the same shared state, one after the
    /// other, see the same count.
    pub(crate) fn turns(&self) -> u64 {
        self.0.load(SeqCst) / TURN
    }

    /// Calls `call` if `turns` is the current count, and is odd (the door is open); otherwise returns None. The call
    /// must be counted before `turns` is compared, because `close` changes `turns`, and then waits for counted calls.
    fn within<T>(&self, turns: u64, call: impl FnOnce() -> T) -> Option<T> {
        struct Leave<'a>(&'a AtomicU64);
        impl Drop for Leave<'_> {
            fn drop(&mut self) {
                self.0.fetch_sub(CALL, SeqCst);
            }
        }
        let seen = self.0.fetch_add(CALL, SeqCst) / TURN;
        let _leave = Leave(&self.0);
        (seen == turns && turns % 2 == 1).then(call)
    }
}

/// A handle on a runtime, by which any thread can spawn tasks. The handle may outlive the runtime.
///
/// A task that is spawned after the runtime has ended is dropped at once, and fails with `JoinError::Cancelled`. There
/// is no `block_on`: a thread waits for a task as in this example.
///
/// ```
/// let runtime = arachne::Runtime::new(2);
/// let handle = runtime.handle();
/// let answer = std::thread::spawn(move || arachne::block_on(handle.spawn(async { 6 * 7 })));
/// assert_eq!(answer.join().unwrap().unwrap(), 42);
/// ```
#[derive(Clone)]
pub struct Handle {
    shared: &'static Shared,
    turns: u64,
}

impl fmt::Debug for Handle {
    fn fmt(&self, f: &mut fmt::Formatter<'_>) -> fmt::Result {
        write!(f, "Handle({} workers)", self.shared.workers.len())
    }
}

impl Handle {
    pub(crate) fn of(shared: &'static Shared) -> Handle {
        Handle { shared, turns: shared.door.turns() }
    }

    /// Returns a handle on the current runtime: that of the calling task, `block_on` or `enter`.
    ///
    /// ```
    /// let runtime = arachne::Runtime::new(1);
    /// let handle = runtime.block_on(async { arachne::Handle::current() });
    /// assert_eq!(arachne::block_on(handle.spawn(async { 42 })).unwrap(), 42);
    /// ```
    ///
    /// # Panics
    /// Panics outside of a runtime.
    #[must_use]
    #[track_caller]
    pub fn current() -> Handle {
        Handle::try_current().expect("Handle::current outside of a runtime")
    }

    /// Returns a handle on the current runtime, as `current` does, or None outside of a runtime.
    ///
    /// ```
    /// assert!(arachne::Handle::try_current().is_none());
    /// assert!(arachne::Runtime::new(1).enter(|| arachne::Handle::try_current().is_some()));
    /// ```
    #[must_use]
    pub fn try_current() -> Option<Handle> {
        here().map(Handle::of)
    }

    /// Spawns a task, as `Runtime::spawn` does.
    ///
    /// ```
    /// let runtime = arachne::Runtime::new(1);
    /// let task = runtime.handle().spawn(async { 42 });
    /// assert_eq!(runtime.block_on(task).unwrap(), 42);
    /// ```
    #[track_caller]
    pub fn spawn<F>(&self, future: F) -> JoinHandle<F::Output>
    where
        F: Future + Send + 'static,
        F::Output: Send + 'static,
    {
        let (about, mut future) = (About { spawned: Location::caller(), name: None }, Some(future));
        let begin = || future.take().map(|future| self.shared.spawn_task(future, about, false));
        match self.shared.door.within(self.turns, begin).flatten() {
            Some(handle) => handle,
            None => cancelled(future.expect("a future that was not spawned"), about),
        }
    }

    /// Spawns a task as the function `spawn_balanced` does.
    ///
    /// ```
    /// let runtime = arachne::Runtime::new(2);
    /// let task = runtime.handle().spawn_balanced(async { 42 });
    /// assert_eq!(runtime.block_on(task).unwrap(), 42);
    /// ```
    #[track_caller]
    pub fn spawn_balanced<F>(&self, future: F) -> JoinHandle<F::Output>
    where
        F: Future + Send + 'static,
        F::Output: Send + 'static,
    {
        let (about, mut future) = (About { spawned: Location::caller(), name: None }, Some(future));
        let begin = || future.take().map(|future| self.shared.spawn_task(future, about, true));
        match self.shared.door.within(self.turns, begin).flatten() {
            Some(handle) => handle,
            None => cancelled(future.expect("a future that was not spawned"), about),
        }
    }

    /// Spawns a task as the function `try_spawn` does. Fails also if the runtime has ended.
    ///
    /// ```
    /// let runtime = arachne::Runtime::new(1);
    /// let handle = runtime.handle();
    /// assert!(handle.try_spawn(async { 42 }).is_ok());
    /// drop(runtime);
    /// assert!(handle.try_spawn(async { 42 }).is_err());
    /// ```
    #[track_caller]
    pub fn try_spawn<F>(&self, future: F) -> Result<JoinHandle<F::Output>, Refused<F>>
    where
        F: Future + Send + 'static,
        F::Output: Send + 'static,
    {
        let (about, mut future) = (About { spawned: Location::caller(), name: None }, Some(future));
        let begin = || future.take().map(|future| self.shared.try_spawn_task(future, about));
        match self.shared.door.within(self.turns, begin).flatten() {
            Some(spawned) => spawned,
            None => Err(Refused(future.expect("a future that was not spawned"))),
        }
    }

    /// Runs a closure that may block, as the function `spawn_blocking` does.
    ///
    /// ```
    /// let runtime = arachne::Runtime::new(1);
    /// let task = runtime.handle().spawn_blocking(|| std::fs::read_to_string("/proc/version"));
    /// assert!(runtime.block_on(task).unwrap().is_ok());
    /// ```
    #[track_caller]
    pub fn spawn_blocking<T: Send + 'static>(&self, work: impl FnOnce() -> T + Send + 'static) -> JoinHandle<T> {
        let (about, mut work) = (About { spawned: Location::caller(), name: None }, Some(work));
        let begin = || work.take().map(|work| self.shared.spawn_blocking(work, about));
        match self.shared.door.within(self.turns, begin).flatten() {
            Some(handle) => handle,
            None => cancelled(async move { work.expect("work that was not begun")() }, about),
        }
    }

    /// Returns the workers' counts, as `Runtime::stats` does. All counts are zero after the runtime has ended.
    ///
    /// ```
    /// let runtime = arachne::Runtime::new(2);
    /// let handle = runtime.handle();
    /// assert_eq!(handle.stats().workers.len(), 2);
    /// drop(runtime);
    /// assert_eq!(handle.stats().workers.len(), 0);
    /// ```
    #[must_use]
    pub fn stats(&self) -> Stats {
        self.shared.door.within(self.turns, || Runtime::stats_of(self.shared)).unwrap_or_default()
    }
}

fn cancelled<F>(future: F, about: About) -> JoinHandle<F::Output>
where
    F: Future + Send + 'static,
    F::Output: Send + 'static,
{
    let (raw, handle) = task::new(future, about);
    // SAFETY: the task is from `new`, and nobody else has it.
    unsafe { task::end(raw) };
    handle
}
