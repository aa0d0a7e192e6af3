//! A set of tasks, whose outputs are returned in the order in which the tasks end.

use crate::block_on::poll_fn;
use crate::reactor::Slot;
use crate::shared::here;
use crate::spawn::spawn;
use crate::sync::{Arc, Mutex};
use crate::task::{AbortHandle, JoinError, JoinHandle};
use std::collections::{BTreeMap, VecDeque};
use std::fmt;
use std::future::Future;
use std::task::{Context, Poll, Wake, Waker};

/// The keys (in the set) of the tasks that have ended and not been joined, and the waker of the task in `join_next`.
struct Ended {
    numbers: Mutex<VecDeque<u64>>,
    waits: Slot,
}

/// The waker that a task of the set wakes at its end. It records the task's key, and wakes the task in `join_next`.
struct Tells {
    number: u64,
    ended: Arc<Ended>,
}

impl Wake for Tells {
    fn wake(self: Arc<Self>) {
        self.wake_by_ref();
    }
    fn wake_by_ref(self: &Arc<Self>) {
        self.ended.numbers.lock().unwrap().push_back(self.number);
        self.ended.waits.wake();
    }
}

/// A set of tasks whose outputs have one type. Dropping the set aborts the tasks that have not ended.
///
/// ```
/// let runtime = arachne::Runtime::new(2);
/// let sum = runtime.block_on(async {
///     let mut tasks = arachne::JoinSet::new();
///     (1..=4).for_each(|n| drop(tasks.spawn(async move { n * n })));
///     let mut sum = 0;
///     while let Some(square) = tasks.join_next().await {
///         sum += square.unwrap();
///     }
///     sum
/// });
/// assert_eq!(sum, 30);
/// ```
pub struct JoinSet<T> {
    tasks: BTreeMap<u64, JoinHandle<T>>,
    made: u64,
    ended: Arc<Ended>,
}

impl<T> fmt::Debug for JoinSet<T> {
    fn fmt(&self, f: &mut fmt::Formatter<'_>) -> fmt::Result {
        write!(f, "JoinSet({} tasks)", self.len())
    }
}

impl<T> Default for JoinSet<T> {
    fn default() -> JoinSet<T> {
        JoinSet::new()
    }
}

impl<T> JoinSet<T> {
    /// Returns an empty set.
    ///
    /// ```
    /// let mut tasks = arachne::JoinSet::<u32>::new();
    /// assert!(tasks.is_empty() && tasks.len() == 0);
    /// assert!(arachne::block_on(tasks.join_next()).is_none());
    /// ```
    #[must_use]
    pub fn new() -> JoinSet<T> {
        let table = here().map_or(usize::MAX, |shared| shared.table);
        let ended = Arc::new(Ended { numbers: Mutex::default(), waits: Slot::new(table) });
        JoinSet { tasks: BTreeMap::new(), made: 0, ended }
    }

    /// Returns the number of tasks in the set, ended or not, that were not joined yet; see the example at `new`.
    #[must_use]
    pub fn len(&self) -> usize {
        self.tasks.len()
    }

    /// Returns true if no task is in the set, ended or not; see the example at `new`.
    #[must_use]
    pub fn is_empty(&self) -> bool {
        self.tasks.is_empty()
    }

    /// Spawns a task in this set, as the function `spawn` does. Returns a handle that can abort the task.
    ///
    /// ```
    /// arachne::Runtime::new(1).block_on(async {
    ///     let mut tasks = arachne::JoinSet::new();
    ///     let handle = tasks.spawn(std::future::pending::<()>());
    ///     handle.abort();
    ///     assert!(tasks.join_next().await.unwrap().unwrap_err().is_cancelled());
    /// });
    /// ```
    ///
    /// # Panics
    /// Panics outside of a runtime.
    #[track_caller]
    pub fn spawn<F>(&mut self, future: F) -> AbortHandle
    where
        F: Future<Output = T> + Send + 'static,
        T: Send + 'static,
    {
        let mut task = spawn(future);
        let handle = task.abort_handle();
        self.made += 1;
        let tells = Arc::new(Tells { number: self.made, ended: self.ended.clone() });
        if task.is_there(&Waker::from(tells.clone())) {
            tells.wake();
        }
        self.tasks.insert(self.made, task);
        handle
    }

    /// Waits until any task of the set has ended, removes it and returns its output. Returns None if the set is empty.
    ///
    /// No output is lost if this future is dropped. See the example at `JoinSet`.
    pub async fn join_next(&mut self) -> Option<Result<T, JoinError>> {
        poll_fn(|cx: &mut Context<'_>| self.poll_join_next(cx)).await
    }

    /// Polls for the output of any ended task; see `join_next`. A task's end wakes only the task that polled last.
    ///
    /// ```
    /// arachne::Runtime::new(1).block_on(async {
    ///     let mut tasks = arachne::JoinSet::new();
    ///     tasks.spawn(async { 42 });
    ///     let output = arachne::poll_fn(|cx| tasks.poll_join_next(cx)).await;
    ///     assert_eq!(output.unwrap().unwrap(), 42);
    /// });
    /// ```
    pub fn poll_join_next(&mut self, cx: &mut Context<'_>) -> Poll<Option<Result<T, JoinError>>> {
        if let Some(output) = self.try_join_next() {
            return Poll::Ready(Some(output));
        }
        if self.tasks.is_empty() {
            return Poll::Ready(None);
        }
        self.ended.waits.set(cx.waker());
        // The second try comes after the waker is registered, because a task may have ended just before.
        match self.try_join_next() {
            Some(output) => Poll::Ready(Some(output)),
            None => Poll::Pending,
        }
    }

    /// Removes a task that has ended, and returns its output. Returns None if no task of the set has ended.
    ///
    /// ```
    /// arachne::Runtime::new(1).block_on(async {
    ///     let mut tasks = arachne::JoinSet::new();
    ///     tasks.spawn(std::future::pending::<()>());
    ///     assert!(tasks.try_join_next().is_none());
    /// });
    /// ```
    #[must_use]
    pub fn try_join_next(&mut self) -> Option<Result<T, JoinError>> {
        loop {
            let number = self.ended.numbers.lock().unwrap().pop_front()?;
            // A task that was detached is no longer in the set.
            if let Some(task) = self.tasks.remove(&number) {
                return task.output();
            }
        }
    }

    /// Aborts all tasks of the set, which stay in the set until `join_next` has returned their errors.
    ///
    /// ```
    /// arachne::Runtime::new(1).block_on(async {
    ///     let mut tasks = arachne::JoinSet::new();
    ///     tasks.spawn(std::future::pending::<()>());
    ///     tasks.abort_all();
    ///     assert!(tasks.join_next().await.unwrap().is_err());
    /// });
    /// ```
    pub fn abort_all(&mut self) {
        self.tasks.values().for_each(JoinHandle::abort);
    }

    /// Aborts all tasks of the set, and waits until they have ended.
    ///
    /// ```
    /// arachne::Runtime::new(1).block_on(async {
    ///     let mut tasks = arachne::JoinSet::new();
    ///     tasks.spawn(std::future::pending::<()>());
    ///     tasks.shutdown().await;
    ///     assert!(tasks.is_empty());
    /// });
    /// ```
    pub async fn shutdown(&mut self) {
        self.abort_all();
        while self.join_next().await.is_some() {}
    }

    /// Removes all tasks from the set without aborting them. The tasks run on, and their outputs are lost.
    ///
    /// ```
    /// arachne::Runtime::new(1).block_on(async {
    ///     let (sender, receiver) = arachne::channel(1);
    ///     let mut tasks = arachne::JoinSet::new();
    ///     tasks.spawn(async move { sender.send(42).await });
    ///     tasks.detach_all();
    ///     drop(tasks);
    ///     assert_eq!(receiver.recv().await, Some(42));
    /// });
    /// ```
    pub fn detach_all(&mut self) {
        self.tasks.clear();
    }
}

impl<T> Drop for JoinSet<T> {
    fn drop(&mut self) {
        self.abort_all();
    }
}
