//! The functions that spawn a task, and put it into a task slot.

use crate::core::{Hands, Spawned, SHARD};
use crate::shared::{add, here, with_hands, Context, Shared};
use crate::sync::atomic::Ordering::*;
use crate::task::{self, About, JoinHandle, Label, Raw};
use std::fmt;
use std::future::Future;
use std::panic::Location;
use std::pin::Pin;
use std::task::{self as std_task, Poll};

/// A thread that is no worker spawns this many tasks in a row on one worker, and then as many on the next one.
const IN_A_ROW: usize = 16;

/// The error of `try_spawn`, which contains the future that was not spawned.
///
/// ```
/// let runtime = arachne::Builder::new(1).places(1).build().unwrap();     // rounded up to 4,096
/// let mut waiting = Vec::new();
/// let refused = loop {
///     match runtime.try_spawn(std::future::pending::<()>()) {
///         Ok(task) => waiting.push(task),
///         Err(refused) => break refused,
///     }
/// };
/// waiting.remove(0).abort();
/// runtime.spawn(refused.0);       // begins once the aborted task has ended
/// ```
pub struct Refused<F>(
    /// The future that was not spawned.
    pub F,
);

impl<F> fmt::Debug for Refused<F> {
    fn fmt(&self, f: &mut fmt::Formatter<'_>) -> fmt::Result {
        f.write_str("Refused")
    }
}

/// The future of a task of `spawn_background`. Its drop raises the second count of `Shared::background`.
struct Background<F> {
    future: F,
    _counted: Counted,
}

struct Counted(&'static Shared);
impl Drop for Counted {
    fn drop(&mut self) {
        self.0.background.1.fetch_add(1, SeqCst);
    }
}

impl<F: Future> Future for Background<F> {
    type Output = F::Output;
    #[inline]
    fn poll(self: Pin<&mut Self>, cx: &mut std_task::Context<'_>) -> Poll<F::Output> {
        // SAFETY: the future is not moved out of `self`, which has no Drop of its own.
        unsafe { self.map_unchecked_mut(|this| &mut this.future) }.poll(cx)
    }
}

impl Shared {
    /// Puts a task into a free task slot of the worker with this number. Consecutive tasks go to different blocks of 64
    /// slots, so that their wakes don't contend for a cache line.
    pub(crate) fn spawn_at(&self, hands: &Hands, worker: usize, raw: Raw, keep: bool) -> Spawned {
        let (shards, next) = (&*self.workers[worker].0.shards, &self.workers[worker].0.roomy.0);
        let hint = next.load(Relaxed);
        if self.roomy[hint / SHARD].0.load(Relaxed) >> (hint % SHARD) & 1 == 1 {
            match hands.spawn(hint, raw, keep) {
                Spawned::Full => {}
                spawned => {
                    next.store(hint / SHARD * SHARD + (hint + 1) % SHARD, Relaxed);
                    return spawned;
                }
            }
        }
        for (index, &shard) in shards.iter().enumerate() {
            let roomy = &self.roomy[shard].0;
            let mut bits = roomy.load(SeqCst);
            if bits != 0 && self.workers[worker].0.used.load(Relaxed) <= index {
                self.workers[worker].0.used.fetch_max(index + 1, SeqCst);
            }
            while bits != 0 {
                let (bit, at) = (bits & bits.wrapping_neg(), shard * SHARD + bits.trailing_zeros() as usize);
                let mut spawned = hands.spawn(at, raw, keep);
                if spawned == Spawned::Full {
                    // The bit is cleared before the second try: a thread that frees a slot sets the bit afterwards.
                    roomy.fetch_and(!bit, SeqCst);
                    spawned = hands.spawn(at, raw, keep);
                    if spawned != Spawned::Full {
                        roomy.fetch_or(bit, SeqCst);
                    }
                }
                if spawned != Spawned::Full {
                    next.store(at, Relaxed);
                    return spawned;
                }
                bits &= bits - 1;
            }
        }
        Spawned::Full
    }

    /// Puts a new task into a free task slot or, if no slot is free or other tasks wait for one, into the queue. A
    /// worker first tries its own slots. If `balanced` is true or the caller is no worker, workers get tasks in turn.
    #[inline]
    pub(crate) fn spawn(&'static self, raw: Raw, balanced: bool) {
        if !self.place_new(raw, balanced) {
            self.enqueue(raw);
        }
    }

    /// Returns false if no slot is free, or if other tasks wait for one.
    #[inline]
    fn place_new(&'static self, raw: Raw, balanced: bool) -> bool {
        Context::with(|worker| match worker {
            Some(worker) if std::ptr::eq(worker.shared, self) => {
                add(&worker.worker.spawned, 1);
                self.spawn_here(worker, raw, balanced)
            }
            _ => with_hands(self, |hands| {
                self.spawned.0.fetch_add(1, Relaxed);
                let active = self.active.0.load(Relaxed);
                let home = self.next_home.fetch_add(1, Relaxed) / IN_A_ROW % active;
                self.spawn_among(hands, home, raw)
            }),
        })
    }

    #[inline]
    fn spawn_here(&'static self, worker: &Context, raw: Raw, balanced: bool) -> bool {
        if self.queued.0.load(Relaxed) != 0 {
            return false;
        }
        if balanced {
            let home = self.next_home.fetch_add(IN_A_ROW, Relaxed) / IN_A_ROW % self.active.0.load(Relaxed);
            if home != worker.me {
                return self.spawn_among(&worker.hands, home, raw);
            }
        }
        match self.spawn_at(&worker.hands, worker.me, raw, true) {
            Spawned::Kept(job) => {
                self.set_next(worker, job);
                true
            }
            Spawned::Ready { name, unpark } => {
                self.published(name, unpark, false);
                true
            }
            Spawned::Full => self.spawn_among(&worker.hands, worker.me + 1, raw),
        }
    }

    /// Puts a new task into a slot of the first worker, from `home` on, that has a free one.
    fn spawn_among(&self, hands: &Hands, home: usize, raw: Raw) -> bool {
        if self.queued.0.load(Relaxed) != 0 {
            return false;
        }
        let count = self.workers.len();
        (0..count).any(|i| match self.spawn_at(hands, (home + i) % count, raw, false) {
            Spawned::Ready { name, unpark } => {
                self.published(name, unpark, false);
                true
            }
            _ => false,
        })
    }

    fn enqueue(&self, raw: Raw) {
        {
            let mut queue = self.queue.lock().unwrap();
            queue.push_back(raw);
            self.queued.0.fetch_add(1, SeqCst);
        }
        self.counts.queued.fetch_add(1, Relaxed);
        // Wakes a worker only after the task was counted: a worker checks this count last before it sleeps.
        self.rouse_any();
    }

    #[inline]
    pub(crate) fn spawn_task<F>(&'static self, future: F, about: About, balanced: bool) -> JoinHandle<F::Output>
    where
        F: Future + Send + 'static,
        F::Output: Send + 'static,
    {
        let (raw, handle) = task::new(future, about);
        self.observer.spawns(&about);
        self.spawn(raw, balanced);
        handle
    }

    pub(crate) fn spawn_background<F>(&'static self, future: F, about: About) -> JoinHandle<F::Output>
    where
        F: Future + Send + 'static,
        F::Output: Send + 'static,
    {
        let handle = self.spawn_task(Background { future, _counted: Counted(self) }, about, false);
        self.background.0.fetch_add(1, SeqCst);
        handle
    }

    pub(crate) fn try_spawn_task<F>(&'static self, future: F, about: About) -> Result<JoinHandle<F::Output>, Refused<F>>
    where
        F: Future + Send + 'static,
        F::Output: Send + 'static,
    {
        if self.queued.0.load(Relaxed) != 0 {
            return Err(Refused(future));
        }
        let (raw, handle) = task::new(future, about);
        if self.place_new(raw, false) {
            self.observer.spawns(&about);
            return Ok(handle);
        }
        // `place_new` has counted the task as spawned, so it must also be counted as ended.
        self.counts.ended_elsewhere.fetch_add(1, SeqCst);
        // SAFETY: nobody else has the task, and it was not polled.
        Err(Refused(unsafe { task::unmake(raw, handle) }))
    }
}

/// Spawns a task on the runtime of the caller. Returns a handle, which is a future of the task's output.
///
/// If a task calls this, the new task runs next on the same worker, or on another one if the caller's poll takes long.
///
/// ```
/// let sum = arachne::Runtime::new(2).block_on(async {
///     let (one, other) = (arachne::spawn(async { 1 }), arachne::spawn(async { 2 }));
///     one.await.unwrap() + other.await.unwrap()
/// });
/// assert_eq!(sum, 3);
/// ```
///
/// # Panics
/// Panics outside of a runtime.
#[inline]
#[track_caller]
pub fn spawn<F>(future: F) -> JoinHandle<F::Output>
where
    F: Future + Send + 'static,
    F::Output: Send + 'static,
{
    let about = About { spawned: Location::caller(), name: None };
    here().expect("spawn outside of a runtime").spawn_task(future, about, false)
}

/// Spawns a task as `spawn` does, and gives it a name for `Runtime::tasks` and the reports of slow polls.
///
/// ```
/// let name = arachne::Runtime::new(1).block_on(async { arachne::spawn_named("sweeper", async {}).about().name });
/// assert_eq!(name.unwrap().as_str(), "sweeper");
/// ```
///
/// # Panics
/// Panics outside of a runtime.
#[track_caller]
pub fn spawn_named<F>(name: &str, future: F) -> JoinHandle<F::Output>
where
    F: Future + Send + 'static,
    F::Output: Send + 'static,
{
    let about = About { spawned: Location::caller(), name: Some(Label::of(name)) };
    here().expect("spawn outside of a runtime").spawn_task(future, about, false)
}

/// Spawns tasks as `spawn` does, but gives them to the workers in turn. This is for tasks that live long.
///
/// ```
/// # async fn serve(_: arachne::net::TcpStream) {}
/// async fn accepts(listener: arachne::net::TcpListener) {
///     while let Ok((stream, _)) = listener.accept().await {
///         arachne::spawn_balanced(serve(stream));
///     }
/// }
/// ```
///
/// # Panics
/// Panics outside of a runtime.
#[track_caller]
pub fn spawn_balanced<F>(future: F) -> JoinHandle<F::Output>
where
    F: Future + Send + 'static,
    F::Output: Send + 'static,
{
    let about = About { spawned: Location::caller(), name: None };
    here().expect("spawn outside of a runtime").spawn_task(future, about, true)
}

/// Like `spawn`, but returns the future in the error if no task slot is free or if other tasks wait for one.
///
/// ```
/// arachne::Runtime::new(1).block_on(async {
///     match arachne::try_spawn(async { 42 }) {
///         Ok(task) => assert_eq!(task.await.unwrap(), 42),
///         Err(arachne::Refused(future)) => assert_eq!(future.await, 42),
///     }
/// });
/// ```
///
/// # Panics
/// Panics outside of a runtime.
#[track_caller]
pub fn try_spawn<F>(future: F) -> Result<JoinHandle<F::Output>, Refused<F>>
where
    F: Future + Send + 'static,
    F::Output: Send + 'static,
{
    let about = About { spawned: Location::caller(), name: None };
    here().expect("try_spawn outside of a runtime").try_spawn_task(future, about)
}

/// Like `spawn`, but for a task that doesn't end by itself, such as one that removes old entries from a cache.
///
/// `Runtime::shutdown_within` doesn't wait for this task. The task is dropped when the others have ended, or at the
/// deadline. `shutdown_within` does wait for the tasks that this one spawns by other functions, such as `spawn`.
/// ```
/// use std::time::Duration;
/// let runtime = arachne::Runtime::new(1);
/// runtime.block_on(async {
///     arachne::spawn_background(async {
///         let mut each = arachne::interval(Duration::from_secs(1));
///         loop {
///             each.tick().await;
///             // sweep
///         }
///     });
/// });
/// assert_eq!(runtime.shutdown_within(Duration::from_secs(60)).aborted, 0);    // at once
/// ```
///
/// # Panics
/// Panics outside of a runtime.
#[track_caller]
pub fn spawn_background<F>(future: F) -> JoinHandle<F::Output>
where
    F: Future + Send + 'static,
    F::Output: Send + 'static,
{
    let about = About { spawned: Location::caller(), name: None };
    here().expect("spawn outside of a runtime").spawn_background(future, about)
}
