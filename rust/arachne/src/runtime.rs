//! A runtime: how it is built, how it is inspected, and how it ends.

use crate::arbiter::Wish;
use crate::block_on::block_on;
use crate::core::{Woken, BLOCK, MOST_SHARDS, SHARD};
use crate::cores::{Judge, Policy};
use crate::drain::Signal;
use crate::handle::Handle;
use crate::observe::{Hooks, TaskInfo, HISTOGRAM};
use crate::shared::{entered, is_own, with_hands, Context, Shared};
use crate::spawn::Refused;
use crate::sync::atomic::Ordering::*;
use crate::sync::thread;
use crate::sync::{Arc, Instant};
use crate::task::{self, About, JoinHandle, Label};
use crate::timer::now;
use crate::waker::NOBODY;
use crate::{sys, watch};
use std::fmt;
use std::future::Future;
use std::io;
use std::mem::ManuallyDrop;
use std::panic::Location;
use std::time::Duration;

/// The most tasks that one worker can hold at a time: the one that it runs, the one that it runs next, one that takes
/// the latter's place, and those of its two local queues.
const HANDS: usize = 3 + crate::worker::HAND + crate::hand::FIRST;

type Starts = Arc<dyn Fn() + Send + Sync>;

/// Configures a runtime, and builds it.
///
/// ```
/// # fn main() -> std::io::Result<()> {
/// let runtime = arachne::Builder::new(2).places(100_000).blocking_threads(16).build()?;
/// assert_eq!(runtime.block_on(async { 6 * 7 }), 42);
/// # Ok(())
/// # }
/// ```
#[must_use = "`build` makes the runtime"]
pub struct Builder {
    cores: usize,
    places: usize,
    policy: Option<Policy>,
    pin: bool,
    slice: Option<Duration>,
    blocking: usize,
    observed: bool,
    hooks: Option<Arc<dyn Hooks>>,
    starts: Option<Starts>,
    slow: Option<Duration>,
    log: bool,
    arbiter: Option<Wish>,
}

impl fmt::Debug for Builder {
    fn fmt(&self, f: &mut fmt::Formatter<'_>) -> fmt::Result {
        write!(f, "Builder({} cores, {} places)", self.cores, self.places)
    }
}

impl Builder {
    /// Returns a builder with the default settings, for `cores` workers (kernel threads): at least 1, at most 64.
    /// ```
    /// let runtime = arachne::Builder::new(3).build().unwrap();
    /// assert_eq!(runtime.stats().workers.len(), 3);
    /// ```
    pub fn new(cores: usize) -> Builder {
        Builder {
            cores: cores.clamp(1, 64),
            places: 65_536,
            policy: None,
            pin: false,
            slice: Some(Duration::from_micros(100)),
            blocking: 512,
            observed: false,
            hooks: None,
            starts: None,
            slow: None,
            log: true,
            arbiter: None,
        }
    }

    /// Sets the number of task slots: the most tasks that can run or wait at a time. The default is 65,536.
    ///
    /// The maximum is 1,048,576. The number is rounded up so that each worker has a multiple of 4,096 slots. If no slot
    /// is free, a spawned task waits in a queue until another task ends; `try_spawn` returns an error instead.
    ///
    /// ```
    /// let runtime = arachne::Builder::new(1).places(4096).build().unwrap();
    /// let wait = || std::future::pending::<()>();
    /// let waiting: Vec<_> = (0..4096).map(|_| runtime.spawn(wait())).collect();
    /// assert!(runtime.try_spawn(wait()).is_err());
    /// assert_eq!(waiting.len(), 4096);
    /// ```
    pub fn places(mut self, places: usize) -> Builder {
        self.places = places.min(MOST_SHARDS * SHARD * BLOCK);
        self
    }

    /// Sets a policy, which decides by the load how many workers may run tasks. Without a policy, all may.
    ///
    /// ```
    /// let runtime = arachne::Builder::new(4).policy(arachne::Policy::default()).build().unwrap();
    /// while runtime.stats().active > 1 {          // it is idle, so all but one are given back
    ///     std::thread::yield_now();
    /// }
    /// ```
    pub fn policy(mut self, policy: Policy) -> Builder {
        self.policy = Some(policy);
        self
    }

    /// Shares the machine's processors with other processes, by the daemon (`rust/arbiter`) that listens at `path`.
    ///
    /// The daemon, called the *arbiter*, grants processors to workers. A worker without a processor waits, but the
    /// first worker runs even then. The runtime asks for as many processors as its policy wants or, without a policy,
    /// for one per worker. `priority` is from 0 (served first) to 7. Until the runtime has `reserved` processors (at
    /// most 65,535), other runtimes get no more than their own reserves.
    ///
    /// If no arbiter listens at `path`, or if the arbiter refuses the runtime, the runtime works as without this call.
    /// The runtime tries again each second or, after a refusal, each 30 seconds.
    ///
    /// ```
    /// let builder = arachne::Builder::new(4).arbiter("/run/arachne-arbiter.sock", 0, 1);
    /// let runtime = builder.build().unwrap();     // also if nothing listens there
    /// assert_eq!(runtime.block_on(async { 42 }), 42);
    /// ```
    pub fn arbiter(mut self, path: impl Into<std::path::PathBuf>, priority: u8, reserved: usize) -> Builder {
        self.arbiter = Some(Wish { path: path.into(), priority, reserved: reserved.min(u16::MAX as usize) });
        self
    }

    /// If `pin` is true, keeps each worker on a processor of its own. With an arbiter this has no effect.
    ///
    /// ```
    /// let runtime = arachne::Builder::new(2).pinned(true).build().unwrap();
    /// let text = runtime.block_on(runtime.spawn(async { std::fs::read_to_string("/proc/thread-self/status") }));
    /// let text = text.unwrap().unwrap();
    /// let allowed = text.lines().find(|line| line.starts_with("Cpus_allowed_list")).unwrap();
    /// assert!(!allowed.contains(&['-', ','][..]), "one processor: {allowed}");
    /// ```
    pub fn pinned(mut self, pin: bool) -> Builder {
        self.pin = pin;
        self
    }

    /// Sets the time slice that workers request from Linux: 100 microseconds by default; with None, they request none.
    ///
    /// A thread with a shorter slice gets a processor sooner after a wake. A longer slice suits long computations.
    ///
    /// ```
    /// let runtime = arachne::Builder::new(2).slices(None).build().unwrap();
    /// assert_eq!(runtime.block_on(runtime.spawn(async { 42 })).unwrap(), 42);
    /// ```
    pub fn slices(mut self, slice: Option<Duration>) -> Builder {
        self.slice = slice;
        self
    }

    /// Sets the most threads that `spawn_blocking` may use: 512 by default, and at least one.
    ///
    /// A thread is started if none is idle, and ends after five seconds without work.
    ///
    /// ```
    /// let runtime = arachne::Builder::new(1).blocking_threads(1).build().unwrap();
    /// let name = || std::thread::current().id();
    /// let (one, other) = runtime.block_on(async {
    ///     let (one, other) = (arachne::spawn_blocking(name), arachne::spawn_blocking(name));
    ///     (one.await.unwrap(), other.await.unwrap())
    /// });
    /// assert_eq!(one, other);     // one after the other, on one thread
    /// ```
    pub fn blocking_threads(mut self, most: usize) -> Builder {
        self.blocking = most;
        self
    }

    /// Records the states and waiting times of tasks, for `Runtime::tasks` and `Stats::ready_to_taken`. Recording costs
    /// 48 bytes for each task slot, and some 100 ns for each poll.
    ///
    /// ```
    /// let runtime = arachne::Builder::new(1).observed().build().unwrap();
    /// runtime.block_on(runtime.spawn(async { arachne::yield_now().await })).unwrap();
    /// assert!(runtime.stats().ready_to_taken.iter().sum::<u64>() > 0);
    /// ```
    pub fn observed(mut self) -> Builder {
        self.observed = true;
        self
    }

    /// Records as `observed` does, and also calls the functions of `hooks`; see `Hooks`.
    ///
    /// ```
    /// struct Prints;
    /// impl arachne::Hooks for Prints {
    ///     fn poll_begins(&self, id: u64, about: &arachne::About) {
    ///         println!("{id}: {about}");
    ///     }
    /// }
    /// let runtime = arachne::Builder::new(1).hooks(std::sync::Arc::new(Prints)).build().unwrap();
    /// runtime.block_on(runtime.spawn_named("greeter", async {})).unwrap();
    /// ```
    pub fn hooks(mut self, hooks: Arc<dyn Hooks>) -> Builder {
        self.observed = true;
        self.hooks = Some(hooks);
        self
    }

    /// Calls `starts` on each thread that polls tasks, before the thread's first poll. These threads are the workers
    /// and the watcher of `watch_polls`. A panic in `starts` ends the process.
    ///
    /// Use `starts` to set up thread-locals that tasks expect. For the thread-locals of tokio, call
    /// `std::mem::forget(handle.enter())`, with the handle of a tokio runtime.
    ///
    /// ```
    /// use std::cell::Cell;
    /// thread_local!(static READY: Cell<bool> = const { Cell::new(false) });
    /// let runtime = arachne::Builder::new(2).on_worker_start(|| READY.with(|it| it.set(true))).build().unwrap();
    /// assert!(runtime.block_on(runtime.spawn(async { READY.with(Cell::get) })).unwrap());
    /// ```
    pub fn on_worker_start(mut self, starts: impl Fn() + Send + Sync + 'static) -> Builder {
        self.starts = Some(Arc::new(starts));
        self
    }

    /// Starts a watcher thread, which detects polls that take longer than `longer`. `Stats::slow_polls` is their
    /// number. If `log` is true, each such poll is reported on the standard error stream.
    ///
    /// While a worker is in a slow poll, other workers or the watcher run that worker's other tasks, and handle its
    /// sockets and timers. If all workers are in slow polls, the watcher runs ready tasks itself, until a poll of its
    /// own blocks, too.
    ///
    /// ```
    /// use std::time::Duration;
    /// let runtime = arachne::Builder::new(1).watch_polls(Duration::from_millis(10), false).build().unwrap();
    /// let handle = runtime.handle();
    /// let blocks = runtime.spawn(async move {
    ///     while handle.stats().slow_polls == 0 {
    ///         std::thread::sleep(Duration::from_millis(1));
    ///     }
    /// });
    /// runtime.block_on(blocks).unwrap();
    /// assert_eq!(runtime.stats().slow_polls, 1);
    /// ```
    pub fn watch_polls(mut self, longer: Duration, log: bool) -> Builder {
        (self.slow, self.log) = (Some(longer), log);
        self
    }

    /// Starts the workers, and returns the runtime.
    ///
    /// Fails if the system refuses memory, descriptors or threads, or if the process has 32 runtimes already. An ended
    /// runtime counts until a new one with as many workers and task slots, and the same `observed`, reuses its memory.
    ///
    /// ```
    /// # fn main() -> std::io::Result<()> {
    /// let runtime = arachne::Builder::new(arachne::available_cores()).build()?;
    /// assert_eq!(runtime.block_on(async { 42 }), 42);
    /// # Ok(())
    /// # }
    /// ```
    pub fn build(self) -> io::Result<Runtime> {
        let each = ((self.places + SHARD * BLOCK - 1) / (SHARD * BLOCK) + self.cores - 1) / self.cores;
        let most = MOST_SHARDS / self.cores * self.cores;
        let shards = (each.max(1) * self.cores).min(most);
        let shared = Shared::get(self.cores, shards, self.observed)?;
        shared.observer.set_hooks(self.hooks);
        shared.blocking.open(self.blocking);
        let mut runtime = Runtime { shared, threads: Vec::new(), ended: false };
        let shares = self.arbiter.is_some();
        if shares {
            shared.arbiter.open(self.cores)?;
        }
        let cpus = if self.pin && !shares { sys::affinity() } else { Vec::new() };
        // The watcher calls the core too, so it needs handles of its own: the last ones made here.
        let crew = shared.root.lock().unwrap().crew(self.cores + self.slow.is_some() as usize, HANDS);
        let mut crew = crew.ok_or(io::ErrorKind::OutOfMemory)?;
        let watches = crew.drain(self.cores..).next();
        let alone = self.cores == 1 && watches.is_none();
        for (me, hands) in crew.into_iter().enumerate() {
            let (counts, policy) = (self.policy.is_some() || shares, self.policy.filter(|_| me == 0));
            let cpu = cpus.get(me % cpus.len().max(1)).copied();
            let slice = self.slice.map(|slice| slice.as_nanos() as u64);
            let starts = self.starts.clone();
            let work = move || {
                cpu.map(sys::pin);
                slice.map(sys::ask_for_slices);
                if shares {
                    shared.arbiter.names(me);
                }
                *shared.workers[me].0.account.lock().unwrap() = std::fs::File::open("/proc/thread-self/schedstat").ok();
                let context = Context::new(shared, me, hands, alone);
                let judge = policy.and_then(|policy| Judge::new(policy, shared));
                let end = EndsTheProcess;
                starts.iter().for_each(|starts| starts());
                context.enter(|| shared.work(&context, judge, counts));
                std::mem::forget(end);
                shared.root.lock().unwrap().join(context.hands);
            };
            runtime.threads.push(thread::Builder::new().name(format!("arachne-{me}")).spawn(work)?);
        }
        if let Some(wish) = self.arbiter {
            let first = self.policy.map_or(self.cores, |policy| policy.min_cores.clamp(1, self.cores));
            let follows = self.policy.is_some();
            let run = move || shared.run_arbiter(wish, first, follows);
            runtime.threads.push(thread::Builder::new().name("arachne-arbiter".into()).spawn(run)?);
        }
        if let (Some(longer), Some(hands)) = (self.slow, watches) {
            let log = self.log;
            let starts = self.starts;
            let work = move || {
                let end = EndsTheProcess;
                starts.iter().for_each(|starts| starts());
                std::mem::forget(end);
                watch::run(shared, hands, longer, log);
            };
            runtime.threads.push(thread::Builder::new().name("arachne-watch".into()).spawn(work)?);
        }
        Ok(runtime)
    }
}

/// The counts of a runtime since it began; see `Runtime::stats`.
///
/// ```
/// let runtime = arachne::Runtime::new(2);
/// runtime.block_on(runtime.spawn(async { arachne::yield_now().await })).unwrap();
/// let stats = runtime.stats(); // a poll counts once it is over
/// assert!(stats.polls <= 2);
/// assert_eq!(stats.polls, stats.workers.iter().map(|worker| worker.polls).sum());
/// ```
#[derive(Clone, Debug, Default)]
#[non_exhaustive]
pub struct Stats {
    /// The number of workers that may run tasks now, at least 1.
    pub active: usize,
    /// True if an arbiter (a daemon) decides now how many workers may run tasks.
    pub arbiter: bool,
    /// The number of polls of tasks since the runtime began.
    pub polls: u64,
    /// The number of tasks that ended on a worker since the runtime began.
    pub ended: u64,
    /// The number of times that a worker stole tasks from another.
    pub takes: u64,
    /// The number of times that a worker slept.
    pub parks: u64,
    /// The number of tasks that had to wait for a free task slot.
    pub queued: u64,
    /// The number of times that the policy asked for one more core.
    pub adds: u64,
    /// The number of times that the policy gave a core back.
    pub removes: u64,
    /// The time for which workers were allowed to run tasks, summed over all workers; 0 without a policy.
    pub core_time: Duration,
    /// The number of polls that took longer than the limit of `Builder::watch_polls`.
    pub slow_polls: u64,
    /// The number of polls that the watcher of `watch_polls` made itself, because all workers were in long polls.
    pub rescued: u64,
    /// Each worker's counts since the runtime began, such as polls and steals. The index is the worker's number.
    pub workers: Vec<WorkerStats>,
    /// A histogram of how long ready tasks waited for a worker; empty without `Builder::observed` or `Builder::hooks`.
    ///
    /// Element 0 counts the waits below one microsecond, element i those from 2^(i-1) up to 2^i microseconds, and the
    /// last element all longer ones.
    pub ready_to_taken: Vec<u64>,
}

/// The counts of one worker since the runtime began; see `Stats::workers`.
///
/// ```
/// let runtime = arachne::Runtime::new(1);
/// runtime.block_on(runtime.spawn(async {})).unwrap();
/// let worker = runtime.stats().workers[0];
/// assert!(worker.polls <= 1); // a poll counts once it is over
/// ```
#[derive(Clone, Copy, Debug, Default)]
#[non_exhaustive]
pub struct WorkerStats {
    /// The number of polls that this worker made.
    pub polls: u64,
    /// The number of tasks that ended on this worker.
    pub ended: u64,
    /// The number of times that this worker stole tasks from another.
    pub takes: u64,
    /// The number of times that this worker woke a waiting task.
    pub wakes: u64,
    /// The number of times that this worker slept.
    pub parks: u64,
    /// The time for which this worker had no work.
    pub idle: Duration,
}

/// A runtime: worker threads that run tasks.
///
/// Dropping a runtime ends it as `shutdown` does. If a task of the runtime, or a closure on its blocking pool, drops
/// it, the drop returns at once, and another thread ends the runtime.
///
/// ```
/// let runtime = arachne::Runtime::new(4);
/// let task = runtime.spawn(async { 6 * 7 });
/// assert_eq!(runtime.block_on(task).unwrap(), 42);
/// assert_eq!(runtime.stats().workers.len(), 4);
/// ```
pub struct Runtime {
    shared: &'static Shared,
    threads: Vec<thread::JoinHandle<()>>,
    ended: bool,
}

impl fmt::Debug for Runtime {
    fn fmt(&self, f: &mut fmt::Formatter<'_>) -> fmt::Result {
        write!(f, "Runtime({} workers, {} tasks)", self.shared.workers.len(), self.shared.live())
    }
}

impl Runtime {
    /// Returns a runtime of `cores` workers, with the default settings of `Builder::new`.
    ///
    /// ```
    /// let runtime = arachne::Runtime::new(arachne::available_cores());
    /// assert_eq!(runtime.block_on(async { 42 }), 42);
    /// ```
    ///
    /// # Panics
    /// Panics if `Builder::build` returns an error.
    #[must_use]
    pub fn new(cores: usize) -> Runtime {
        Builder::new(cores).build().expect("a runtime")
    }

    /// Spawns a task on this runtime, from any thread. Returns a handle, which is a future of the task's output.
    ///
    /// ```
    /// let runtime = arachne::Runtime::new(2);
    /// let task = runtime.spawn(async { "done" });
    /// assert_eq!(runtime.block_on(task).unwrap(), "done");
    /// ```
    #[track_caller]
    pub fn spawn<F>(&self, future: F) -> JoinHandle<F::Output>
    where
        F: Future + Send + 'static,
        F::Output: Send + 'static,
    {
        self.shared.spawn_task(future, About { spawned: Location::caller(), name: None }, false)
    }

    /// Like `spawn`, but gives the tasks to the workers in turn; see the function `spawn_balanced`.
    ///
    /// ```
    /// let runtime = arachne::Runtime::new(2);
    /// let task = runtime.spawn_balanced(async { 42 });
    /// assert_eq!(runtime.block_on(task).unwrap(), 42);
    /// ```
    #[track_caller]
    pub fn spawn_balanced<F>(&self, future: F) -> JoinHandle<F::Output>
    where
        F: Future + Send + 'static,
        F::Output: Send + 'static,
    {
        self.shared.spawn_task(future, About { spawned: Location::caller(), name: None }, true)
    }

    /// Like `spawn`, with a name for the task; see the function `spawn_named`.
    ///
    /// ```
    /// let task = arachne::Runtime::new(1).spawn_named("sweeper", async {});
    /// assert_eq!(task.about().name.unwrap().as_str(), "sweeper");
    /// ```
    #[track_caller]
    pub fn spawn_named<F>(&self, name: &str, future: F) -> JoinHandle<F::Output>
    where
        F: Future + Send + 'static,
        F::Output: Send + 'static,
    {
        self.shared.spawn_task(future, About { spawned: Location::caller(), name: Some(Label::of(name)) }, false)
    }

    /// Like `spawn`, for a task that `shutdown_within` doesn't wait for; see the function `spawn_background`.
    ///
    /// ```
    /// let runtime = arachne::Runtime::new(1);
    /// runtime.spawn_background(std::future::pending::<()>());
    /// assert_eq!(runtime.shutdown_within(std::time::Duration::from_secs(60)).aborted, 0);     // at once
    /// ```
    #[track_caller]
    pub fn spawn_background<F>(&self, future: F) -> JoinHandle<F::Output>
    where
        F: Future + Send + 'static,
        F::Output: Send + 'static,
    {
        self.shared.spawn_background(future, About { spawned: Location::caller(), name: None })
    }

    /// Like `spawn`, but returns the future in the error if no task slot is free or if other tasks wait for one.
    ///
    /// ```
    /// let runtime = arachne::Runtime::new(1);
    /// match runtime.try_spawn(async { 42 }) {
    ///     Ok(task) => assert_eq!(runtime.block_on(task).unwrap(), 42),
    ///     Err(arachne::Refused(future)) => assert_eq!(runtime.block_on(future), 42),
    /// }
    /// ```
    #[track_caller]
    pub fn try_spawn<F>(&self, future: F) -> Result<JoinHandle<F::Output>, Refused<F>>
    where
        F: Future + Send + 'static,
        F::Output: Send + 'static,
    {
        self.shared.try_spawn_task(future, About { spawned: Location::caller(), name: None })
    }

    /// Returns a handle, by which any thread can spawn tasks on this runtime. The handle may outlive the runtime.
    ///
    /// ```
    /// let runtime = arachne::Runtime::new(1);
    /// let handle = runtime.handle();
    /// drop(runtime);
    /// assert!(arachne::block_on(handle.spawn(async {})).unwrap_err().is_cancelled());
    /// ```
    #[must_use]
    pub fn handle(&self) -> Handle {
        Handle::of(self.shared)
    }

    /// Runs a future on the calling thread. The future's spawns, sockets and timers belong to this runtime.
    ///
    /// In a task use `await` instead, because this call would block the task's worker. See the function `block_on`.
    ///
    /// ```
    /// let runtime = arachne::Runtime::new(2);
    /// let sum = runtime.block_on(async { arachne::spawn(async { 1 }).await.unwrap() + 1 });
    /// assert_eq!(sum, 2);
    /// ```
    pub fn block_on<F: Future>(&self, future: F) -> F::Output {
        entered(self.shared, || block_on(future))
    }

    /// Calls `f` on this thread. The spawns, sockets and timers of `f` belong to this runtime.
    ///
    /// ```
    /// let runtime = arachne::Runtime::new(1);
    /// let task = runtime.enter(|| arachne::spawn(async { 42 }));
    /// assert_eq!(arachne::block_on(task).unwrap(), 42);
    /// ```
    pub fn enter<T>(&self, f: impl FnOnce() -> T) -> T {
        entered(self.shared, f)
    }

    /// Returns the workers' counts since the runtime began.
    ///
    /// ```
    /// let runtime = arachne::Runtime::new(2);
    /// runtime.block_on(runtime.spawn(async {})).unwrap();
    /// assert_eq!(runtime.stats().workers.len(), 2);
    /// ```
    #[must_use]
    pub fn stats(&self) -> Stats {
        Runtime::stats_of(self.shared)
    }

    pub(crate) fn stats_of(shared: &Shared) -> Stats {
        let now = now();
        let counts = &shared.counts;
        let worker = |w: &crate::shared::Worker| WorkerStats {
            polls: w.polls.load(Relaxed),
            ended: w.ended.load(Relaxed),
            takes: w.takes.load(Relaxed),
            wakes: w.wakes.load(Relaxed),
            parks: w.parks.load(Relaxed),
            idle: Duration::from_nanos(w.idle_time(now)),
        };
        let workers: Vec<_> = shared.workers.iter().map(|line| worker(&line.0)).collect();
        let sum = |of: fn(&WorkerStats) -> u64| workers.iter().map(of).sum();
        Stats {
            active: shared.active.0.load(Relaxed),
            arbiter: shared.arbiter.is_up(),
            polls: sum(|w| w.polls),
            ended: sum(|w| w.ended),
            takes: sum(|w| w.takes),
            parks: sum(|w| w.parks),
            queued: counts.queued.load(Relaxed),
            adds: counts.adds.load(Relaxed),
            removes: counts.removes.load(Relaxed),
            core_time: Duration::from_nanos(counts.core_time.load(Relaxed)),
            slow_polls: counts.slow_polls.load(Relaxed),
            rescued: counts.rescued.load(Relaxed),
            ready_to_taken: if shared.observer.is_on() { shared.observer.histogram().to_vec() } else { Vec::new() },
            workers,
        }
    }

    /// Returns all tasks that have not ended, with their states; none without `Builder::observed` or `Builder::hooks`.
    ///
    /// ```
    /// let runtime = arachne::Builder::new(1).observed().build().unwrap();
    /// let _waits = runtime.spawn_named("waits", std::future::pending::<()>());
    /// let tasks = loop {
    ///     let tasks = runtime.tasks();
    ///     if tasks.iter().any(|task| task.doing == arachne::Doing::Waits) {
    ///         break tasks;
    ///     }
    /// };
    /// assert_eq!(tasks[0].about.name.unwrap().as_str(), "waits");
    /// ```
    #[must_use]
    pub fn tasks(&self) -> Vec<TaskInfo> {
        self.shared.observer.tasks()
    }

    /// Makes the process write the list of `tasks` to its standard error stream whenever it gets `signal` (10 is
    /// SIGUSR1). Fails if `Signal::heard` does, or if no thread can be started.
    ///
    /// ```no_run
    /// # fn main() -> std::io::Result<()> {
    /// let runtime = arachne::Builder::new(4).observed().build()?;
    /// runtime.list_tasks_at(10)?;                 // `kill -USR1` lists them
    /// # Ok(())
    /// # }
    /// ```
    pub fn list_tasks_at(&self, signal: i32) -> io::Result<()> {
        let (shared, signal) = (self.shared, Signal::heard(signal)?);
        let list = move || {
            while signal.wait() {
                for task in shared.observer.tasks() {
                    eprintln!("arachne: {:?} for {:?}: {}", task.doing, task.age, task.about);
                }
            }
        };
        thread::Builder::new().name("arachne-list".into()).spawn(list).map(drop)
    }

    pub(crate) fn shared(&self) -> &'static Shared {
        self.shared
    }

    /// Ends the runtime: drops all tasks that have not ended, and joins the runtime's threads.
    ///
    /// Tasks are dropped on the calling thread, and their handles return `Cancelled`. The call waits without a limit
    /// for polls in progress and closures on the blocking pool. Use `shutdown_within` to let tasks finish first.
    ///
    /// ```
    /// let runtime = arachne::Runtime::new(1);
    /// let waits = runtime.spawn(std::future::pending::<()>());
    /// runtime.shutdown();
    /// assert!(arachne::block_on(waits).unwrap_err().is_cancelled());
    /// ```
    pub fn shutdown(self) {
        drop(self);
    }

    /// Ends the runtime. If `until` is given, waits for closures of `spawn_blocking` until then at most.
    pub(crate) fn end(&mut self, until: Option<Instant>) {
        if self.ended {
            return;
        }
        let shared = self.shared;
        shared.arbiter.close();
        shared.stop.store(true, SeqCst);
        for (number, worker) in shared.workers.iter().enumerate() {
            let gate = worker.0.given_back.0.lock().unwrap();
            worker.0.given_back.1.notify_all();
            drop(gate);
            shared.ring(number);
        }
        self.threads.drain(..).for_each(|thread| drop(thread.join()));
        self.ended = true;
        entered(shared, || end_all(shared));
        shared.let_go();
        shared.blocking.close();
        let left = || until.map_or(LOOK, |until| until.saturating_duration_since(Instant::now()));
        while !shared.blocking.wait_for_end(left().min(LOOK)) {
            end_spawned(shared);
            if left().is_zero() {
                shared.door.close();
                // Another thread waits for the blocking work that still runs, and then lets a later runtime reuse this
                // runtime's state. If no thread can be started, the state is never used again.
                let _ = thread::Builder::new().name("arachne-end".into()).spawn(move || end_later(shared));
                return;
            }
        }
        shared.door.close();
        entered(shared, || end_all(shared));
        shared.give();
    }
}

/// The time between two searches of an ended runtime for tasks that closures of `spawn_blocking` have spawned there.
const LOOK: Duration = Duration::from_millis(10);

fn end_later(shared: &'static Shared) {
    while !shared.blocking.wait_for_end(LOOK) {
        end_spawned(shared);
    }
    entered(shared, || end_all(shared));
    shared.give();
}

/// Ends the tasks that closures of `spawn_blocking`, which may wait for them, have spawned after the runtime's end.
fn end_spawned(shared: &'static Shared) {
    if shared.live() != 0 {
        entered(shared, || end_all(shared));
    }
}

impl Drop for Runtime {
    fn drop(&mut self) {
        if self.ended || !is_own(self.shared) {
            return self.end(None);
        }
        // A thread can't join itself. If no other thread can be started, the runtime isn't ended: its workers run on.
        let threads = std::mem::take(&mut self.threads);
        let rest = ManuallyDrop::new(Runtime { shared: self.shared, threads, ended: self.ended });
        let ends = move || drop(ManuallyDrop::into_inner(rest));
        let _ = thread::Builder::new().name("arachne-end".into()).spawn(ends);
    }
}

/// Aborts the process when dropped: a worker's own loop has panicked, so the worker's tasks would be lost.
struct EndsTheProcess;
impl Drop for EndsTheProcess {
    fn drop(&mut self) {
        eprintln!("arachne: a worker's loop panicked");
        std::process::abort();
    }
}

/// Ends all tasks that have not ended. Searches repeatedly, since other threads may be waking or spawning tasks.
fn end_all(shared: &'static Shared) {
    loop {
        end_queued(shared);
        end_placed(shared);
        if shared.live() == 0 {
            return;
        }
        thread::yield_now();
    }
}

fn end_queued(shared: &'static Shared) {
    loop {
        let raw = match shared.queue.lock().unwrap().pop_front() {
            Some(raw) => raw,
            None => return,
        };
        shared.queued.0.fetch_sub(1, SeqCst);
        // SAFETY: the task was never put into a slot, and nobody else has it.
        unsafe { task::end(raw) };
        shared.counts.ended_elsewhere.fetch_add(1, SeqCst);
    }
}

/// Ends all tasks that are in a task slot: makes the blocked ones ready, and then ends the ready ones.
fn end_placed(shared: &'static Shared) {
    let mut jobs = Vec::new();
    with_hands(shared, |hands| {
        for name in shared.names.iter() {
            let name = name.swap(NOBODY, Relaxed);
            if name != NOBODY {
                if let Woken::Kept(job) = hands.wake(name, true) {
                    hands.rest_ready(&job);
                }
            }
        }
        for block in 0..shared.roomy.len() * SHARD {
            // Searches every block of task slots, and not only those whose bit is set in the summary word, which may
            // lack the bit of a block with jobs.
            while let Some(job) = hands.take_any(block) {
                jobs.push(job.job);
                hands.finish(&job);
                shared.show_room(block);
            }
            hands.hide(block);
        }
    });
    shared.counts.ended_elsewhere.fetch_add(jobs.len() as u64, SeqCst);
    // SAFETY: each job was taken out of the table, so only this thread can reach it.
    jobs.into_iter().for_each(|job| unsafe { task::end(job) });
}

const _: () = assert!(HISTOGRAM < 64);
