//! The state that a runtime's kernel threads share, and each thread's own state.

use crate::arbiter::Client;
use crate::blocking::Pool;
use crate::core::{Hands, Line, Parking, Root, BLOCK, NUMBERS, SHARD};
use crate::drain::Draining;
use crate::hand::Hand;
use crate::handle::Door;
use crate::observe::Observer;
use crate::reactor::{Bell, Reactor};
use crate::sync::atomic::{AtomicBool, AtomicI32, AtomicPtr, AtomicU64, AtomicUsize, Ordering::*};
use crate::sync::{Condvar, Mutex};
use crate::task::{About, Label, Raw};
use crate::timer::{now, Timers};
use crate::waker::NOBODY;
use crate::worker::LOOK_TIME;
use std::cell::{Cell, RefCell};
use std::collections::VecDeque;
use std::fs::File;
use std::io;
use std::panic::Location;
use std::ptr;

#[cfg(feature = "explore")]
mod explored;
#[cfg(feature = "explore")]
pub use explored::{forget_runtimes, forget_thread, set_active};

/// The most runtimes that a process may have at a time: each runtime needs a table of waker functions.
pub(crate) const TABLES: usize = 32;

pub(crate) const NO_ONE: usize = usize::MAX;

#[allow(clippy::declare_interior_mutable_const)]
const NO_TABLE: AtomicPtr<Shared> = AtomicPtr::new(ptr::null_mut());
static ALL: [AtomicPtr<Shared>; TABLES] = [NO_TABLE; TABLES];
/// The number of `Shared` made so far, and those that no runtime uses now. None is ever freed, because a waker may
/// refer to it.
static POOL: Mutex<(usize, Vec<&'static Shared>)> = Mutex::new((0, Vec::new()));

pub(crate) struct Shared {
    pub(crate) table: usize,
    pub(crate) root: Mutex<Root>,
    pub(crate) workers: Box<[Line<Worker>]>,
    pub(crate) reactor: Reactor,
    /// The number of the worker that waits in the epoll, or `NO_ONE`. It changes when a worker begins or ends that
    /// wait.
    pub(crate) waits: Line<AtomicUsize>,
    /// The number of the *deputy*, or `NO_ONE`: a sleeping worker that polls the epoll now and then, in case the worker
    /// in `waits` has no processor.
    pub(crate) deputy: Line<AtomicUsize>,
    pub(crate) looked: Line<AtomicU64>,
    /// The milliseconds after which the worker `deputy` next looks for workers that stay in one poll of a task.
    pub(crate) rests: AtomicI32,
    /// The milliseconds after which the worker that waits in the epoll next looks for workers that stay in one poll.
    pub(crate) pauses: AtomicI32,
    /// While only the first worker may run tasks: the nanoseconds after which the second next reads whether the first
    /// is still in the same poll of a task. Otherwise 0.
    pub(crate) covers: Line<AtomicU64>,
    /// For each shard (64 blocks of 64 task slots), a bit mask of its blocks that may have a free slot.
    pub(crate) roomy: Box<[Line<AtomicU64>]>,
    /// For each task slot, the identifier of the last task that waited there to be woken. The runtime's end finds these
    /// tasks by it.
    pub(crate) names: Box<[AtomicU64]>,
    /// A bit for each worker, set while it sleeps or is about to. It decides which worker is woken.
    pub(crate) sleepers: Line<AtomicU64>,
    /// The number of workers that search for work at present. While it isn't 0, `rouse_any` wakes no worker.
    pub(crate) searching: Line<AtomicUsize>,
    /// The number of workers that may run tasks, which are those with the lowest numbers. The policy or an arbiter
    /// changes it.
    pub(crate) active: Line<AtomicUsize>,
    /// Tasks that wait for a free task slot, and have not begun.
    pub(crate) queue: Mutex<VecDeque<Raw>>,
    pub(crate) queued: Line<AtomicUsize>,
    /// True from when no slot was free for a task in `queue` until a task ends.
    pub(crate) clogged: AtomicBool,
    pub(crate) stop: AtomicBool,
    pub(crate) next_home: AtomicUsize,
    /// The timers that threads other than workers have set. The first worker fires them.
    pub(crate) visitors: Timers,
    pub(crate) blocking: Pool,
    pub(crate) observer: Observer,
    pub(crate) draining: Draining,
    pub(crate) door: Door,
    /// The number of tasks that threads other than workers have spawned in this runtime.
    pub(crate) spawned: Line<AtomicU64>,
    /// Two counts of tasks of `spawn_background` in this runtime: those spawned, and those whose future was dropped.
    pub(crate) background: (AtomicU64, AtomicU64),
    pub(crate) arbiter: Client,
    pub(crate) counts: Counts,
}

#[derive(Default)]
pub(crate) struct Counts {
    pub(crate) queued: AtomicU64,
    pub(crate) core_time: AtomicU64,
    pub(crate) adds: AtomicU64,
    pub(crate) removes: AtomicU64,
    pub(crate) slow_polls: AtomicU64,
    pub(crate) rescued: AtomicU64,
    pub(crate) ended_elsewhere: AtomicU64,
}

/// The part of a worker's state that other threads read. Only the worker itself writes the counts.
pub(crate) struct Worker {
    pub(crate) bell: Bell,
    pub(crate) hand: Hand,
    pub(crate) timers: Timers,
    /// True while the worker has given its core back, and so may run no tasks.
    pub(crate) given_back: (Mutex<bool>, Condvar),
    pub(crate) away: AtomicBool,
    /// The shards (4,096 task slots each) whose tasks this worker runs while it may run tasks.
    pub(crate) shards: Box<[usize]>,
    /// The number of `shards`, counted from the first, that have been used for tasks so far.
    pub(crate) used: AtomicUsize,
    /// The index of the block (64 task slots) in which the next spawned task first gets a slot, if one is free there.
    pub(crate) roomy: Line<AtomicUsize>,
    pub(crate) parking: Mutex<Vec<Parking>>,
    pub(crate) polls: AtomicU64,
    pub(crate) spawned: AtomicU64,
    pub(crate) ended: AtomicU64,
    pub(crate) takes: AtomicU64,
    pub(crate) wakes: AtomicU64,
    pub(crate) parks: AtomicU64,
    /// The number of times that the worker has counted its ready tasks, from which the policy gets their average.
    pub(crate) scans: AtomicU64,
    pub(crate) runnable: AtomicU64,
    /// The nanoseconds for which the worker had no work, since the runtime began.
    pub(crate) idle: AtomicU64,
    /// The time, in nanoseconds, at which the worker ran out of work; 0 if it has work.
    pub(crate) idle_since: AtomicU64,
    pub(crate) account: Mutex<Option<File>>,
    /// The identifier of the task that the worker polls now, or `NOBODY`. The watcher of slow polls reads it.
    pub(crate) running: AtomicU64,
    pub(crate) site: AtomicPtr<Location<'static>>,
    pub(crate) label: AtomicPtr<Label>,
}

#[inline]
pub(crate) fn add(count: &AtomicU64, n: u64) {
    count.store(count.load(Relaxed) + n, Relaxed);
}

impl Worker {
    fn new(shards: Box<[usize]>, parking: Vec<Parking>) -> Worker {
        let n = || AtomicU64::new(0);
        Worker {
            bell: Bell::default(),
            hand: Hand::default(),
            timers: Timers::default(),
            given_back: (Mutex::new(false), Condvar::new()),
            away: AtomicBool::new(false),
            roomy: Line(AtomicUsize::new(shards[0] * SHARD)),
            shards,
            used: AtomicUsize::new(1),
            parking: Mutex::new(parking),
            polls: n(),
            spawned: n(),
            ended: n(),
            takes: n(),
            wakes: n(),
            parks: n(),
            scans: n(),
            runnable: n(),
            idle: n(),
            idle_since: n(),
            account: Mutex::new(None),
            running: AtomicU64::new(NOBODY),
            site: AtomicPtr::new(ptr::null_mut()),
            label: AtomicPtr::new(ptr::null_mut()),
        }
    }

    #[inline]
    pub(crate) fn begins(&self, name: u64, about: &About) {
        self.site.store(about.spawned as *const _ as *mut _, Relaxed);
        self.label.store(about.name.map_or(ptr::null_mut(), |label| label as *const _ as *mut _), Relaxed);
        self.running.store(name, Relaxed);
    }

    #[inline]
    pub(crate) fn used_shards(&self) -> &[usize] {
        &self.shards[..self.used.load(Relaxed)]
    }

    /// Returns the nanoseconds for which the worker had no work, from the runtime's beginning until `now`.
    pub(crate) fn idle_time(&self, now: u64) -> u64 {
        let since = self.idle_since.load(Relaxed);
        self.idle.load(Relaxed) + if since == 0 { 0 } else { now.saturating_sub(since) }
    }

    pub(crate) fn ends_idling(&self) -> u64 {
        let now = now();
        add(&self.idle, now.saturating_sub(self.idle_since.swap(0, Relaxed)));
        now
    }

    fn reset(&self) {
        *self.given_back.0.lock().unwrap() = false;
        let counts = [&self.polls, &self.ended, &self.takes, &self.wakes, &self.parks, &self.scans, &self.runnable];
        counts.iter().for_each(|count| count.store(0, Relaxed));
        [&self.idle, &self.idle_since].iter().for_each(|count| count.store(0, Relaxed));
        self.running.store(NOBODY, Relaxed);
        self.spawned.store(0, Relaxed);
    }
}

#[inline]
pub(crate) fn shared_of(table: usize) -> Option<&'static Shared> {
    // SAFETY: a `Shared` that was stored there is never freed.
    unsafe { ALL[table].load(Acquire).as_ref() }
}

impl Shared {
    /// Returns the state of an ended runtime with the same arguments, to be used again, or else a new one. Fails if the
    /// process has 32 already, or if memory or descriptors are refused.
    pub(crate) fn get(workers: usize, shards: usize, observed: bool) -> io::Result<&'static Shared> {
        let mut pool = POOL.lock().unwrap();
        let alike =
            |s: &&Shared| s.workers.len() == workers && s.roomy.len() == shards && s.observer.is_on() == observed;
        if let Some(at) = pool.1.iter().position(alike) {
            let shared = pool.1.swap_remove(at);
            shared.reset();
            return Ok(shared);
        }
        if pool.0 == TABLES {
            let message = "this process has 32 runtimes, counting those that have ended and had other sizes";
            return Err(io::Error::new(io::ErrorKind::Other, message));
        }
        let shared = Shared::make(pool.0, workers, shards, observed)?.ok_or(io::ErrorKind::OutOfMemory)?;
        shared.reset();
        ALL[pool.0].store(shared as *const Shared as *mut Shared, Release);
        pool.0 += 1;
        Ok(shared)
    }

    /// Creates the state of a runtime. Returns None if memory for its task slots is refused.
    fn make(table: usize, workers: usize, shards: usize, observed: bool) -> io::Result<Option<&'static Shared>> {
        let mut root = match Root::new(shards) {
            Some(root) => root,
            None => return Ok(None),
        };
        let mut made = Vec::new();
        for me in 0..workers {
            let numbers = (me..NUMBERS.min(shards)).step_by(workers);
            let parking = match numbers.map(|n| root.parking(n)).collect::<Option<Vec<_>>>() {
                Some(parking) => parking,
                None => return Ok(None),
            };
            let mine = (0..shards).filter(|shard| shard % NUMBERS % workers == me).collect();
            made.push(Line(Worker::new(mine, parking)));
        }
        let places = shards * SHARD * BLOCK;
        Ok(Some(Box::leak(Box::new(Shared {
            table,
            root: Mutex::new(root),
            workers: made.into(),
            reactor: Reactor::new()?,
            waits: Line(AtomicUsize::new(NO_ONE)),
            deputy: Line(AtomicUsize::new(NO_ONE)),
            looked: Line::default(),
            rests: AtomicI32::new(1),
            pauses: AtomicI32::new(1),
            covers: Line::default(),
            roomy: (0..shards).map(|_| Line::default()).collect(),
            names: (0..places).map(|_| AtomicU64::new(NOBODY)).collect(),
            sleepers: Line::default(),
            searching: Line::default(),
            active: Line::default(),
            queue: Mutex::default(),
            queued: Line::default(),
            clogged: AtomicBool::new(false),
            stop: AtomicBool::new(false),
            next_home: AtomicUsize::new(0),
            visitors: Timers::default(),
            blocking: Pool::default(),
            observer: Observer::new(if observed { places } else { 0 }),
            draining: Draining::default(),
            door: Door::default(),
            spawned: Line::default(),
            background: Default::default(),
            arbiter: Client::default(),
            counts: Counts::default(),
        }))))
    }

    fn reset(&self) {
        self.workers.iter().for_each(|worker| worker.0.reset());
        self.roomy.iter().for_each(|word| word.0.store(u64::MAX >> (64 - SHARD), Relaxed));
        let counts = &self.counts;
        let all =
            [&counts.queued, &counts.core_time, &counts.adds, &counts.removes, &counts.slow_polls, &counts.rescued];
        counts.ended_elsewhere.store(0, Relaxed);
        all.iter().for_each(|count| count.store(0, Relaxed));
        self.sleepers.0.store(0, SeqCst);
        self.searching.0.store(0, SeqCst);
        self.active.0.store(self.workers.len(), SeqCst);
        self.clogged.store(false, SeqCst);
        self.stop.store(false, SeqCst);
        self.observer.reset();
        self.draining.reset();
        self.door.open();
        self.spawned.0.store(0, SeqCst);
        self.background.0.store(0, SeqCst);
        self.background.1.store(0, SeqCst);
        self.arbiter.reset();
    }

    fn sum(&self, count: fn(&Worker) -> &AtomicU64) -> u64 {
        self.workers.iter().map(|worker| count(&worker.0).load(SeqCst)).sum()
    }

    fn ended(&self) -> i64 {
        (self.sum(|worker| &worker.ended) + self.counts.ended_elsewhere.load(SeqCst)) as i64
    }

    fn spawned(&self) -> i64 {
        (self.spawned.0.load(SeqCst) + self.sum(|worker| &worker.spawned)) as i64
    }

    pub(crate) fn live(&self) -> u64 {
        let ended = self.ended();
        (self.spawned() - ended).max(0) as u64
    }

    /// Returns how many tasks have not ended, without those of `spawn_background`. A background task is counted in
    /// `spawned`, `background.0`, `background.1` and `ended`, in this order. Reading these counts in the reverse order
    /// keeps the result from being too low while tasks begin and end.
    pub(crate) fn awaited(&self) -> u64 {
        let ended = self.ended() - self.background.1.load(SeqCst) as i64;
        let background = self.background.0.load(SeqCst) as i64;
        (self.spawned() - background - ended).max(0) as u64
    }

    /// Returns true if this runtime has ended or is about to end, so that no worker waits for events any more. `turns`
    /// is the count of the runtime's `Door` when the runtime began. If the runtime is about to end, still returns false
    /// on the runtime's own workers, because the runtime will drop the tasks that they poll.
    pub(crate) fn has_ended(&self, turns: u64) -> bool {
        let in_own_task = || Context::with(|worker| worker.map_or(false, |worker| ptr::eq(worker.shared, self)));
        self.door.turns() != turns || self.stop.load(SeqCst) && !in_own_task()
    }

    /// Wakes the tasks of other runtimes, and the closures of `spawn_blocking`, that wait for sockets and timers of
    /// this ended runtime. A wait for a socket then fails, and a sleep continues in the runtime that polls it.
    pub(crate) fn let_go(&self) {
        self.reactor.wake_all();
        let timers = self.workers.iter().map(|worker| &worker.0.timers);
        for timers in timers.chain([&self.visitors]) {
            timers.fire(u64::MAX - 1);
        }
    }

    /// Lets a later runtime use this state, which no thread of the ended runtime may use any more.
    pub(crate) fn give(&'static self) {
        POOL.lock().unwrap().1.push(self);
    }

    #[inline]
    pub(crate) fn home(&self, place: usize) -> usize {
        place / (BLOCK * SHARD) % NUMBERS % self.workers.len()
    }

    /// Returns the worker that runs the tasks of `worker` and fires its timers: itself if it may run tasks, otherwise
    /// another.
    #[inline]
    pub(crate) fn keeper(&self, worker: usize) -> usize {
        let active = self.active.0.load(SeqCst);
        if worker < active {
            worker
        } else {
            worker % active
        }
    }
}

/// A worker's own state, for the calls that tasks make while this worker polls them.
pub(crate) struct Context {
    pub(crate) shared: &'static Shared,
    pub(crate) me: usize,
    pub(crate) hands: Hands,
    pub(crate) worker: &'static Worker,
    /// True if the runtime has no thread that could steal tasks from this worker's local queues.
    pub(crate) alone: bool,
    /// The identifier of the task that this worker polls now, or `NOBODY`.
    pub(crate) current: Cell<u64>,
    pub(crate) woken: Cell<bool>,
    pub(crate) reads: Cell<u32>,
    /// True if, in the current poll, the task has tried to read a socket and must do so in its next poll instead.
    pub(crate) put_off: Cell<bool>,
    /// The time, in nanoseconds, at which this worker last polled the epoll and fired timers, or had no work.
    pub(crate) looked: Cell<u64>,
    /// True if a task that this worker wakes runs next on it; false while it fires timers and reads events.
    pub(crate) keeps: Cell<bool>,
    pub(crate) room: Cell<usize>,
    random: Cell<u64>,
}

thread_local! {
    static CONTEXT: Cell<*const Context> = const { Cell::new(ptr::null()) };
    static ENTERED: Cell<Option<&'static Shared>> = const { Cell::new(None) };
    static SEATS: RefCell<Visitor> = const { RefCell::new(Visitor { seats: Vec::new() }) };
}

impl Context {
    pub(crate) fn new(shared: &'static Shared, me: usize, hands: Hands, alone: bool) -> Context {
        let random = Cell::new((me as u64 + 1).wrapping_mul(0x9e37_79b9_7f4a_7c15));
        Context {
            shared,
            me,
            hands,
            worker: &shared.workers[me].0,
            alone,
            current: Cell::new(NOBODY),
            woken: Cell::new(false),
            reads: Cell::new(0),
            put_off: Cell::new(false),
            looked: Cell::new(now()),
            keeps: Cell::new(true),
            room: Cell::new(0),
            random,
        }
    }

    /// Calls `call` with the context of the calling thread, or with None if the thread is no worker.
    #[inline]
    pub(crate) fn with<R>(call: impl FnOnce(Option<&Context>) -> R) -> R {
        let context = CONTEXT.with(Cell::get);
        // SAFETY: `enter` clears the pointer before the context is dropped.
        call(unsafe { context.as_ref() })
    }

    pub(crate) fn enter<R>(&self, f: impl FnOnce() -> R) -> R {
        struct Leave;
        impl Drop for Leave {
            fn drop(&mut self) {
                CONTEXT.with(|context| context.set(ptr::null()));
            }
        }
        CONTEXT.with(|context| context.set(self));
        let _leave = Leave;
        f()
    }

    /// Returns true if the current poll may read a socket: always once, and then until the worker must poll the epoll
    /// again. So a task whose socket always has data doesn't occupy its worker for ever.
    #[inline]
    pub(crate) fn may_read(&self) -> bool {
        let reads = self.reads.replace(self.reads.get() + 1);
        if reads == 0 || now().saturating_sub(self.looked.get()) < LOOK_TIME {
            return true;
        }
        self.put_off.set(true);
        false
    }

    pub(crate) fn random(&self) -> u64 {
        let x = next_random(self.random.get());
        self.random.set(x);
        x
    }
}

fn next_random(mut x: u64) -> u64 {
    x ^= x << 13;
    x ^= x >> 7;
    x ^ x << 17
}

/// Returns the runtime of which this thread is a worker, or which it has entered; otherwise None.
pub(crate) fn here() -> Option<&'static Shared> {
    ENTERED.with(Cell::get).or_else(|| Context::with(|worker| worker.map(|w| w.shared)))
}

pub(crate) fn is_own(shared: &Shared) -> bool {
    let is_it = |at: Option<&'static Shared>| at.map_or(false, |at| ptr::eq(at, shared));
    is_it(ENTERED.with(Cell::get)) || is_it(Context::with(|worker| worker.map(|w| w.shared)))
}

/// Calls `f`. The tasks, sockets and timers that it creates belong to the runtime `shared`.
pub(crate) fn entered<R>(shared: &'static Shared, f: impl FnOnce() -> R) -> R {
    struct Leave(Option<&'static Shared>);
    impl Drop for Leave {
        fn drop(&mut self) {
            ENTERED.with(|entered| entered.set(self.0));
        }
    }
    let _leave = Leave(ENTERED.with(|entered| entered.replace(Some(shared))));
    f()
}

/// The handles by which this thread calls the proved core of each runtime in which it is no worker.
struct Visitor {
    seats: Vec<Option<Hands>>,
}

impl Drop for Visitor {
    fn drop(&mut self) {
        for (table, hands) in self.seats.drain(..).enumerate() {
            if let (Some(shared), Some(hands)) = (shared_of(table), hands) {
                shared.root.lock().unwrap_or_else(|e| e.into_inner()).join(hands);
            }
        }
    }
}

pub(crate) fn with_hands<R>(shared: &'static Shared, call: impl FnOnce(&Hands) -> R) -> R {
    let mut call = Some(call);
    let visited = SEATS.try_with(|visitor| {
        let mut visitor = visitor.try_borrow_mut().ok()?;
        if visitor.seats.len() <= shared.table {
            visitor.seats.resize_with(shared.table + 1, || None);
        }
        if visitor.seats[shared.table].is_none() {
            let hands = shared.root.lock().unwrap_or_else(|e| e.into_inner()).crew(1, 1)?.pop();
            visitor.seats[shared.table] = hands;
        }
        let hands = visitor.seats[shared.table].as_ref()?;
        call.take().map(|call| call(hands))
    });
    match (visited, call) {
        (Ok(Some(result)), _) => result,
        (_, Some(call)) => {
            // The thread is ending and has dropped its handles, or they are in use. So this call makes new ones.
            let mut root = shared.root.lock().unwrap_or_else(|e| e.into_inner());
            let hands = root.crew(1, 1).and_then(|mut crew| crew.pop()).expect("no memory for a seat");
            let result = call(&hands);
            root.join(hands);
            result
        }
        (_, None) => unreachable!("a call was made and had no result"),
    }
}
