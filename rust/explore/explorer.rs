//! Explores the interleavings of threads. It runs real threads, one at a time, in an order that a seed determines.
//!
//! Each step of an atomic, a lock, a condition variable, an epoll, a clock or a thread is a *point*, at which another
//! thread may run instead. Each thread has a random priority. Of the threads that can run, the one with the highest
//! priority runs. At a few random points, the running thread gets the lowest priority, or stands still for up to 16 ms.
//! In *exact* loads, no thread stands still at random.
//!
//! Time is virtual: a point takes some nanoseconds, and if no thread can run, time jumps to the end of the first
//! thread's sleep. A run fails in each of these cases:
//!
//! - It hangs: all threads wait without a time limit, or it takes more than `LONGEST` of virtual time.
//! - It is a livelock: it takes more than `STEPS` points.
//! - It uses freed memory, which the explorer has filled with a pattern: an atomic or a lock contains the pattern, or
//!   the pattern has changed.
//! - It leaks memory.
//! - An assertion fails, or the processor reports a fault.
//!
//! The explorer then prints the last 40 points (or as many as `TRACE` says), and the last point of each thread. It also
//! prints the load and the seed, which repeat the run. The script `explore/run` builds and runs the explorer.
//!
//! The crate is explored with its model of the proved core, and not with the proved library. All steps are sequentially
//! consistent, so the explorer finds no missing barrier. The explorer also finds no data race on other data between two
//! points, and no error that needs a spurious wake of a condition variable or another order of Linux's calls.

use std::alloc::{GlobalAlloc, Layout, System};
use std::cell::{Cell, UnsafeCell};
use std::io::Write;
use std::panic::Location;
use std::sync::atomic::{AtomicBool, AtomicPtr, Ordering::*};

#[path = "types.rs"]
mod types;
pub use types::*;

/// The limits of a run: its threads, its points (steps), the points in the trace, and its nanoseconds of virtual time.
const MOST: usize = 16;
const STEPS: u64 = 300_000;
const KEPT: usize = 1 << 12;
const LONGEST: u64 = 10_000_000_000;
/// After this many points (steps), a thread gets the lowest priority, because it may be waiting in a loop.
const PATIENCE: u64 = 3000;
const START: u64 = 1_000_000_000;
const NEVER: u64 = u64::MAX;
const NOBODY: usize = usize::MAX;
const HIGH: u64 = 1 << 40;

#[derive(Clone, Copy, PartialEq)]
enum State {
    Idle,
    Ready,
    Waits,
}

type Job = Box<dyn FnOnce() + Send>;

struct Thread {
    state: Cell<State>,
    /// The thread's wait, in four fields: the address of what it is for, the time limit, the epoll, and true once
    /// woken.
    on: Cell<usize>,
    until: Cell<u64>,
    epoll: Cell<i32>,
    told: Cell<bool>,
    priority: Cell<u64>,
    patience: Cell<u64>,
    parks_on: Cell<bool>,
    name: Cell<[u8; 16]>,
    job: Cell<Option<Job>>,
    goes_on: AtomicBool,
    kernel: Cell<Option<&'static std::thread::Thread>>,
    last: Cell<Event>,
}

#[derive(Clone, Copy)]
struct Event {
    thread: usize,
    what: &'static str,
    at: Option<&'static Location<'static>>,
    value: u64,
    now: u64,
}
const NO_EVENT: Event = Event { thread: 0, what: "", at: None, value: NEVER, now: START };

/// The scheduler's state. Only the running thread accesses it.
struct World {
    threads: [Thread; MOST],
    count: Cell<usize>,
    clean: fn(),
    load: Cell<&'static str>,
    seed: Cell<u64>,
    exact: Cell<bool>,
    random: Cell<u64>,
    steps: Cell<u64>,
    switches: Cell<u64>,
    now: Cell<u64>,
    tick: Cell<u64>,
    /// Three fields, counted in points (steps): the next change of a priority, the mean distance of two changes, and
    /// the point at which the running thread began to run.
    change: Cell<u64>,
    gap: Cell<u64>,
    began: Cell<u64>,
    lowest: Cell<u64>,
    /// The thread that will stand still, the point (step) at which it will, and for how many nanoseconds.
    loss: Cell<(usize, u64, u64)>,
    /// Two fields: the point (step) and the time at which the scheduler next chooses a thread, if none is woken before.
    alarm: Cell<u64>,
    timer: Cell<u64>,
    stirred: Cell<bool>,
    events: UnsafeCell<[Event; KEPT]>,
}
// SAFETY: only the running thread accesses it, and `go_on` makes the next thread the running one.
unsafe impl Sync for World {}

static WORLD: AtomicPtr<World> = AtomicPtr::new(std::ptr::null_mut());

thread_local! {
    static ME: Cell<usize> = const { Cell::new(NOBODY) };
}

#[inline]
fn world() -> &'static World {
    // SAFETY: `prepare` has made it, and it is never freed.
    unsafe { &*WORLD.load(Relaxed) }
}

#[inline]
fn me() -> usize {
    ME.with(Cell::get)
}

extern "C" {
    fn poll(what: *mut [i32; 2], count: u64, timeout: i32) -> i32;
    fn sched_setaffinity(thread: i32, len: usize, mask: *const u64) -> i32;
    fn sched_getcpu() -> i32;
    fn signal(number: i32, handler: usize) -> usize;
    fn _exit(status: i32) -> !;
}

// ------------------------------------------------------------------------------------------- which thread goes on

impl World {
    fn random(&self) -> u64 {
        let mut x = self.random.get();
        x ^= x << 13;
        x ^= x >> 7;
        x ^= x << 17;
        self.random.set(x);
        x.wrapping_mul(0x2545_f491_4f6c_dd1d) >> 16
    }

    fn all(&self) -> impl Iterator<Item = &Thread> {
        self.threads[..self.count.get()].iter()
    }

    #[inline]
    fn step(&self, me: usize, what: &'static str, at: &'static Location<'static>) {
        let (steps, now) = (self.steps.get() + 1, self.now.get() + self.tick.get());
        self.steps.set(steps);
        self.now.set(now);
        // SAFETY: only the running thread accesses the events.
        unsafe {
            (*self.events.get())[steps as usize % KEPT] = Event { thread: me, what, at: Some(at), value: NEVER, now }
        };
        if steps >= self.alarm.get() || now >= self.timer.get() || self.stirred.get() {
            self.decide(me);
        }
    }

    #[cold]
    fn decide(&self, me: usize) {
        let steps = self.steps.get();
        if steps >= STEPS {
            fail("livelock: it takes too many points");
        }
        let (loses, from, nanos) = self.loss.get();
        if loses == me && steps >= from {
            self.loss.set((NOBODY, 0, 0));
            self.wait(me, 0, self.now.get() + nanos, -1);
            return;
        }
        if steps >= self.change.get() {
            self.change.set(steps + 1 + self.random() % (2 * self.gap.get()));
            let until = self.now.get() + (1 << (10 + self.random() % 15));
            match if self.exact.get() { 0 } else { self.random() % 4 } {
                // In case 3 all threads stand still, in case 2 only this thread.
                3 => self.now.set(until),
                2 => {
                    self.wait(me, 0, until, -1);
                    return;
                }
                _ => self.fall_behind(me),
            }
        } else if steps >= self.alarm.get() {
            self.fall_behind(me);
        }
        self.go_on(me);
    }

    fn fall_behind(&self, me: usize) {
        self.lowest.set(self.lowest.get() - 1);
        self.threads[me].priority.set(self.lowest.get());
        self.threads[me].patience.set(PATIENCE);
        self.began.set(self.steps.get());
    }

    /// Of the threads that can run, runs the one with the highest priority.
    fn go_on(&self, me: usize) {
        let next = loop {
            self.stirred.set(false);
            let (now, mut timer) = (self.now.get(), NEVER);
            for thread in self.all().filter(|thread| thread.state.get() == State::Waits) {
                if thread.until.get() <= now {
                    thread.state.set(State::Ready);
                } else {
                    timer = timer.min(thread.until.get());
                }
            }
            self.timer.set(timer);
            let ready = (0..self.count.get()).filter(|&at| self.threads[at].state.get() == State::Ready);
            match ready.max_by_key(|&at| self.threads[at].priority.get()) {
                Some(next) => break next,
                None => self.pass_time(timer),
            }
        };
        let (old, steps) = (&self.threads[me], self.steps.get());
        old.patience.set(old.patience.get().saturating_sub(steps - self.began.get()).max(1));
        self.began.set(steps);
        let (loses, from, _) = self.loss.get();
        let loss = if loses == next { from } else { NEVER };
        self.alarm.set(self.change.get().min(steps + self.threads[next].patience.get()).min(loss));
        if next != me {
            // SAFETY: only the running thread accesses the events.
            old.last.set(unsafe { (*self.events.get())[steps as usize % KEPT] });
            self.switches.set(self.switches.get() + 1);
            self.threads[next].goes_on.store(true, SeqCst);
            self.threads[next].kernel.get().expect("a kernel thread").unpark();
            self.await_turn(me);
        }
    }

    fn await_turn(&self, me: usize) {
        while !self.threads[me].goes_on.swap(false, SeqCst) {
            std::thread::park();
        }
    }

    /// If no epoll has an event, sets the virtual time to the end of the first sleep.
    fn pass_time(&self, timer: u64) {
        for thread in self.all().filter(|thread| thread.state.get() == State::Waits && thread.epoll.get() >= 0) {
            let mut what = [thread.epoll.get(), 1];
            // SAFETY: there is one record, of the eight bytes that Linux expects.
            if unsafe { poll(&mut what, 1, 0) } == 1 {
                return thread.state.set(State::Ready);
            }
        }
        if timer == NEVER {
            fail("hang: all threads wait, and none for a time");
        } else if timer > START + LONGEST {
            fail("hang: it takes too long");
        }
        self.now.set(timer);
    }

    /// Blocks the calling thread until it is woken, or until the virtual time `until`. Returns true if it was woken.
    fn wait(&self, me: usize, on: usize, until: u64, epoll: i32) -> bool {
        let thread = &self.threads[me];
        (thread.on.set(on), thread.until.set(until), thread.epoll.set(epoll), thread.told.set(false));
        thread.state.set(State::Waits);
        self.go_on(me);
        thread.told.get()
    }

    /// Wakes the threads that wait for the object `on` or, if `one` is true, a random one of them.
    fn tell(&self, on: usize, one: bool) {
        let waits = |thread: &&Thread| thread.state.get() == State::Waits && thread.on.get() == on;
        let count = self.all().filter(waits).count();
        if count != 0 {
            let (skip, most) = if one { (self.random() as usize % count, 1) } else { (0, count) };
            for thread in self.all().filter(waits).skip(skip).take(most) {
                (thread.state.set(State::Ready), thread.told.set(true));
            }
            self.stirred.set(true);
        }
    }

    fn begin(&'static self, name: &str, job: Job) {
        let tracks = HELD.tracks.replace(false);
        let idle = (1..self.count.get()).find(|&at| self.threads[at].state.get() == State::Idle);
        let at = idle.unwrap_or_else(|| self.new_thread());
        let (thread, mut letters) = (&self.threads[at], [0; 16]);
        letters.iter_mut().zip(name.bytes()).for_each(|(to, letter)| *to = letter);
        thread.job.set(Some(job));
        self.enters(thread, letters);
        self.stirred.set(true);
        HELD.tracks.set(tracks);
    }

    fn enters(&self, thread: &Thread, name: [u8; 16]) {
        (thread.name.set(name), thread.parks_on.set(false), thread.patience.set(PATIENCE));
        thread.priority.set(HIGH | self.random() >> 16);
        thread.state.set(State::Ready);
    }

    fn new_thread(&'static self) -> usize {
        let at = self.count.get();
        assert!(at < MOST, "too many threads");
        self.count.set(at + 1);
        let begun: &'static AtomicBool = Box::leak(Box::default());
        let work = move || {
            ME.with(|me| me.set(at));
            (self.clean)();
            self.threads[at].kernel.set(Some(Box::leak(Box::new(std::thread::current()))));
            begun.store(true, SeqCst);
            self.await_turn(at);
            loop {
                self.threads[at].job.take().expect("a job")();
                (self.clean)();
                self.threads[at].state.set(State::Idle);
                self.tell(NOBODY, false);
                self.go_on(at);
            }
        };
        std::mem::forget(std::thread::spawn(work));
        while !begun.load(SeqCst) {
            std::thread::yield_now();
        }
        at
    }
}

/// Marks a step of the calling thread, before which another thread may run. Does nothing outside of a run.
#[inline]
fn point(what: &'static str, at: &'static Location<'static>) {
    let me = me();
    if me != NOBODY {
        world().step(me, what, at);
    }
}

#[inline]
fn seen(value: u64) {
    let world = world();
    // SAFETY: only the running thread accesses the events.
    unsafe { (*world.events.get())[world.steps.get() as usize % KEPT].value = value };
}

// ------------------------------------------------------------------------------------------- a run

/// Prints the last points, the last point of each thread, and the seed.
pub fn fail(what: &str) -> ! {
    let world = world();
    HELD.tracks.set(false);
    let mut text = String::new();
    let tell = |text: &mut String, event: &Event| {
        let name = world.threads[event.thread].name.get();
        let name = String::from_utf8_lossy(&name).trim_end_matches('\0').to_string();
        let file = event.at.map_or("", |at| at.file().rsplit('/').next().unwrap_or(""));
        let at = format!("{file}:{}", event.at.map_or(0, |at| at.line()));
        let value = if event.value == NEVER { String::new() } else { format!("{:x}", event.value) };
        let micros = (event.now - START) as f64 / 1000.0;
        *text += &format!("{micros:>12.3} us  {name:<16} {at:<18} {} {value}\n", event.what);
    };
    let lines = std::env::var("TRACE").ok().and_then(|lines| lines.parse().ok()).unwrap_or(40).min(KEPT as u64 - 1);
    let steps = world.steps.get();
    // SAFETY: only the running thread accesses the events.
    let events = unsafe { &*world.events.get() };
    (steps.saturating_sub(lines) + 1..=steps).for_each(|step| tell(&mut text, &events[step as usize % KEPT]));
    for thread in world.all().filter(|thread| thread.state.get() != State::Idle) {
        text += if thread.state.get() == State::Ready { "can run:" } else { "waits:  " };
        tell(&mut text, &thread.last.get());
    }
    let (load, seed) = (world.load.get(), world.seed.get());
    text += &format!("FAILED {load} seed {seed} after {steps} points: {}\n", what.replace('\n', " "));
    // If nobody reads the text, that is no failure.
    let _ = std::io::stdout().write_all(text.as_bytes());
    // SAFETY: the call takes only a number. No destructor may run, so the process ends at once.
    unsafe { _exit(1) }
}

/// Prepares the process for its runs: keeps it on one processor, so that one thread wakes another cheaply. From now on
/// a panic or a fault ends the process. `clean` must free what the crate has cached for the calling kernel thread.
pub fn prepare(clean: fn()) {
    extern "C" fn fault(_: i32) {
        fail("a fault: something was used after it was freed, most likely");
    }
    let thread = |_| Thread {
        state: Cell::new(State::Idle),
        on: Cell::default(),
        until: Cell::default(),
        epoll: Cell::default(),
        told: Cell::default(),
        priority: Cell::default(),
        patience: Cell::default(),
        parks_on: Cell::default(),
        name: Cell::default(),
        job: Cell::default(),
        goes_on: AtomicBool::default(),
        kernel: Cell::default(),
        last: Cell::new(NO_EVENT),
    };
    let world = World {
        threads: [(); MOST].map(thread),
        count: Cell::new(1),
        clean,
        load: Cell::default(),
        seed: Cell::default(),
        exact: Cell::default(),
        random: Cell::default(),
        steps: Cell::default(),
        switches: Cell::default(),
        now: Cell::default(),
        tick: Cell::default(),
        change: Cell::default(),
        gap: Cell::default(),
        began: Cell::default(),
        lowest: Cell::default(),
        loss: Cell::default(),
        alarm: Cell::default(),
        timer: Cell::default(),
        stirred: Cell::default(),
        events: UnsafeCell::new([NO_EVENT; KEPT]),
    };
    world.threads[0].kernel.set(Some(Box::leak(Box::new(std::thread::current()))));
    WORLD.store(Box::leak(Box::new(world)), SeqCst);
    // SAFETY: the mask has eight bytes, as the call says, and the handler lives for ever.
    unsafe {
        sched_setaffinity(0, 8, &(1 << (sched_getcpu().max(0) % 64)));
        for number in [4, 6, 7, 11] {
            signal(number, fault as extern "C" fn(i32) as usize);
        }
    }
    std::panic::set_hook(Box::new(|panic| fail(&panic.to_string())));
}

/// Returns the number of points and of switches between threads. All threads of the load must end, and the load and
/// `end` must free all memory that the load has allocated.
pub fn run(name: &'static str, load: fn(), exact: bool, seed: u64, end: fn()) -> (u64, u64) {
    let world = world();
    (world.load.set(name), world.seed.set(seed), world.exact.set(exact));
    world.random.set((seed + 1).wrapping_mul(0x9e37_79b9_7f4a_7c15) | 1);
    for count in [&world.steps, &world.switches, &world.began, &world.alarm] {
        count.set(0);
    }
    (world.now.set(START), world.timer.set(NEVER), world.lowest.set(HIGH), world.loss.set((NOBODY, 0, 0)));
    world.tick.set(if exact { 1 } else { [1, 10, 100, 1000][choose(4)] });
    world.gap.set([8, 32, 100, 300, 1000][choose(5)]);
    world.change.set(1 + world.random() % (2 * world.gap.get()));
    world.enters(&world.threads[0], *b"main\0\0\0\0\0\0\0\0\0\0\0\0");
    ME.with(|me| me.set(0));
    HELD.tracks.set(true);
    load();
    while world.threads[1..].iter().any(|thread| thread.state.get() != State::Idle) {
        world.wait(0, NOBODY, NEVER, -1);
    }
    ME.with(|me| me.set(NOBODY));
    (world.clean)();
    end();
    HELD.tracks.set(false);
    HELD.give_back();
    (world.steps.get(), world.switches.get())
}

/// Makes the calling thread stand still for `time` of virtual time, after `points` more points (steps).
pub fn lose_processor(points: usize, time: std::time::Duration) {
    let world = world();
    let from = world.steps.get() + points as u64;
    world.loss.set((me(), from, time.as_nanos() as u64));
    world.alarm.set(world.alarm.get().min(from));
}

pub fn choose(count: usize) -> usize {
    world().random() as usize % count
}

// ------------------------------------------------------------------------------------------- memory

const PATTERN: u8 = 0xdb;

/// The memory blocks that a run has freed, and the number of those not freed yet. Counted only while `tracks` is true.
struct Held {
    tracks: Cell<bool>,
    live: Cell<isize>,
    count: Cell<usize>,
    blocks: UnsafeCell<[(*mut u8, Layout); 1 << 13]>,
}
// SAFETY: one thread at a time runs.
unsafe impl Sync for Held {}
static HELD: Held = Held {
    tracks: Cell::new(false),
    live: Cell::new(0),
    count: Cell::new(0),
    blocks: UnsafeCell::new([(std::ptr::null_mut(), Layout::new::<()>()); 1 << 13]),
};

impl Held {
    fn give_back(&self) {
        // SAFETY: only the running thread accesses the blocks, which were handed to `dealloc` and have the sizes of
        // their layouts.
        unsafe {
            for &(at, layout) in &(&*self.blocks.get())[..self.count.replace(0)] {
                if std::slice::from_raw_parts(at, layout.size()).iter().any(|&byte| byte != PATTERN) {
                    fail("use after free: memory was written");
                }
                System.dealloc(at, layout);
            }
        }
        if self.live.replace(0) != 0 {
            fail("a leak: not all that was allocated is freed");
        }
    }
}

/// The allocator of an explored program, which detects the use of freed memory.
pub struct Memory;

// SAFETY: each call goes to the system's allocator, which gets each block back once.
unsafe impl GlobalAlloc for Memory {
    unsafe fn alloc(&self, layout: Layout) -> *mut u8 {
        HELD.live.set(HELD.live.get() + HELD.tracks.get() as isize);
        System.alloc(layout)
    }
    unsafe fn dealloc(&self, at: *mut u8, layout: Layout) {
        let (count, blocks) = (HELD.count.get(), HELD.blocks.get());
        HELD.live.set(HELD.live.get() - HELD.tracks.get() as isize);
        if !HELD.tracks.get() || count == (*blocks).len() {
            return System.dealloc(at, layout);
        }
        at.write_bytes(PATTERN, layout.size());
        (*blocks)[count] = (at, layout);
        HELD.count.set(count + 1);
    }
}

/// Fails if the value `at` is in memory that was freed.
#[inline]
fn check<T>(at: &T) {
    let bytes = at as *const T as *const u8;
    // SAFETY: the value has as many bytes as are read, and no other thread runs.
    let freed = unsafe {
        match std::mem::size_of::<T>() {
            8 => bytes.cast::<u64>().read() == u64::from_ne_bytes([PATTERN; 8]),
            4 => bytes.cast::<u32>().read() == u32::from_ne_bytes([PATTERN; 4]),
            _ => bytes.read() == PATTERN,
        }
    };
    if freed {
        fail("use after free");
    }
}
