//! A pool of kernel threads with a deque each, by which a fork's two sides may run at once: a plain version of what
//! rayon's `join` does. The owner pushes and pops at one end of its deque, others steal at the other (Chase and Lev,
//! 2005).
use std::cell::UnsafeCell;
use std::sync::atomic::{AtomicBool, AtomicIsize, AtomicPtr, AtomicUsize, Ordering::*};
use std::thread;
use std::time::Duration;

/// A job on the stack of whoever pushed it, and the function that runs it.
#[derive(Clone, Copy)]
struct Task {
    job: *const (),
    run: unsafe fn(*const (), &Worker),
}

const ROOM: usize = 1 << 16;

#[repr(align(128))]
struct Deque {
    bottom: AtomicIsize,
    top: AtomicIsize,
    slots: Box<[(AtomicPtr<()>, AtomicUsize)]>,
}

impl Deque {
    fn new() -> Deque {
        let slots = (0..ROOM).map(|_| (AtomicPtr::new(std::ptr::null_mut()), AtomicUsize::new(0))).collect();
        Deque { bottom: AtomicIsize::new(0), top: AtomicIsize::new(0), slots }
    }

    fn slot(&self, at: isize) -> &(AtomicPtr<()>, AtomicUsize) {
        &self.slots[at as usize % ROOM]
    }

    fn task(&self, at: isize) -> Task {
        let (job, run) = self.slot(at);
        Task { job: job.load(Relaxed), run: unsafe { std::mem::transmute::<usize, unsafe fn(*const (), &Worker)>(run.load(Relaxed)) } }
    }

    /// Whether there was room.
    fn push(&self, task: Task) -> bool {
        let bottom = self.bottom.load(Relaxed);
        if bottom - self.top.load(Acquire) >= ROOM as isize - 1 {
            return false;
        }
        let (job, run) = self.slot(bottom);
        job.store(task.job as *mut (), Relaxed);
        run.store(task.run as usize, Relaxed);
        self.bottom.store(bottom + 1, Release);
        true
    }

    fn pop(&self) -> Option<Task> {
        let bottom = self.bottom.load(Relaxed) - 1;
        self.bottom.store(bottom, SeqCst);
        let top = self.top.load(SeqCst);
        if top > bottom {
            self.bottom.store(bottom + 1, Relaxed);
            return None;
        }
        let task = self.task(bottom);
        if top == bottom {
            let won = self.top.compare_exchange(top, top + 1, SeqCst, Relaxed).is_ok();
            self.bottom.store(bottom + 1, Relaxed);
            return won.then_some(task);
        }
        Some(task)
    }

    fn steal(&self) -> Option<Task> {
        let top = self.top.load(SeqCst);
        if top >= self.bottom.load(SeqCst) {
            return None;
        }
        let task = self.task(top);
        self.top.compare_exchange(top, top + 1, SeqCst, Relaxed).is_ok().then_some(task)
    }
}

struct Pool {
    deques: Vec<Deque>,
    stop: AtomicBool,
}

/// A kernel thread of the pool.
pub struct Worker<'a> {
    pool: &'a Pool,
    own: usize,
}

struct Job<F, A> {
    work: UnsafeCell<Option<F>>,
    answer: UnsafeCell<Option<A>>,
    done: AtomicBool,
}

unsafe fn run<F: FnOnce(&Worker) -> A, A>(job: *const (), worker: &Worker) {
    let job = unsafe { &*(job as *const Job<F, A>) };
    let work = unsafe { (*job.work.get()).take().unwrap() };
    let answer = work(worker);
    unsafe { *job.answer.get() = Some(answer) };
    job.done.store(true, Release);
}

impl Worker<'_> {
    /// Runs both, the first by whoever is free, and answers both.
    pub fn both<F: FnOnce(&Worker) -> A + Send, A: Send, B>(&self, child: F, during: impl FnOnce(&Worker) -> B) -> (A, B) {
        let job = Job { work: UnsafeCell::new(Some(child)), answer: UnsafeCell::new(None), done: AtomicBool::new(false) };
        let task = Task { job: &job as *const Job<F, A> as *const (), run: run::<F, A> };
        let deque = &self.pool.deques[self.own];
        let pushed = deque.push(task);
        let own = during(self);
        if !pushed {
            unsafe { (task.run)(task.job, self) };
        }
        let mut idle = 0;
        while !job.done.load(Acquire) {
            match deque.pop().or_else(|| self.steal()) {
                Some(task) => unsafe { (task.run)(task.job, self) },
                None => rest(&mut idle),
            }
        }
        (job.answer.into_inner().unwrap(), own)
    }

    fn steal(&self) -> Option<Task> {
        let cores = self.pool.deques.len();
        (1..cores).find_map(|step| self.pool.deques[(self.own + step) % cores].steal())
    }
}

fn rest(idle: &mut u32) {
    *idle += 1;
    match *idle {
        0..=64 => std::hint::spin_loop(),
        65..=256 => thread::yield_now(),
        _ => thread::sleep(Duration::from_micros(50)),
    }
}

/// Runs work on the first of so many kernel threads, the others stealing meanwhile.
pub fn on_cores<A: Send>(cores: usize, work: impl FnOnce(&Worker) -> A + Send) -> A {
    let pool = Pool { deques: (0..cores).map(|_| Deque::new()).collect(), stop: AtomicBool::new(false) };
    thread::scope(|scope| {
        for own in 1..cores {
            let pool = &pool;
            scope.spawn(move || {
                let worker = Worker { pool, own };
                let mut idle = 0;
                while !pool.stop.load(Acquire) {
                    match worker.steal() {
                        Some(task) => {
                            unsafe { (task.run)(task.job, &worker) };
                            idle = 0;
                        }
                        None => rest(&mut idle),
                    }
                }
            });
        }
        let answer = work(&Worker { pool: &pool, own: 0 });
        pool.stop.store(true, Release);
        answer
    })
}
