//! Records the state of each task and how long ready tasks waited for a worker, and calls the program's hooks.
//!
//! Without `Builder::observed` or `Builder::hooks`, nothing is recorded: each poll of a task then costs only one more
//! test.

use crate::core::Job;
use crate::shared::Shared;
use crate::sync::atomic::{AtomicPtr, AtomicU64, Ordering::*};
use crate::sync::{Arc, RwLock};
use crate::task::{About, Label};
use crate::timer::now;
use std::panic::Location;
use std::ptr;
use std::time::Duration;

/// Functions that the runtime calls when a task is spawned, polled, woken or ended; for example, for a tracing library.
///
/// Each function is called on the thread that spawns, polls, wakes or ends the task, and must not panic. `_id` is a
/// number that no other task of the runtime ever has. See `Builder::hooks`.
///
/// ```
/// use std::sync::{Arc, atomic::{AtomicUsize, Ordering::SeqCst}};
/// #[derive(Default)]
/// struct Spawns(AtomicUsize);
/// impl arachne::Hooks for Spawns {
///     fn spawned(&self, _: &arachne::About) {
///         self.0.fetch_add(1, SeqCst);
///     }
/// }
/// let spawns = Arc::new(Spawns::default());
/// let runtime = arachne::Builder::new(1).hooks(spawns.clone()).build().unwrap();
/// runtime.block_on(runtime.spawn(async {})).unwrap();
/// assert_eq!(spawns.0.load(SeqCst), 1);
/// ```
pub trait Hooks: Send + Sync {
    /// Called when a task was spawned.
    fn spawned(&self, _about: &About) {}
    /// Called when a poll of this task begins.
    fn poll_begins(&self, _id: u64, _about: &About) {}
    /// Called when a poll of this task is over. If the task has ended, a call of `ended` follows.
    fn poll_ends(&self, _id: u64) {}
    /// Called when a waiting task was made ready. `_place` is the index of its task slot.
    fn woken(&self, _place: usize) {}
    /// Called when the task has ended on a worker.
    fn ended(&self, _id: u64) {}
}

pub(crate) const HISTOGRAM: usize = 24;

#[derive(Default)]
struct Record {
    spawned: AtomicPtr<Location<'static>>,
    label: AtomicPtr<Label>,
    /// The identifier of the slot's task plus one; 0 if there is no task in the slot.
    name: AtomicU64,
    waits_since: AtomicU64,
    /// The time (in nanoseconds) at which the task became ready; 0 if it isn't ready.
    ready_since: AtomicU64,
    /// The time (in nanoseconds) at which the current poll of the task began; 0 if there is none.
    runs_since: AtomicU64,
}

#[derive(Default)]
pub(crate) struct Observer {
    records: Box<[Record]>,
    hooks: RwLock<Option<Arc<dyn Hooks>>>,
    histogram: [AtomicU64; HISTOGRAM],
}

/// A task's current state; see the example at `Runtime::tasks`.
#[derive(Clone, Copy, PartialEq, Eq, Debug)]
#[non_exhaustive]
pub enum Doing {
    /// The task waits to be woken.
    Waits,
    /// The task is ready to run, and waits until a worker takes it.
    Ready,
    /// A worker polls the task now.
    Runs,
}

/// A task that has not ended, as listed by `Runtime::tasks`; see the example there.
#[derive(Clone, Copy, Debug)]
#[non_exhaustive]
pub struct TaskInfo {
    /// A number that no other task of the runtime ever has.
    pub id: u64,
    /// The line of code that spawned the task, and the task's name.
    pub about: About,
    /// The task's current state.
    pub doing: Doing,
    /// The time since the task came into the state `doing`.
    pub age: Duration,
}

impl Observer {
    pub(crate) fn new(places: usize) -> Observer {
        Observer { records: (0..places).map(|_| Record::default()).collect(), ..Observer::default() }
    }

    #[inline]
    pub(crate) fn is_on(&self) -> bool {
        !self.records.is_empty()
    }

    pub(crate) fn reset(&self) {
        for record in &*self.records {
            record.name.store(0, Relaxed);
        }
        self.histogram.iter().for_each(|count| count.store(0, Relaxed));
        *self.hooks.write().unwrap() = None;
    }

    pub(crate) fn set_hooks(&self, hooks: Option<Arc<dyn Hooks>>) {
        *self.hooks.write().unwrap() = hooks;
    }

    fn tell(&self, call: impl FnOnce(&dyn Hooks)) {
        if let Some(hooks) = &*self.hooks.read().unwrap_or_else(|e| e.into_inner()) {
            call(&**hooks);
        }
    }

    #[inline]
    pub(crate) fn spawns(&self, about: &About) {
        if self.is_on() {
            self.tell(|hooks| hooks.spawned(about));
        }
    }

    #[inline]
    pub(crate) fn begins(&self, job: &Job, about: &About) {
        if self.is_on() {
            self.note_begin(job, about);
        }
    }

    fn note_begin(&self, job: &Job, about: &About) {
        let (record, now) = (&self.records[job.place()], now());
        let ready = record.ready_since.swap(0, Relaxed);
        if ready != 0 {
            let micros = now.saturating_sub(ready) / 1000;
            let bits = (64 - micros.leading_zeros()) as usize;
            self.histogram[bits.min(HISTOGRAM - 1)].fetch_add(1, Relaxed);
        }
        record.spawned.store(about.spawned as *const _ as *mut _, Relaxed);
        record.label.store(about.name.map_or(ptr::null_mut(), |l| l as *const _ as *mut _), Relaxed);
        record.waits_since.store(0, Relaxed);
        record.runs_since.store(now, Relaxed);
        record.name.store(job.name + 1, Release);
        self.tell(|hooks| hooks.poll_begins(job.name, about));
    }

    #[inline]
    pub(crate) fn stops(&self, job: &Job, ended: bool) {
        if self.is_on() {
            let record = &self.records[job.place()];
            record.runs_since.store(0, Relaxed);
            record.waits_since.store(now(), Relaxed);
            if ended {
                record.name.store(0, Release);
            }
            self.tell(|hooks| {
                hooks.poll_ends(job.name);
                if ended {
                    hooks.ended(job.name);
                }
            });
        }
    }

    #[inline]
    pub(crate) fn ready(&self, place: usize) {
        if self.is_on() {
            self.records[place].ready_since.store(now(), Relaxed);
            self.tell(|hooks| hooks.woken(place));
        }
    }

    pub(crate) fn histogram(&self) -> [u64; HISTOGRAM] {
        std::array::from_fn(|i| self.histogram[i].load(Relaxed))
    }

    pub(crate) fn tasks(&self) -> Vec<TaskInfo> {
        let now = now();
        self.records.iter().filter_map(|record| record.info(now)).collect()
    }
}

impl Record {
    fn info(&self, now: u64) -> Option<TaskInfo> {
        let id = self.name.load(Acquire).checked_sub(1)?;
        // SAFETY: a reference that was stored there lives for ever.
        let spawned: &'static Location<'static> = unsafe { self.spawned.load(Relaxed).as_ref()? };
        // SAFETY: the same.
        let name: Option<&'static Label> = unsafe { self.label.load(Relaxed).as_ref() };
        let (waits, ready, runs) =
            (self.waits_since.load(Relaxed), self.ready_since.load(Relaxed), self.runs_since.load(Relaxed));
        let (doing, since) = if runs != 0 {
            (Doing::Runs, runs)
        } else if ready != 0 {
            (Doing::Ready, ready)
        } else {
            (Doing::Waits, waits)
        };
        let age = Duration::from_nanos(now.saturating_sub(since));
        (self.name.load(Acquire) == id + 1).then_some(TaskInfo { id, about: About { spawned, name }, doing, age })
    }
}

impl Shared {
    pub(crate) fn running(&self, worker: usize) -> Option<(u64, About)> {
        let worker = &self.workers[worker].0;
        let name = worker.running.load(Relaxed);
        // SAFETY: a reference that was stored there lives for ever.
        let spawned: &'static Location<'static> = unsafe { worker.site.load(Relaxed).as_ref()? };
        // SAFETY: the same.
        let label: Option<&'static Label> = unsafe { worker.label.load(Relaxed).as_ref() };
        (name != crate::waker::NOBODY).then_some((name, About { spawned, name: label }))
    }
}
