//! A worker's local queues of tasks (its *hand*), from which other workers may steal at any time.

use crate::core::Job;
use crate::sync::atomic::{AtomicU64, Ordering::*};

pub(crate) const FIRST: usize = 8;
/// The number of tasks for which a worker's local queue of its own tasks has room; a power of two.
pub(crate) const LINE: usize = 64;

/// The local queues of one worker, into which only that worker puts tasks.
#[derive(Default)]
pub(crate) struct Hand {
    pub(crate) next: Next,
    /// Tasks that the worker has stolen. It runs them before all its other ready tasks.
    pub(crate) first: Jobs<FIRST>,
    /// The worker's own tasks, first in, first out: those that have yielded, or that events have woken.
    pub(crate) line: Jobs<LINE>,
}

impl Hand {
    pub(crate) fn is_empty(&self) -> bool {
        self.next.is_empty() && self.waits() == 0
    }

    pub(crate) fn waits(&self) -> usize {
        self.first.len() + self.line.len()
    }

    /// Takes a task of `self.first` or, if that is empty, of `line`. If both are empty and `next` is true, takes
    /// `self.next`.
    pub(crate) fn take(&self, next: bool) -> Option<Job> {
        let behind = self.first.take(false).or_else(|| self.line.take(false));
        behind.or_else(|| if next { self.next.take(false) } else { None })
    }
}

#[derive(Default)]
struct Slot {
    name: AtomicU64,
    job: AtomicU64,
    seat: AtomicU64,
}

impl Slot {
    #[inline]
    fn put(&self, job: Job) {
        self.name.store(job.name, Relaxed);
        self.job.store(job.job, Relaxed);
        self.seat.store(job.seat as u64, Relaxed);
    }

    #[inline]
    fn get(&self) -> Job {
        Job { name: self.name.load(Relaxed), job: self.job.load(Relaxed), seat: self.seat.load(Relaxed) as u16 }
    }
}

/// Takes the task in `slot` by advancing the queue's `count` from `seen` by one. If another thread has advanced the
/// count first, returns the current count as the error. If `alone` is true, no other thread takes tasks, and a plain
/// store suffices. The slot must be read before the count is advanced, because the worker may write the slot again
/// after that. A thread that then fails to advance the count may have read a mixture of two tasks, and discards it.
#[inline]
fn take(count: &AtomicU64, seen: u64, slot: &Slot, alone: bool) -> Result<Job, u64> {
    let job = slot.get();
    if alone {
        count.store(seen + 1, Relaxed);
        return Ok(job);
    }
    count.compare_exchange(seen, seen + 1, AcqRel, Acquire).map(|_| job)
}

/// The one task that a worker runs next, if any. It has its own cache lines, since the worker writes it at each wake
/// while other threads read the worker's other queues.
#[derive(Default)]
#[repr(align(128))]
pub(crate) struct Next {
    /// The number of tasks put here and taken from here, together. It is odd while a task is here.
    steps: AtomicU64,
    slot: Slot,
}

impl Next {
    #[inline]
    pub(crate) fn is_empty(&self) -> bool {
        self.steps.load(Acquire) % 2 == 0
    }

    /// Sets `job` to run next. Returns false, and does nothing, if another task is already set.
    #[inline]
    pub(crate) fn put(&self, job: Job) -> bool {
        let steps = self.steps.load(Acquire);
        if steps % 2 == 0 {
            self.slot.put(job);
            self.steps.store(steps + 1, Release);
        }
        steps % 2 == 0
    }

    #[inline]
    pub(crate) fn take(&self, alone: bool) -> Option<Job> {
        let steps = self.steps.load(Acquire);
        if steps % 2 == 0 {
            return None;
        }
        take(&self.steps, steps, &self.slot, alone).ok()
    }
}

/// A queue of up to `ROOM` tasks. The worker that owns it puts them there, and any worker may take them.
pub(crate) struct Jobs<const ROOM: usize> {
    taken: AtomicU64,
    put: AtomicU64,
    slots: [Slot; ROOM],
}

impl<const ROOM: usize> Default for Jobs<ROOM> {
    fn default() -> Jobs<ROOM> {
        let slots = std::array::from_fn(|_| Slot::default());
        Jobs { taken: AtomicU64::new(0), put: AtomicU64::new(0), slots }
    }
}

impl<const ROOM: usize> Jobs<ROOM> {
    #[inline]
    pub(crate) fn len(&self) -> usize {
        let taken = self.taken.load(Acquire);
        (self.put.load(Acquire) - taken) as usize
    }

    #[inline]
    pub(crate) fn is_empty(&self) -> bool {
        self.len() == 0
    }

    /// Puts `job` at the queue's end. Returns false, and does nothing, if the queue has `most` tasks already, or no
    /// room.
    #[inline]
    pub(crate) fn put(&self, job: Job, most: usize) -> bool {
        let (put, taken) = (self.put.load(Relaxed), self.taken.load(Acquire));
        let has_room = put - taken < most.min(ROOM) as u64;
        if has_room {
            self.slots[put as usize % ROOM].put(job);
            self.put.store(put + 1, Release);
        }
        has_room
    }

    #[inline]
    pub(crate) fn take(&self, alone: bool) -> Option<Job> {
        let mut taken = self.taken.load(Acquire);
        while self.put.load(Acquire) != taken {
            match take(&self.taken, taken, &self.slots[taken as usize % ROOM], alone) {
                Ok(job) => return Some(job),
                Err(now) => taken = now,
            }
        }
        None
    }
}
