//! Wakers of tasks. A waker's data pointer is its task's identifier (the slot, and how many tasks have ended there),
//! and each runtime has its own vtable. So cloning and dropping a waker does nothing, and the waker of a task that has
//! ended wakes nobody.

use crate::core::{place_of, Woken};
use crate::hand::LINE;
use crate::shared::{add, shared_of, with_hands, Context as Worker, TABLES};
use std::mem::ManuallyDrop;
use std::task::{RawWaker, RawWakerVTable, Waker};

/// A number that identifies no task.
pub(crate) const NOBODY: u64 = u64::MAX;

unsafe fn clone<const TABLE: usize>(data: *const ()) -> RawWaker {
    RawWaker::new(data, &VTABLES[TABLE])
}
unsafe fn wake<const TABLE: usize>(data: *const ()) {
    wake_name(TABLE, data as usize as u64);
}
unsafe fn nothing(_: *const ()) {}

const fn of<const TABLE: usize>() -> RawWakerVTable {
    RawWakerVTable::new(clone::<TABLE>, wake::<TABLE>, wake::<TABLE>, nothing)
}

macro_rules! tables {
    ($($n:literal)*) => { [$(of::<$n>()),*] };
}
static VTABLES: [RawWakerVTable; TABLES] =
    tables!(0 1 2 3 4 5 6 7 8 9 10 11 12 13 14 15 16 17 18 19 20 21 22 23 24 25 26 27 28 29 30 31);

#[inline]
pub(crate) fn waker_of(table: usize, name: u64) -> ManuallyDrop<Waker> {
    // SAFETY: the functions of VTABLES take any word.
    ManuallyDrop::new(unsafe { Waker::from_raw(RawWaker::new(name as usize as *const (), &VTABLES[table])) })
}

#[inline]
pub(crate) fn is_of_running(waker: &Waker, worker: &Worker) -> bool {
    let name = worker.current.get();
    name != NOBODY && waker.will_wake(&waker_of(worker.shared.table, name))
}

/// If this thread is a worker that polls the task of `waker` now, returns `of(worker)`; otherwise false.
#[inline]
pub(crate) fn in_own_poll(waker: &Waker, of: impl FnOnce(&Worker) -> bool) -> bool {
    Worker::with(|worker| worker.map_or(false, |worker| is_of_running(waker, worker) && of(worker)))
}

/// Returns the identifier of the task of `waker`, if a worker of the runtime `table` polls it now on this thread.
#[inline]
pub(crate) fn name_in(waker: &Waker, table: usize) -> Option<u64> {
    Worker::with(|worker| {
        let worker = worker.filter(|w| w.shared.table == table)?;
        is_of_running(waker, worker).then(|| worker.current.get())
    })
}

/// Wakes the task `name` of the runtime with the index `table`, unless the task has ended.
pub(crate) fn wake_name(table: usize, name: u64) {
    let shared = match shared_of(table) {
        Some(shared) => shared,
        None => return,
    };
    Worker::with(|worker| match worker {
        Some(worker) if worker.shared.table == table => {
            if worker.current.get() == name {
                // This worker makes the task ready again after the poll.
                worker.woken.set(true);
                return;
            }
            match worker.hands.wake(name, worker.keeps.get() || worker.room.get() != 0) {
                Woken::Kept(job) => {
                    add(&worker.worker.wakes, 1);
                    shared.observer.ready(place_of(name));
                    if !worker.keeps.get() {
                        worker.room.set(worker.room.get() - 1);
                        shared.set_behind(worker, job, LINE);
                    } else {
                        shared.set_next(worker, job);
                    }
                }
                Woken::Ready { unpark } => {
                    add(&worker.worker.wakes, 1);
                    shared.observer.ready(place_of(name));
                    shared.published(name, unpark, !worker.keeps.get());
                }
                Woken::Marked | Woken::Gone => {}
            }
        }
        _ => {
            if let Woken::Ready { unpark } = with_hands(shared, |hands| hands.wake(name, false)) {
                shared.observer.ready(place_of(name));
                shared.published(name, unpark, false);
            }
        }
    })
}
