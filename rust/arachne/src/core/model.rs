//! An unproved replacement, in Rust with atomics, of the proved library, for tests and builds without that library. A
//! function without a comment here does the same as that of the same name in `library.rs`.
//!
//! A job (task) is ready if its bit in the ready word of its block (64 slots) is set. A thread takes the job by
//! clearing the bit. A slot's mark is four times the number of jobs that have ended there, plus 1 if its job was woken
//! since it was taken, plus 2 if the job is blocked. Each shard (64 blocks) has a summary word with a bit for each
//! block that may have ready jobs.

use super::{
    place_of, Asked, Freed, Job, Line, Rested, Spawned, Woken, BLOCK, MOST_SHARDS, NUMBERS, PLACE_BITS, SHARD,
};
use crate::cores::{Advice, Sample};
use crate::sync::atomic::{AtomicU64, AtomicU8, Ordering::*};
use crate::sync::{Arc, Mutex};
use std::cell::{Cell, UnsafeCell};
use std::collections::VecDeque;

const WOKEN: u64 = 1;
const BLOCKED: u64 = 2;

struct Block {
    ready: Line<AtomicU64>,
    free: Line<AtomicU64>,
    marks: [AtomicU64; BLOCK],
    slots: [UnsafeCell<u64>; BLOCK],
}

struct Table {
    blocks: Box<[Block]>,
    summary: Box<[Line<AtomicU64>]>,
    idle: Line<AtomicU64>,
}
// SAFETY: only the holder of a slot's job accesses the job's number: the thread that cleared the slot's bit in the free
// word or the ready word, or changed its mark from blocked. These atomic steps order the accesses.
unsafe impl Sync for Table {}
// SAFETY: as above. The job numbers are plain data, which any thread may have.
unsafe impl Send for Table {}

#[inline]
fn name_of(place: usize, generation: u64) -> u64 {
    generation << PLACE_BITS | place as u64
}

impl Table {
    #[inline]
    fn mark(&self, place: usize) -> &AtomicU64 {
        &self.blocks[place / BLOCK].marks[place % BLOCK]
    }

    /// Returns a pointer to the job number in the slot `place`.
    ///
    /// # Safety
    /// The caller may access the number only while it holds the job of that slot.
    #[inline]
    unsafe fn slot(&self, place: usize) -> *mut u64 {
        self.blocks[place / BLOCK].slots[place % BLOCK].get()
    }

    /// Makes the job in slot `place` ready. Returns true if the caller must wake the slot's worker. The order of the
    /// steps closes the race with `park`: set the job's ready bit, then its block's summary bit, then read the worker's
    /// idle bit.
    #[inline]
    fn publish(&self, place: usize) -> bool {
        let block = place / BLOCK;
        if self.blocks[block].ready.0.fetch_or(1 << (place % BLOCK), SeqCst) != 0 {
            return false;
        }
        let (shard, bit) = (block / SHARD, 1 << (block % SHARD));
        let summary = &self.summary[shard].0;
        if summary.load(SeqCst) & bit == 0 {
            summary.fetch_or(bit, SeqCst);
        }
        let idle = 1 << (shard % NUMBERS);
        self.idle.0.load(SeqCst) & idle != 0 && self.idle.0.fetch_and(!idle, SeqCst) & idle != 0
    }

    /// Clears the bit of `block` in its shard's summary word. If a job of the block has become ready, sets the bit
    /// again, and returns false. The ready word is read last, because `publish` sets the summary bit only with the
    /// first ready bit.
    fn hide(&self, block: usize) -> bool {
        let (summary, bit) = (&self.summary[block / SHARD].0, 1 << (block % SHARD));
        summary.fetch_and(!bit, SeqCst);
        let empty = self.blocks[block].ready.0.load(SeqCst) == 0;
        if !empty {
            summary.fetch_or(bit, SeqCst);
        }
        empty
    }

    fn wake_up(&self, number: usize) {
        if self.idle.0.load(SeqCst) >> number & 1 == 1 {
            self.idle.0.fetch_and(!(1 << number), SeqCst);
        }
    }
}

pub(crate) struct Root(Arc<Table>);

pub(crate) struct Hands {
    table: Arc<Table>,
    _one_thread: Cell<()>,
}

pub(crate) struct Parking {
    table: Arc<Table>,
    number: usize,
    _one_thread: Cell<()>,
}

impl Root {
    pub(crate) fn new(shards: usize) -> Option<Root> {
        if shards == 0 || shards > MOST_SHARDS {
            return None;
        }
        let block = || Block {
            ready: Line(AtomicU64::new(0)),
            free: Line(AtomicU64::new(u64::MAX >> (64 - BLOCK))),
            marks: std::array::from_fn(|_| AtomicU64::new(0)),
            slots: std::array::from_fn(|_| UnsafeCell::new(0)),
        };
        Some(Root(Arc::new(Table {
            blocks: (0..shards * SHARD).map(|_| block()).collect(),
            summary: (0..shards).map(|_| Line(AtomicU64::new(0))).collect(),
            idle: Line(AtomicU64::new(0)),
        })))
    }

    pub(crate) fn crew(&mut self, threads: usize, _most: usize) -> Option<Vec<Hands>> {
        Some((0..threads).map(|_| Hands { table: self.0.clone(), _one_thread: Cell::new(()) }).collect())
    }

    pub(crate) fn join(&mut self, hands: Hands) {
        debug_assert!(Arc::ptr_eq(&self.0, &hands.table));
    }

    pub(crate) fn parking(&mut self, number: usize) -> Option<Parking> {
        Some(Parking { table: self.0.clone(), number, _one_thread: Cell::new(()) })
    }
}

impl Parking {
    /// Returns true if no job of this worker's shards is ready. The idle bit is set before the ready words are read,
    /// because a thread that makes a job ready sets the ready bit, and then reads the idle bit.
    pub(crate) fn park(&self) -> bool {
        let table = &*self.table;
        table.idle.0.fetch_or(1 << self.number, SeqCst);
        for shard in (self.number..table.summary.len()).step_by(NUMBERS) {
            let mut bits = table.summary[shard].0.load(SeqCst);
            while bits != 0 {
                let block = shard * SHARD + bits.trailing_zeros() as usize;
                bits &= bits - 1;
                if table.blocks[block].ready.0.load(SeqCst) != 0 || !table.hide(block) {
                    table.wake_up(self.number);
                    return false;
                }
            }
        }
        true
    }

    pub(crate) fn wake_up(&self) {
        self.table.wake_up(self.number);
    }
}

impl Hands {
    #[inline]
    pub(crate) fn spawn(&self, block: usize, job: u64, keep: bool) -> Spawned {
        let free = &self.table.blocks[block].free.0;
        let mut seen = free.load(SeqCst);
        loop {
            if seen == 0 {
                return Spawned::Full;
            }
            let bit = seen & seen.wrapping_neg();
            let before = free.fetch_and(!bit, SeqCst);
            if before & bit == 0 {
                seen = before;
                continue;
            }
            let place = block * BLOCK + bit.trailing_zeros() as usize;
            let name = name_of(place, self.table.mark(place).load(SeqCst) >> 2);
            if keep {
                return Spawned::Kept(Job { name, job, seat: 0 });
            }
            // SAFETY: this thread has cleared the slot's bit in the free word, so nobody else accesses the slot.
            unsafe { *self.table.slot(place) = job };
            return Spawned::Ready { name, unpark: self.table.publish(place) };
        }
    }

    #[inline]
    pub(crate) fn gets(&self, _job: &Job, _of: usize) -> bool {
        true
    }

    /// Clears the record that the job was woken, since this thread polls the job after those wakes.
    #[inline]
    pub(crate) fn begin(&self, job: &Job) {
        let mark = self.table.mark(job.place());
        let seen = mark.load(SeqCst);
        if seen & WOKEN != 0 {
            mark.store(seen & !WOKEN, SeqCst);
        }
    }

    pub(crate) fn take_any(&self, block: usize) -> Option<Job> {
        let mut any = self.ready(block);
        self.take_next(block, &mut any)
    }

    #[inline]
    pub(crate) fn take_next(&self, block: usize, wanted: &mut u64) -> Option<Job> {
        let ready = &self.table.blocks[block].ready.0;
        *wanted &= ready.load(SeqCst);
        while *wanted != 0 {
            let bit = *wanted & wanted.wrapping_neg();
            *wanted -= bit;
            if ready.fetch_and(!bit, SeqCst) & bit == 0 {
                continue;
            }
            let place = block * BLOCK + bit.trailing_zeros() as usize;
            let mark = self.table.mark(place);
            let seen = mark.load(SeqCst);
            if seen & WOKEN != 0 {
                mark.store(seen & !WOKEN, SeqCst);
            }
            // SAFETY: this thread has cleared the slot's bit in the ready word, so it holds the job.
            return Some(Job { name: name_of(place, seen >> 2), job: unsafe { *self.table.slot(place) }, seat: 0 });
        }
        None
    }

    #[inline]
    pub(crate) fn ready(&self, block: usize) -> u64 {
        self.table.blocks[block].ready.0.load(Relaxed)
    }

    #[inline]
    pub(crate) fn shown(&self, shard: usize) -> u64 {
        self.table.summary[shard].0.load(SeqCst)
    }

    /// Clears the bit of `block` in its shard's summary word if none of its jobs is ready. Always returns false.
    pub(crate) fn hide(&self, block: usize) -> bool {
        self.table.hide(block);
        false
    }

    #[inline]
    pub(crate) fn rest_ready(&self, job: &Job) -> bool {
        // SAFETY: this thread holds the job.
        unsafe { *self.table.slot(job.place()) = job.job };
        self.table.publish(job.place())
    }

    #[inline]
    pub(crate) fn rest_blocked(&self, job: &Job) -> Rested {
        let mark = self.table.mark(job.place());
        let quiet = job.name >> PLACE_BITS << 2;
        if mark.load(SeqCst) == quiet {
            // SAFETY: this thread holds the job.
            unsafe { *self.table.slot(job.place()) = job.job };
            if mark.compare_exchange(quiet, quiet | BLOCKED, SeqCst, SeqCst).is_ok() {
                return Rested::Blocked;
            }
        }
        Rested::InHand
    }

    /// A slot isn't used again once its count of ended jobs no longer fits into a name.
    #[inline]
    pub(crate) fn finish(&self, job: &Job) {
        let next = (job.name >> PLACE_BITS) + 1;
        self.table.mark(job.place()).store(next << 2, SeqCst);
        if next >> (64 - PLACE_BITS) == 0 {
            self.table.blocks[job.place() / BLOCK].free.0.fetch_or(1 << (job.place() % BLOCK), SeqCst);
        }
    }

    #[inline]
    pub(crate) fn wake(&self, name: u64, keep: bool) -> Woken {
        let (place, generation) = (place_of(name), name >> PLACE_BITS);
        if place / BLOCK >= self.table.blocks.len() {
            return Woken::Gone;
        }
        let mark = self.table.mark(place);
        let mut seen = mark.load(SeqCst);
        loop {
            if seen >> 2 != generation {
                return Woken::Gone;
            }
            if seen & WOKEN != 0 {
                return Woken::Marked;
            }
            let next = if seen & BLOCKED != 0 { seen - BLOCKED } else { seen + WOKEN };
            match mark.compare_exchange(seen, next, SeqCst, SeqCst) {
                Err(now) => seen = now,
                Ok(_) if seen & BLOCKED == 0 => return Woken::Marked,
                Ok(_) if keep => {
                    // SAFETY: this thread changed the mark from blocked.
                    return Woken::Kept(Job { name, job: unsafe { *self.table.slot(place) }, seat: 0 });
                }
                Ok(_) => return Woken::Ready { unpark: self.table.publish(place) },
            }
        }
    }
}

const FREE: u8 = 0;
const HELD: u8 = 1;
const QUEUED: u8 = 2;

#[derive(Default)]
pub(crate) struct LockCore {
    /// `FREE`; or `HELD`, if the lock is held and nobody waits; or `QUEUED`, if waiters are in `line`.
    state: AtomicU8,
    line: Mutex<VecDeque<u64>>,
}

impl LockCore {
    #[inline]
    pub(crate) fn try_ask(&self) -> Option<u64> {
        self.state.compare_exchange(FREE, HELD, SeqCst, SeqCst).is_ok().then_some(1)
    }

    /// Requests the lock under `who`, an even number that no other waiter or holder has. (`try_ask` uses 1.)
    #[inline]
    pub(crate) fn ask(&self, who: u64) -> Asked {
        let mut line = self.line.lock().unwrap();
        loop {
            match self.state.load(SeqCst) {
                FREE if self.try_ask().is_some() => return Asked::Granted,
                FREE => {}
                QUEUED => break,
                _ if self.state.compare_exchange(HELD, QUEUED, SeqCst, SeqCst).is_ok() => break,
                _ => {}
            }
        }
        line.push_back(who);
        Asked::Queued
    }

    #[inline]
    pub(crate) fn free(&self, _who: u64) -> Freed {
        if self.state.compare_exchange(HELD, FREE, SeqCst, SeqCst).is_ok() {
            return Freed::Free;
        }
        let mut line = self.line.lock().unwrap();
        let next = line.pop_front();
        self.settle(&line, next.is_some());
        next.map_or(Freed::Free, Freed::HandedOn)
    }

    pub(crate) fn withdraw(&self, who: u64) -> bool {
        let mut line = self.line.lock().unwrap();
        let found = line.iter().position(|&w| w == who);
        if let Some(at) = found {
            line.remove(at);
            self.settle(&line, true);
        }
        found.is_some()
    }

    fn settle(&self, line: &VecDeque<u64>, held: bool) {
        let state = if !held {
            FREE
        } else if line.is_empty() {
            HELD
        } else {
            QUEUED
        };
        self.state.store(state, SeqCst);
    }
}

/// A stand-in for the library's estimator.
pub(crate) struct Estimator {
    load: u64,
    hysteresis: u64,
    most: u64,
    /// At index n: how busy the cores were, in thousandths of a core, when the policy last asked for an n-th core.
    used: Vec<u64>,
}

impl Estimator {
    pub(crate) fn new(load: u64, hysteresis: u64, most: u64) -> Option<Estimator> {
        (most as usize <= NUMBERS).then(|| Estimator { load, hysteresis, most, used: vec![0; most as usize + 2] })
    }

    pub(crate) fn judge(&mut self, sample: Sample) -> Option<Advice> {
        if sample.scans == 0 || sample.elapsed == 0 || sample.cores == 0 || sample.cores > self.most {
            return None;
        }
        let use_now = sample.busy * 1000 / sample.elapsed;
        if sample.runnable * 1000 / sample.scans > self.load && sample.cores < self.most {
            self.used[sample.cores as usize + 1] = use_now;
            return Some(Advice::Add);
        }
        let wanted = self.used[sample.cores as usize].min((sample.cores - 1) * 1000);
        let falls = sample.cores > 1 && use_now + self.hysteresis < wanted.max((sample.cores - 1) * 800);
        Some(if falls { Advice::Remove } else { Advice::Stay })
    }
}
