//! The steps of `arachne_exec` by hand, on Rust's atomics.
use std::cell::UnsafeCell;
use std::sync::atomic::{AtomicU64, Ordering::SeqCst};

/// A word on a cache line of its own, with the next one, as processors fetch lines in pairs.
#[repr(align(128))]
struct Line(AtomicU64);

fn lines(count: usize, value: u64) -> Vec<Line> {
    (0..count).map(|_| Line(AtomicU64::new(value))).collect()
}

pub struct Hand {
    idle: Line,
    summary: Vec<Line>,
    ready: Vec<Line>,
    free: Vec<Line>,
    marks: Vec<AtomicU64>,
    slots: Vec<UnsafeCell<u64>>,
}

// A slot is read and written by who has cleared the bit of its place.
unsafe impl Sync for Hand {}

/// Where a thread's searches begin.
#[derive(Default)]
pub struct Seat {
    turn: usize,
    index: usize,
}

/// What a call answers of a job; the rounds need no more than its place.
#[derive(Clone, Copy)]
#[allow(dead_code)]
pub struct Job {
    pub place: usize,
    pub name: u64,
    pub job: u64,
}

pub enum Next {
    Run(Job),
    Park,
    Again,
}

fn first_from(word: u64, from: usize) -> usize {
    (from + word.rotate_right(from as u32).trailing_zeros() as usize) % 64
}

fn name(place: usize, mark: u64) -> u64 {
    place as u64 | (mark / 4) << 20
}

impl Hand {
    pub fn new(shards: usize) -> Hand {
        let blocks = 64 * shards;
        Hand {
            idle: Line(AtomicU64::new(0)),
            summary: lines(shards, 0),
            ready: lines(blocks, 0),
            free: lines(blocks, u64::MAX),
            marks: (0..64 * blocks).map(|_| AtomicU64::new(0)).collect(),
            slots: (0..64 * blocks).map(|_| UnsafeCell::new(0)).collect(),
        }
    }

    fn show(&self, block: usize) -> bool {
        let (word, bit, worker) = (&self.summary[block / 64].0, 1 << (block % 64), 1 << (block / 64 % 64));
        word.load(SeqCst) & bit == 0
            && word.fetch_or(bit, SeqCst) == 0
            && self.idle.0.load(SeqCst) & worker != 0
            && self.idle.0.fetch_and(!worker, SeqCst) & worker != 0
    }

    fn publish(&self, place: usize) -> bool {
        self.ready[place / 64].0.fetch_or(1 << (place % 64), SeqCst) == 0 && self.show(place / 64)
    }

    #[inline(never)]
    pub fn spawn(&self, block: usize, job: u64) -> Option<(u64, bool)> {
        let free = self.free[block].0.load(SeqCst);
        if free == 0 {
            return None;
        }
        let index = free.trailing_zeros();
        if self.free[block].0.fetch_and(!(1 << index), SeqCst) >> index & 1 == 0 {
            return None;
        }
        let place = 64 * block + index as usize;
        let mark = self.marks[place].load(SeqCst);
        unsafe { *self.slots[place].get() = job };
        Some((name(place, mark), self.publish(place)))
    }

    #[inline(never)]
    pub fn spawn_here(&self, block: usize, job: u64) -> Option<Job> {
        let free = self.free[block].0.load(SeqCst);
        if free == 0 {
            return None;
        }
        let index = free.trailing_zeros();
        if self.free[block].0.fetch_and(!(1 << index), SeqCst) >> index & 1 == 0 {
            return None;
        }
        let place = 64 * block + index as usize;
        unsafe { *self.slots[place].get() = job };
        let mark = self.marks[place].load(SeqCst);
        Some(Job { place, name: name(place, mark), job })
    }

    fn take_from(&self, block: usize, from: usize) -> Option<(Job, bool)> {
        let ready = self.ready[block].0.load(SeqCst);
        if ready == 0 {
            return None;
        }
        let index = first_from(ready, from);
        if self.ready[block].0.fetch_and(!(1 << index), SeqCst) >> index & 1 == 0 {
            return None;
        }
        let place = 64 * block + index;
        let mark = self.marks[place].load(SeqCst);
        if mark % 4 != 0 {
            self.marks[place].fetch_and(u64::MAX - 3, SeqCst);
        }
        let job = unsafe { *self.slots[place].get() };
        Some((Job { place, name: name(place, mark), job }, ready >> index > 1))
    }

    #[inline(never)]
    pub fn take(&self, seat: &mut Seat, block: usize) -> Option<Job> {
        let (job, _) = self.take_from(block, seat.index % 64)?;
        seat.index = job.place + 1;
        Some(job)
    }

    /// The places that were taken, of at most so many.
    #[inline(never)]
    pub fn take_many(&self, block: usize, most: u32) -> u64 {
        let ready = self.ready[block].0.load(SeqCst);
        if ready == 0 {
            return 0;
        }
        let mut left = ready;
        for _ in 0..most.min(64) {
            left &= left.wrapping_sub(1);
        }
        let pick = ready & !left;
        self.ready[block].0.fetch_and(!pick, SeqCst) & pick
    }

    #[inline(never)]
    pub fn start(&self, place: usize) -> Job {
        let mark = self.marks[place].load(SeqCst);
        if mark % 4 != 0 {
            self.marks[place].fetch_and(u64::MAX - 3, SeqCst);
        }
        Job { place, name: name(place, mark), job: unsafe { *self.slots[place].get() } }
    }

    fn take_in_shard(&self, seat: &mut Seat, shard: usize) -> Option<Job> {
        let first = if seat.turn / 4096 == shard { seat.turn / 64 % 64 } else { 0 };
        let shown = self.summary[shard].0.load(SeqCst);
        let mut left = shown.rotate_right(first as u32);
        while left != 0 {
            let index = (first + left.trailing_zeros() as usize) % 64;
            let block = 64 * shard + index;
            let from = if seat.turn / 64 == block { seat.turn % 64 } else { 0 };
            if let Some((job, more)) = self.take_from(block, from) {
                seat.turn = if more {
                    job.place + 1
                } else if shown >> index > 1 {
                    job.place - job.place % 64 + 64
                } else {
                    job.place - job.place % 4096 + 4096 * 64
                };
                return Some(job);
            }
            self.summary[shard].0.fetch_and(!(1 << index), SeqCst);
            if self.ready[block].0.load(SeqCst) != 0 {
                self.show(block);
            }
            left &= left - 1;
        }
        None
    }

    #[inline(never)]
    pub fn next(&self, seat: &mut Seat, worker: usize) -> Next {
        let count = (self.summary.len() + 63 - worker) / 64;
        let first = if seat.turn / 262_144 < count { seat.turn / 262_144 } else { 0 };
        for index in 0..count {
            let index = if first + index < count { first + index } else { first + index - count };
            if let Some(job) = self.take_in_shard(seat, worker + 64 * index) {
                return Next::Run(job);
            }
        }
        if self.may_park(worker) { Next::Park } else { Next::Again }
    }

    #[inline(never)]
    pub fn may_park(&self, worker: usize) -> bool {
        self.idle.0.fetch_or(1 << worker, SeqCst);
        for shard in (worker..self.summary.len()).step_by(64) {
            if self.summary[shard].0.load(SeqCst) != 0 {
                self.idle.0.fetch_and(!(1 << worker), SeqCst);
                return false;
            }
        }
        true
    }

    #[inline(never)]
    pub fn rest_ready(&self, place: usize) -> bool {
        self.publish(place)
    }

    #[inline(never)]
    pub fn rest_blocked(&self, place: usize) -> bool {
        let mark = self.marks[place].load(SeqCst);
        if mark % 4 == 0 && self.marks[place].compare_exchange(mark, mark + 2, SeqCst, SeqCst).is_ok() {
            return true;
        }
        self.publish(place);
        false
    }

    #[inline(never)]
    pub fn finish(&self, place: usize) {
        let mark = self.marks[place].load(SeqCst);
        unsafe { *self.slots[place].get() = 0 };
        self.marks[place].swap(4 * (mark / 4 + 1), SeqCst);
        self.free[place / 64].0.fetch_or(1 << (place % 64), SeqCst);
    }

    #[inline(never)]
    pub fn wake(&self, name: u64) -> bool {
        let place = name as usize % (1 << 20);
        let Some(word) = self.marks.get(place) else { return false };
        let mark = word.load(SeqCst);
        if mark / 4 != name >> 20 || mark % 2 == 1 {
            return false;
        }
        if mark % 4 == 2 {
            return word.compare_exchange(mark, mark - 2, SeqCst, SeqCst).is_ok() && self.publish(place);
        }
        word.compare_exchange(mark, mark + 1, SeqCst, SeqCst).is_ok()
    }
}
