//! What `table_bench` does, by the same steps on Rust's atomics: mark words, occupancy words on cache lines of their
//! own, place words, and slots.
use std::cell::UnsafeCell;
use std::sync::atomic::{AtomicU64, Ordering::SeqCst};
use std::time::Instant;

const ROUNDS: u64 = 20_000;
const PASSES: u32 = 400;
const SLOTS: usize = 56;
const READY: u64 = 1;
const BLOCKED: u64 = 2;
const HELD: u64 = 3;
const WOKEN: u64 = 4;

#[repr(align(64))]
struct Line(AtomicU64);

struct Table {
    marks: Vec<AtomicU64>,
    cores: Vec<Line>,
    names: Vec<AtomicU64>,
    slots: Vec<UnsafeCell<Option<u64>>>,
}

unsafe impl Sync for Table {}

fn place_of(core: usize, index: usize) -> u64 {
    ((core as u64) << 10) | ((index as u64) << 4)
}

impl Table {
    fn new(cores: usize) -> Table {
        let contexts = cores * SLOTS;
        Table {
            marks: (0..contexts).map(|x| AtomicU64::new(place_of(x / SLOTS, x % SLOTS))).collect(),
            cores: (0..cores).map(|_| Line(AtomicU64::new(0))).collect(),
            names: (0..contexts).map(|x| AtomicU64::new(x as u64)).collect(),
            slots: (0..contexts).map(|_| UnsafeCell::new(None)).collect(),
        }
    }

    fn claim(&self, core: usize) -> Option<usize> {
        let seen = self.cores[core].0.load(SeqCst);
        let index = (!seen).trailing_zeros() as usize;
        if seen >> 62 != 0 || index >= SLOTS {
            return None;
        }
        let new = seen + (1 << index) + (1 << 56);
        self.cores[core].0.compare_exchange(seen, new, SeqCst, SeqCst).ok()?;
        Some(index)
    }

    fn release(&self, core: usize, index: usize) {
        self.cores[core].0.fetch_sub((1 << index) + (1 << 56), SeqCst);
    }

    fn post(&self, core: usize, index: usize, value: u64) -> usize {
        let context = self.names[core * SLOTS + index].load(SeqCst) as usize;
        let generation = self.marks[context].load(SeqCst) >> 14;
        unsafe { *self.slots[context].get() = Some(value) };
        self.marks[context].store((generation << 14) | place_of(core, index) | READY, SeqCst);
        context
    }

    fn take(&self, core: usize, index: usize) -> Option<(usize, u64, u64)> {
        let name = &self.names[core * SLOTS + index];
        let context = name.load(SeqCst) as usize;
        let seen = self.marks[context].load(SeqCst);
        if seen & 0x3FFF != place_of(core, index) | READY {
            return None;
        }
        self.marks[context].compare_exchange(seen, seen - READY + HELD, SeqCst, SeqCst).ok()?;
        let value = unsafe { (*self.slots[context].get()).take() }?;
        name.store(context as u64, SeqCst);
        Some((context, seen >> 14, value))
    }

    fn finish(&self, core: usize, index: usize, context: usize, generation: u64) {
        self.marks[context].swap(((generation + 1) << 14) | place_of(core, index), SeqCst);
        self.release(core, index);
    }

    fn block(&self, core: usize, index: usize, generation: u64, value: u64) {
        let context = self.names[core * SLOTS + index].load(SeqCst) as usize;
        unsafe { *self.slots[context].get() = Some(value) };
        let held = (generation << 14) | place_of(core, index) | HELD;
        if self.marks[context].compare_exchange(held, held - HELD + BLOCKED, SeqCst, SeqCst).is_err() {
            self.marks[context].store(held - HELD + READY, SeqCst);
        }
    }

    fn wake(&self, context: usize, generation: u64) {
        let seen = self.marks[context].load(SeqCst);
        if seen >> 14 != generation {
            return;
        }
        let new = match seen & 7 {
            BLOCKED => seen - BLOCKED + READY,
            HELD => seen - HELD + WOKEN,
            _ => return,
        };
        let _ = self.marks[context].compare_exchange(seen, new, SeqCst, SeqCst);
    }

    fn move_one(&self, core: usize, index: usize, to: usize) -> bool {
        let from = &self.names[core * SLOTS + index];
        let moving = from.load(SeqCst) as usize;
        let seen = self.marks[moving].load(SeqCst);
        if seen & 0x3FF8 != place_of(core, index) || !matches!(seen & 7, READY | BLOCKED) {
            return false;
        }
        let Some(target) = self.claim(to) else { return false };
        let name = &self.names[to * SLOTS + target];
        let replaced = name.load(SeqCst);
        let free = self.marks[replaced as usize].load(SeqCst);
        let new = (seen & !0x3FF0) | place_of(to, target);
        if self.marks[moving].compare_exchange(seen, new, SeqCst, SeqCst).is_err() {
            self.release(to, target);
            return false;
        }
        let _ = name.compare_exchange(replaced, moving as u64, SeqCst, SeqCst);
        self.marks[replaced as usize].store((free & !0x3FF0) | place_of(core, index), SeqCst);
        from.store(replaced, SeqCst);
        self.release(core, index);
        true
    }
}

#[inline(never)]
fn rounds(table: &Table, core: usize) {
    for tag in 0..ROUNDS {
        let index = table.claim(core).unwrap();
        table.post(core, index, tag);
        let (context, generation, value) = table.take(core, 0).unwrap();
        assert_eq!(value, tag);
        table.finish(core, 0, context, generation);
    }
}

#[inline(never)]
fn wakes(table: &Table) {
    let index = table.claim(0).unwrap();
    let context = table.post(0, index, 0);
    for _ in 0..ROUNDS {
        let (_, generation, value) = table.take(0, 0).unwrap();
        table.block(0, 0, generation, value);
        table.wake(context, generation);
    }
}

#[inline(never)]
fn moves(table: &Table) {
    let index = table.claim(1).unwrap();
    table.post(1, index, 0);
    for _ in 0..ROUNDS {
        assert!(table.move_one(1, 0, 2) && table.move_one(2, 0, 1));
    }
}

fn time(run: impl FnOnce(), rounds: u64) -> u128 {
    let start = Instant::now();
    run();
    start.elapsed().as_nanos() / (rounds / 1000) as u128
}

fn main() {
    let mut least = [u128::MAX; 4];
    for _ in 0..PASSES {
        let table = Table::new(4);
        let one = time(|| rounds(&table, 0), ROUNDS);
        let wake = time(|| wakes(&table), ROUNDS);
        let moved = time(|| moves(&table), 2 * ROUNDS);
        let table = Table::new(4);
        let four = time(
            || {
                std::thread::scope(|scope| {
                    for core in 0..4 {
                        let table = &table;
                        scope.spawn(move || rounds(table, core));
                    }
                })
            },
            ROUNDS,
        );
        for (best, time) in least.iter_mut().zip([one, four, wake, moved]) {
            *best = (*best).min(time);
        }
    }
    println!("{}\t{}\t{}\t{}", least[0], least[1], least[2], least[3]);
}
