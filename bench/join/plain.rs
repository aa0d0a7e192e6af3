//! What `join_bench` does, by an `Option` under a lock: in an `Arc`, and in an `Arc` of a box.
use std::hint::black_box;
use std::sync::{Arc, Mutex};
use std::time::Instant;

const CELLS: u64 = 100_000;
const ROUNDS: usize = 100;

#[inline(never)]
fn leave(cell: Arc<Mutex<Option<u64>>>, value: u64) {
    *cell.lock().unwrap() = Some(value);
}

#[inline(never)]
fn leave_boxed(cell: Arc<Box<Mutex<Option<u64>>>>, value: u64) {
    *cell.lock().unwrap() = Some(value);
}

fn pass_all() -> u64 {
    let mut sum = 0;
    for value in 0..CELLS {
        let cell = black_box(Arc::new(Mutex::new(None)));
        leave(Arc::clone(&cell), value);
        let fetched = cell.lock().unwrap().take();
        sum += fetched.unwrap();
    }
    sum
}

fn pass_all_boxed() -> u64 {
    let mut sum = 0;
    for value in 0..CELLS {
        let cell = black_box(Arc::new(Box::new(Mutex::new(None))));
        leave_boxed(Arc::clone(&cell), value);
        let fetched = cell.lock().unwrap().take();
        sum += fetched.unwrap();
    }
    sum
}

fn best(pass: fn() -> u64) -> u128 {
    let time = |_| {
        let start = Instant::now();
        assert_eq!(pass(), CELLS * (CELLS - 1) / 2);
        start.elapsed().as_nanos()
    };
    (0..ROUNDS).map(time).min().unwrap()
}

fn main() {
    let picoseconds = |nanoseconds: u128| nanoseconds / (CELLS / 1000) as u128;
    println!("{}\t{}", picoseconds(best(pass_all)), picoseconds(best(pass_all_boxed)));
}
