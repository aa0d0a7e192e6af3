//! What `ledger_bench` does, by plain atomic adds.
use std::sync::atomic::{AtomicU64, Ordering::SeqCst};
use std::time::Instant;

const ADDS: u64 = 20_000_000;
const ROUNDS: usize = 5;

#[repr(align(128))]
struct Word(AtomicU64);

#[inline(never)]
fn add_ones(words: &[Word], word: usize) {
    for _ in 0..ADDS {
        words[word].0.fetch_add(1, SeqCst);
    }
}

fn time(threads: usize, apart: bool) -> u128 {
    let words: Vec<Word> = (0..threads).map(|_| Word(AtomicU64::new(0))).collect();
    let start = Instant::now();
    if threads == 1 {
        add_ones(&words, 0);
    } else {
        std::thread::scope(|scope| {
            for thread in 0..threads {
                let words = &words;
                scope.spawn(move || add_ones(words, if apart { thread } else { 0 }));
            }
        });
    }
    start.elapsed().as_nanos()
}

fn main() {
    let cores = std::thread::available_parallelism().map_or(1, |n| n.get());
    for (threads, apart) in [(1, true), (cores, true), (cores, false)] {
        let least = (0..ROUNDS).map(|_| time(threads, apart)).min().unwrap();
        println!("{}", least / (ADDS as u128 / 1000));
    }
}
