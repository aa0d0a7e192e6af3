//! Adds the numbers up to COUNT to two ledgers on several threads, and prints both totals: `ledger THREADS COUNT`.
//!
//! Thread k adds k+1, k+1+THREADS and so on: each number to ledger 0, and 1 to ledger 1.
mod arachne_exec;

use arachne_exec::Adder;
use std::process::ExitCode;
use std::{env, thread};

fn add_all(mut adder: Adder, numbers: impl Iterator<Item = u64>) -> Option<Adder> {
    for number in numbers {
        if !adder.add(0, number) || !adder.add(1, 1) {
            return None;
        }
    }
    Some(adder)
}

fn run(threads: usize, count: u64) -> Option<[u64; 2]> {
    let mut adder = Adder::new(2)?;
    let mut running = Vec::new();
    for first in 1..=threads as u64 {
        let part = adder.split()?;
        running.push(thread::spawn(move || add_all(part, (first..=count).step_by(threads))));
    }
    for part in running {
        adder.join(part.join().ok()??).ok()?;
    }
    Some([adder.total(0)?, adder.total(1)?])
}

fn main() -> ExitCode {
    let mut numbers = env::args().skip(1).map_while(|word| word.parse().ok());
    let (Some(threads @ 1..=64), Some(count), None) = (numbers.next(), numbers.next(), numbers.next()) else {
        return ExitCode::from(2);
    };
    let Some(totals) = run(threads as usize, count) else {
        return ExitCode::from(1);
    };
    for (ledger, total) in totals.into_iter().enumerate() {
        println!("ledger {ledger} {total}");
    }
    ExitCode::SUCCESS
}
