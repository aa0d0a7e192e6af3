//! Judges the samples on its input, one a line, by the proved policy, and prints the advice on each.
//!
//! `arachne policy` prints the same, but no advice at all if a sample is bad.
mod arachne_exec;

use arachne_exec::{Advice, Estimator, Sample};
use std::io;
use std::process::ExitCode;

fn sample(line: &str) -> Option<Sample> {
    let numbers: Vec<u64> = line.split(' ').map_while(|word| word.parse().ok()).collect();
    match numbers[..] {
        [cores, runnable, scans, busy, elapsed] => Some(Sample { cores, runnable, scans, busy, elapsed }),
        _ => None,
    }
}

fn main() -> ExitCode {
    let Some(mut estimator) = Estimator::new(1500, 90, 16) else {
        return ExitCode::from(1);
    };
    for (index, line) in io::stdin().lines().map_while(Result::ok).enumerate() {
        let Some(advice) = sample(&line).and_then(|sample| estimator.judge(sample)) else {
            eprintln!("fault 12 line {}", index + 1);
            return ExitCode::from(1);
        };
        println!("{}", match advice {
            Advice::Stay => "stay",
            Advice::Add => "add",
            Advice::Remove => "remove",
        });
    }
    ExitCode::SUCCESS
}
