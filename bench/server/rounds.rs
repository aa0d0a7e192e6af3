//! `rounds COUNT` prints how many nanoseconds so many rounds of a request's work take: the least of a thousand tries.

#[allow(dead_code)]
mod load;

use std::hint::black_box;
use std::time::Instant;

fn main() {
    let rounds = std::env::args().nth(1).unwrap().parse().unwrap();
    let time = |number: u64| {
        let begin = Instant::now();
        black_box(load::mix(black_box(rounds), black_box(number)));
        begin.elapsed().as_nanos()
    };
    println!("{}", (0..1000).map(time).min().unwrap());
}
