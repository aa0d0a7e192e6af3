//! `batch CORES [SOCKET PRIORITY]` is a batch program, which computes as long as it has processors.
//!
//! SOCKET is that of the arbiter (the daemon that grants cores), PRIORITY the program's. Every 10 ms, the program
//! prints the time in milliseconds, how many units of work (of some 20 us each) it has done, and on how many cores it
//! runs. The program ends when its standard input ends.
use std::sync::atomic::{AtomicU64, Ordering::Relaxed};
use std::thread;
use std::time::{Duration, SystemTime};

static DONE: AtomicU64 = AtomicU64::new(0);

fn work(nth: usize) {
    let mut x = nth as u64 + 1;
    for _ in 0..10_000 {
        x ^= x << 13;
        x ^= x >> 7;
        x ^= x << 17;
    }
    std::hint::black_box(x);
    DONE.fetch_add(1, Relaxed);
}

fn runtime(count: usize, arbiter: Option<&[String]>) -> arachne::Runtime {
    let builder = arachne::Builder::new(count).policy(arachne::Policy::default());
    let builder = match arbiter {
        Some(words) => builder.arbiter(&words[0], words[1].parse().expect("a priority"), 0),
        None => builder,
    };
    let runtime = builder.build().expect("a runtime");
    for nth in 0..8 * count {
        runtime.spawn(async move {
            loop {
                work(nth);
                arachne::yield_now().await;
            }
        });
    }
    runtime
}

fn main() {
    let words: Vec<String> = std::env::args().skip(1).collect();
    let count = words[0].parse().expect("batch CORES [SOCKET PRIORITY]");
    let runtime = runtime(count, words.get(1..3));
    thread::spawn(move || loop {
        let now = SystemTime::now().duration_since(SystemTime::UNIX_EPOCH).unwrap().as_micros() as f64 / 1e3;
        println!("{now:.1} {} {}", DONE.load(Relaxed), runtime.stats().active);
        thread::sleep(Duration::from_millis(10));
    });
    examples::wait_for_end();
    std::process::exit(0);
}
