//! `taker SHARE FILE PROCESSOR..` takes processors as the host of a virtual machine does.
//!
//! On each PROCESSOR, a thread of the highest real-time priority computes for SHARE per cent of the time, for 5 to 20
//! ms each time. Every 50 ms, the program copies /proc/stat to FILE, with this time as stolen. Unlike with a real host,
//! the kernel moves other threads to other processors. The program ends when its standard input ends.
use std::sync::atomic::{AtomicU64, Ordering::Relaxed};
use std::time::{Duration, Instant};
use std::{fs, thread};

extern "C" {
    fn sched_setaffinity(thread: i32, len: usize, mask: *const u64) -> i32;
    fn sched_setscheduler(thread: i32, policy: i32, priority: *const i32) -> i32;
}

const PROCESSORS: usize = 64;
#[allow(clippy::declare_interior_mutable_const)]
const NONE: AtomicU64 = AtomicU64::new(0);
static TAKEN: [AtomicU64; PROCESSORS] = [NONE; PROCESSORS];
const SHORTEST: f64 = 0.005;
const LONGEST: f64 = 0.020;

fn random(state: &mut u64) -> f64 {
    *state ^= *state << 13;
    *state ^= *state >> 7;
    *state ^= *state << 17;
    ((*state >> 11) as f64 + 1.0) / (1u64 << 53) as f64
}

fn take(processor: usize, share: f64) {
    // SAFETY: the mask is one word, and the priority one number; both are read within the calls.
    let may = unsafe { sched_setaffinity(0, 8, &(1u64 << processor)) + sched_setscheduler(0, 1, &99) };
    assert_eq!(may, 0, "a real-time priority");
    let mut state = (std::process::id() as u64) << 8 | (processor as u64 + 1);
    loop {
        let mean = (SHORTEST + LONGEST) / 2.0 * (1.0 - share) / share;
        thread::sleep(Duration::from_secs_f64(-random(&mut state).ln() * mean));
        let (start, time) = (Instant::now(), SHORTEST + (LONGEST - SHORTEST) * random(&mut state));
        while start.elapsed().as_secs_f64() < time {
            std::hint::spin_loop();
        }
        TAKEN[processor].fetch_add(start.elapsed().as_nanos() as u64, Relaxed);
    }
}

/// Returns a line of /proc/stat in which the time that this program took is stolen time, and not a user's.
fn account(line: &str) -> String {
    let mut words = line.split_whitespace();
    let name = words.next().unwrap_or("");
    let processor = name.strip_prefix("cpu").and_then(|it| it.parse().ok()).filter(|&it: &usize| it < PROCESSORS);
    let processor = match processor {
        Some(processor) => processor,
        None => return line.into(),
    };
    let taken = TAKEN[processor].load(Relaxed) / 10_000_000;
    let mut times: Vec<u64> = words.map(|it| it.parse().unwrap()).collect();
    (times[0], times[7]) = (times[0].saturating_sub(taken), times[7] + taken);
    times.iter().fold(name.into(), |line, time| format!("{line} {time}"))
}

fn main() {
    let words: Vec<String> = std::env::args().skip(1).collect();
    let (share, file) = (words[0].parse::<f64>().unwrap() / 100.0, words[1].clone());
    for word in &words[2..] {
        let processor = word.parse().unwrap();
        thread::spawn(move || take(processor, share));
    }
    thread::spawn(move || loop {
        let lines: Vec<String> = fs::read_to_string("/proc/stat").unwrap().lines().map(account).collect();
        // The file changes in one step, like the kernel's.
        fs::write(format!("{file}.next"), lines.join("\n")).unwrap();
        fs::rename(format!("{file}.next"), &file).unwrap();
        thread::sleep(Duration::from_millis(50));
    });
    examples::wait_for_end();
    std::process::exit(0);
}
