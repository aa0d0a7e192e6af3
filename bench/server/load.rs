//! What the peers of the server share: the list of requests, their work, the generator that sends each once it is due,
//! and the log of when they ended.

use std::fmt::Write;
use std::io::Read;
use std::sync::atomic::{AtomicU64, Ordering::SeqCst};
use std::sync::OnceLock;
use std::time::Instant;

/// A request that is to be sent.
#[derive(Clone, Copy)]
pub struct Due {
    /// Nanoseconds from the begin to the time at which it is sent.
    pub at: u64,
    /// How many rounds its work has.
    pub rounds: u32,
}

/// When each request has ended, in nanoseconds from the begin; 0 where it has not.
static ENDED: OnceLock<Vec<AtomicU64>> = OnceLock::new();
static BEGIN: OnceLock<Instant> = OnceLock::new();
static SUM: AtomicU64 = AtomicU64::new(0);

fn nanos() -> u64 {
    BEGIN.get().unwrap().elapsed().as_nanos() as u64
}

/// What so many rounds make of a number.
pub fn mix(rounds: u32, number: u64) -> u64 {
    let round = |value: u64| value.wrapping_mul(value.wrapping_add(value).wrapping_add(1)).wrapping_add(1442695040888963407);
    (0..rounds).fold(number, |value, _| round(value))
}

/// The work of a request, and what it leaves.
pub fn answer(number: usize, rounds: u32) {
    let value = mix(rounds, number as u64);
    let ended = nanos();
    SUM.fetch_add(value, SeqCst);
    ENDED.get().unwrap()[number].store(ended, SeqCst);
}

fn read() -> Vec<Due> {
    let mut text = String::new();
    std::io::stdin().read_to_string(&mut text).unwrap();
    let due = |line: &str| {
        let mut words = line.split(' ');
        let at = words.next().unwrap().parse().unwrap();
        Due { at, rounds: words.nth(1).unwrap().parse().unwrap() }
    };
    text.lines().map(due).collect()
}

/// Sends all requests of the list on standard input, each once it is due, waits for all, and prints when each was sent
/// and ended.
pub fn drive(mut spawn: impl FnMut(usize, Due)) {
    let list = read();
    ENDED.set(list.iter().map(|_| AtomicU64::new(0)).collect()).unwrap();
    BEGIN.set(Instant::now()).unwrap();
    let mut sent = Vec::with_capacity(list.len());
    for (number, due) in list.iter().enumerate() {
        let mut now = nanos();
        while now < due.at {
            std::hint::spin_loop();
            now = nanos();
        }
        sent.push(now);
        spawn(number, *due);
    }
    let ended = |number: usize| loop {
        match ENDED.get().unwrap()[number].load(SeqCst) {
            0 => std::thread::yield_now(),
            at => return at,
        }
    };
    let ends: Vec<u64> = (0..list.len()).map(ended).collect();
    report(&sent, &ends);
}

/// Prints the same log as the server.
fn report(sent: &[u64], ends: &[u64]) {
    let count = ends.len();
    let mut log = format!("{count} of {count} requests served; the sum of their answers is {}\n", SUM.load(SeqCst));
    for (number, (sent, end)) in sent.iter().zip(ends).enumerate() {
        writeln!(log, "request {number}: sent {sent}, ended {end}").unwrap();
    }
    print!("{log}");
}
