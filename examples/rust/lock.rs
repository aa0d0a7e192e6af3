//! Kernel threads take turns at one lock: `lock THREADS ROUNDS`.
//!
//! Each thread asks ROUNDS times, and waits until it has the lock. While it holds the lock, it increments a counter.
//! Every eighth time it doesn't wait but withdraws. Prints the number of turns, held or withdrawn. The status is 1 if
//! the counter isn't the number of turns that held the lock.
mod arachne_exec;

use arachne_exec::{LockTold, Locks};
use std::process::ExitCode;
use std::sync::atomic::{AtomicU64, Ordering::SeqCst};
use std::sync::{Arc, Condvar, Mutex};
use std::time::Duration;
use std::{env, hint, thread};

/// The number of times that a thread got the lock from the last holder and hasn't noticed it yet.
#[derive(Default)]
struct Turn {
    come: Mutex<u64>,
    told: Condvar,
}

impl Turn {
    fn comes(&self) {
        *self.come.lock().unwrap() += 1;
        self.told.notify_one();
    }

    fn wait(&self) {
        let mut come = self.come.lock().unwrap();
        while *come == 0 {
            come = self.told.wait(come).unwrap();
        }
        *come -= 1;
    }
}

struct Shared {
    counted: AtomicU64,
    turns: Vec<Turn>,
}

/// Waits after the failed try number `tries`: a short sleep after each 64th, else a moment.
///
/// A yield would give away a whole turn of the processor. More tries would keep it from the thread that has to go on.
fn stand_by(tries: u64) {
    if tries % 64 == 0 {
        thread::sleep(Duration::from_micros(50));
    } else {
        hint::spin_loop();
    }
}

fn until(mut call: impl FnMut() -> Option<LockTold>) -> Option<LockTold> {
    let mut tries = 0;
    loop {
        let answer = call();
        if answer != Some(LockTold::Contended) {
            return answer;
        }
        tries += 1;
        stand_by(tries);
    }
}

fn enter(locks: &mut Locks, who: u64, round: u64, shared: &Shared) -> Option<LockTold> {
    match until(|| locks.ask(0, who))? {
        LockTold::Queued(_) => {}
        answer => return Some(answer),
    }
    if round % 8 == 7 {
        if let left @ LockTold::Left(_) = until(|| locks.withdraw(0, who))? {
            return Some(left);
        }
    }
    shared.turns[who as usize].wait();
    until(|| locks.check(0, who))
}

/// Takes a thread's turns. Returns the seat, the number of turns that held the lock, and of those that withdrew.
fn take_turns(mut locks: Locks, who: u64, rounds: u64, shared: &Shared) -> Option<(Locks, u64, u64)> {
    let (mut held, mut left) = (0, 0);
    for round in 0..rounds {
        match enter(&mut locks, who, round, shared)? {
            LockTold::Left(_) => {
                left += 1;
                continue;
            }
            LockTold::Granted(_) => held += 1,
            _ => return None,
        }
        shared.counted.store(shared.counted.load(SeqCst) + 1, SeqCst);
        match until(|| locks.free(0, who))? {
            LockTold::Freed(_) => {}
            LockTold::HandedOn(_, next) => shared.turns[next as usize].comes(),
            _ => return None,
        }
    }
    Some((locks, held, left))
}

/// Returns the number of turns, or `None` if the counter isn't the number of turns that held the lock.
fn run(threads: u64, rounds: u64) -> Option<u64> {
    let turns = (0..threads).map(|_| Turn::default()).collect();
    let shared = Arc::new(Shared { counted: AtomicU64::new(0), turns });
    let mut locks = Locks::new(1)?;
    let mut running = Vec::new();
    for who in 0..threads {
        let (part, shared) = (locks.split()?, Arc::clone(&shared));
        running.push(thread::spawn(move || take_turns(part, who, rounds, &shared)));
    }
    let (mut held, mut left) = (0, 0);
    for part in running {
        let (part, part_held, part_left) = part.join().ok()??;
        locks.join(part).ok()?;
        held += part_held;
        left += part_left;
    }
    (shared.counted.load(SeqCst) == held).then_some(held + left)
}

fn main() -> ExitCode {
    let mut numbers = env::args().skip(1).map_while(|word| word.parse().ok());
    let (Some(threads @ 1..=64), Some(rounds), None) = (numbers.next(), numbers.next(), numbers.next()) else {
        return ExitCode::from(2);
    };
    let Some(turns) = run(threads, rounds) else {
        return ExitCode::from(1);
    };
    println!("turns {turns}");
    ExitCode::SUCCESS
}
