//! Runs jobs on kernel threads, each a worker of one executor: `exec THREADS JOBS`.
//!
//! The jobs have the numbers 1 to JOBS, an even number. An odd job waits until the next job has released it. Prints the
//! number of jobs that ended, and the sum of their numbers.
mod arachne_exec;

use arachne_exec::{Exec, Next, Spawned, Woken};
use std::process::ExitCode;
use std::sync::Arc;
use std::sync::atomic::{AtomicBool, AtomicU64, Ordering::SeqCst};
use std::sync::{Condvar, Mutex};
use std::time::Duration;
use std::{env, hint, thread};

/// A worker sleeps here. An unpark before the sleep isn't lost.
#[derive(Default)]
struct Sleeper {
    unparked: Mutex<bool>,
    told: Condvar,
}

impl Sleeper {
    fn unpark(&self) {
        *self.unparked.lock().unwrap() = true;
        self.told.notify_one();
    }

    fn sleep(&self) {
        let mut unparked = self.unparked.lock().unwrap();
        while !*unparked {
            unparked = self.told.wait(unparked).unwrap();
        }
        *unparked = false;
    }
}

#[derive(Default)]
struct Future {
    name: AtomicU64,
    is_released: AtomicBool,
}

struct Host {
    futures: Vec<Future>,
    sleepers: Vec<Sleeper>,
    ended: AtomicU64,
    jobs: u64,
}

impl Host {
    fn unpark(&self, worker: Option<u32>) {
        if let Some(worker) = worker {
            self.sleepers[worker as usize].unpark();
        }
    }

    fn wake(&self, exec: &mut Exec, name: u64) {
        let mut tries = 0;
        loop {
            match exec.wake(name) {
                Woken::Lost => {
                    tries += 1;
                    stand_by(tries);
                }
                Woken::Ready { unpark } => return self.unpark(unpark),
                Woken::Marked | Woken::AlreadyMarked | Woken::Gone => return,
            }
        }
    }

    /// Runs the job `job`, which `exec` holds. Returns true if the job has ended.
    ///
    /// An even job releases the job before it, and an odd one waits until it is released.
    fn poll(&self, exec: &mut Exec, job: usize) -> Option<bool> {
        if job % 2 == 1 && !self.futures[job].is_released.load(SeqCst) {
            self.unpark(exec.rest_blocked()?);
            return Some(false);
        }
        if job % 2 == 0 {
            let released = &self.futures[job - 1];
            released.is_released.store(true, SeqCst);
            self.wake(exec, released.name.load(SeqCst));
        }
        exec.finish().then_some(true)
    }

    /// Runs jobs until all have ended. Returns the seat, and the sum of the numbers of the jobs that ended here.
    fn work(&self, mut exec: Exec, worker: u32) -> Option<(Exec, u64)> {
        let (mut sum, mut tries) = (0, 0);
        if !exec.register(worker) {
            return None;
        }
        while self.ended.load(SeqCst) < self.jobs {
            match exec.next()? {
                Next::Run(job) if self.poll(&mut exec, job.number as usize)? => {
                    sum += job.number;
                    self.ended.fetch_add(1, SeqCst);
                }
                Next::Run(_) => {}
                Next::Park => self.sleepers[worker as usize].sleep(),
                Next::Again => {
                    tries += 1;
                    stand_by(tries);
                }
            }
        }
        self.sleepers.iter().for_each(Sleeper::unpark);
        exec.leave().then_some((exec, sum))
    }

    /// Spawns all jobs. The workers' blocks get them in turn. Tries again while a block has no free slot.
    fn spawn_all(&self, exec: &mut Exec) -> Option<()> {
        let threads = self.sleepers.len();
        for job in 1..=self.jobs {
            let block = 64 * (job as usize % threads) + job as usize / threads % 64;
            let mut tries = 0;
            loop {
                if let Spawned::Ready { name, unpark } = exec.spawn(block, job)? {
                    self.futures[job as usize].name.store(name, SeqCst);
                    self.unpark(unpark);
                    break;
                }
                tries += 1;
                stand_by(tries);
            }
        }
        Some(())
    }
}

fn stand_by(tries: u64) {
    if tries % 64 == 0 {
        thread::sleep(Duration::from_micros(50));
    } else {
        hint::spin_loop();
    }
}

/// Takes both jobs of block 1 at once, and makes each ready again, the one in the lower slot first.
fn takes_both(exec: &mut Exec) -> bool {
    let is_next = |exec: &mut Exec, number| {
        exec.start().is_some_and(|job| job.number == number) && exec.rest_ready().is_some()
    };
    exec.take_many(1, 64) == 3 && is_next(exec, 8) && is_next(exec, 9) && exec.start().is_none()
}

/// Spawns three more jobs, of which one waits and two stay ready, and checks that `end` returns all three.
fn hands_back(mut exec: Exec) -> Option<()> {
    exec.spawn_here(0, 7)?;
    exec.rest_blocked()?;
    exec.spawn(1, 8)?;
    exec.spawn(1, 9)?;
    let seen = exec.shown(0) >> 1 & 1 == 1 && exec.ready(1) == 3 && takes_both(&mut exec);
    let mut left = exec.end().ok()?;
    left.sort();
    (seen && left == [7, 8, 9]).then_some(())
}

fn run(threads: usize, jobs: u64) -> Option<(u64, u64)> {
    let futures = (0..=jobs).map(|_| Future::default()).collect();
    let sleepers = (0..threads).map(|_| Sleeper::default()).collect();
    let host = Arc::new(Host { futures, sleepers, ended: AtomicU64::new(0), jobs });
    let mut exec = Exec::new(threads)?;
    let mut running = Vec::new();
    for worker in 0..threads as u32 {
        let (part, host) = (exec.split()?, Arc::clone(&host));
        running.push(thread::spawn(move || host.work(part, worker)));
    }
    host.spawn_all(&mut exec)?;
    let mut sum = 0;
    for part in running {
        let (part, part_sum) = part.join().ok()??;
        exec.join(part).ok()?;
        sum += part_sum;
    }
    hands_back(exec)?;
    Some((host.ended.load(SeqCst), sum))
}

fn main() -> ExitCode {
    let mut numbers = env::args().skip(1).map_while(|word| word.parse::<u64>().ok());
    let (Some(threads @ 1..=16), Some(jobs), None) = (numbers.next(), numbers.next(), numbers.next()) else {
        return ExitCode::from(2);
    };
    let Some((ended, sum)) = run(threads as usize, jobs / 2 * 2) else {
        return ExitCode::from(1);
    };
    println!("ended {ended}\nsum {sum}");
    ExitCode::SUCCESS
}
