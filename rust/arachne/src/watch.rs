//! The watcher: a thread that reports slow polls of tasks. While a worker stays in one poll, the watcher polls the
//! epoll, fires that worker's timers, and wakes another worker to take its ready tasks. If all workers are in such
//! polls, the watcher itself runs ready tasks.

use crate::core::{Hands, Job, Rested, SHARD};
use crate::reactor::EVENTS;
use crate::shared::Shared;
use crate::sync::atomic::Ordering::*;
use crate::sync::thread;
use crate::task;
use crate::timer::now;
use crate::waker::{waker_of, NOBODY};
use std::time::Duration;

const TURN: u64 = 2_000_000;

struct Seen {
    polls: u64,
    name: u64,
    since: u64,
    told: bool,
}

pub(crate) fn run(shared: &'static Shared, hands: Hands, longer: Duration, log: bool) {
    let tick = (longer / 20).clamp(Duration::from_micros(500), Duration::from_millis(5));
    let longer = longer.as_nanos() as u64;
    let mut seen: Vec<Seen> =
        shared.workers.iter().map(|_| Seen { polls: 0, name: NOBODY, since: 0, told: false }).collect();
    // A bit mask of the workers in a long poll, whose ready tasks and timers the watcher takes over.
    let mut stuck = 0;
    while !shared.stop.load(SeqCst) {
        if stuck == 0 {
            thread::sleep(tick);
        }
        let now = now();
        stuck = 0;
        for (worker, seen) in seen.iter_mut().enumerate() {
            let age = age_of_poll(shared, worker, seen, now);
            // The watcher helps well before it reports the poll: after about three checks that found the worker in it.
            if age > longer / 12 {
                stuck |= 1 << worker;
            }
            if age > longer && !seen.told {
                seen.told = true;
                shared.counts.slow_polls.fetch_add(1, Relaxed);
                tell(shared, worker, age, log);
            }
        }
        if stuck != 0 {
            rescue(shared, &hands, stuck);
        }
    }
    shared.root.lock().unwrap().join(hands);
}

/// Returns for how many nanoseconds `worker` has been in its current poll of a task, as far as the watcher has seen it;
/// 0 if it polls no task.
fn age_of_poll(shared: &Shared, worker: usize, seen: &mut Seen, now: u64) -> u64 {
    let counts = &shared.workers[worker].0;
    let (polls, name) = (counts.polls.load(Relaxed), counts.running.load(Relaxed));
    if name == NOBODY || polls != seen.polls || name != seen.name {
        *seen = Seen { polls, name, since: now, told: false };
    }
    if name == NOBODY {
        0
    } else {
        now - seen.since
    }
}

fn tell(shared: &Shared, worker: usize, age: u64, log: bool) {
    if let (true, Some((_, about))) = (log, shared.running(worker)) {
        eprintln!("arachne: worker {worker} is in a poll for {} ms: {about}", age / 1_000_000);
    }
}

/// Fires timers, and runs tasks or wakes a worker for them, in place of the workers in `stuck` (a bit mask). Returns
/// once each of these has ended its poll, or after `TURN` nanoseconds.
fn rescue(shared: &'static Shared, hands: &Hands, stuck: u64) {
    let polls: Vec<u64> = shared.workers.iter().map(|w| w.0.polls.load(Relaxed)).collect();
    let all = u64::MAX >> (64 - shared.active.0.load(Relaxed));
    let (mut left, until) = (stuck, now() + TURN);
    for worker in (0..polls.len()).filter(|worker| stuck >> worker & 1 == 1) {
        shared.relieve(hands, worker);
    }
    while left != 0 && now() < until && !shared.stop.load(SeqCst) {
        let mut found = shared.reactor.tell(&shared.reactor.look(EVENTS));
        for (worker, before) in polls.iter().enumerate() {
            if left >> worker & 1 == 0 {
                continue;
            }
            let at = &shared.workers[worker].0;
            let owners = (0..polls.len()).filter(|&owner| shared.keeper(owner) == worker);
            found += owners.map(|owner| shared.fire(owner)).sum::<usize>();
            if at.polls.load(Relaxed) != *before || at.running.load(Relaxed) == NOBODY {
                left &= !(1 << worker);
            }
        }
        for worker in (0..polls.len()).filter(|&worker| left >> shared.keeper(worker) & 1 == 1) {
            if all & !left == 0 {
                found += run_some(shared, hands, worker);
            } else if shared.ready(hands, worker) != 0 {
                shared.rouse_any();
            }
        }
        if found == 0 {
            thread::sleep(Duration::from_micros(200));
        }
    }
}

fn run_some(shared: &'static Shared, hands: &Hands, worker: usize) -> usize {
    let mut ran = 0;
    for &shard in shared.workers[worker].0.used_shards() {
        let mut bits = hands.shown(shard);
        while bits != 0 {
            let block = shard * SHARD + bits.trailing_zeros() as usize;
            bits &= bits - 1;
            while let Some(job) = (ran < 64).then(|| hands.take_any(block)).flatten() {
                run_one(shared, hands, &job);
                ran += 1;
            }
        }
    }
    ran
}

fn run_one(shared: &'static Shared, hands: &Hands, job: &Job) {
    let waker = waker_of(shared.table, job.name);
    // SAFETY: this thread holds the job until it is put back or ended below.
    let about = unsafe { task::about(job.job) };
    shared.observer.begins(job, &about);
    shared.counts.rescued.fetch_add(1, Relaxed);
    // SAFETY: as above.
    let ended = crate::shared::entered(shared, || unsafe {
        task::run(job.job, shared.table, job.name, &mut std::task::Context::from_waker(&waker))
    });
    shared.observer.stops(job, ended);
    if ended {
        hands.finish(job);
        shared.counts.ended_elsewhere.fetch_add(1, SeqCst);
        shared.show_room(job.place() / crate::core::BLOCK);
        shared.clogged.store(false, SeqCst);
        return;
    }
    shared.names[job.place()].store(job.name, Relaxed);
    match hands.rest_blocked(job) {
        Rested::Blocked => {}
        Rested::Ready { unpark } => shared.published(job.name, unpark, false),
        Rested::InHand => {
            let unpark = hands.rest_ready(job);
            shared.published(job.name, unpark, false);
        }
    }
}
