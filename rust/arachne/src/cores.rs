//! The number of workers that may run tasks: the limit of the machine, and the policy by which it follows the load.
//!
//! The load is the average number of ready tasks that a worker counts whenever it checks for events. At regular
//! intervals the policy decides how many workers may run tasks (are *active*). Active workers also run the tasks and
//! fire the timers of those that may not. If only the first worker is active, the second runs ready tasks whenever the
//! first stays in one poll (`worker/sleepers.rs`). Each second, the policy also reads how many processors the process
//! may use.

use crate::core::Estimator;
use crate::shared::{Context, Shared, Worker};
use crate::sync::atomic::Ordering::*;
use crate::sys;
use crate::timer::now;
use crate::worker::{Ends, Turn};
use std::fs;
use std::os::unix::fs::FileExt;
use std::time::Duration;

#[derive(Clone, Copy, Default, Debug)]
pub(crate) struct Sample {
    pub(crate) cores: u64,
    pub(crate) runnable: u64,
    pub(crate) scans: u64,
    pub(crate) busy: u64,
    pub(crate) elapsed: u64,
}

#[derive(Clone, Copy, PartialEq, Eq, Debug)]
pub(crate) enum Advice {
    Stay,
    Add,
    Remove,
}

/// The settings of the policy by which the number of active workers follows the load; see `Builder::policy`.
///
/// ```
/// use std::time::Duration;
/// // Asks for a core if a worker has more than two ready tasks on average; decides each 20 ms; keeps two cores.
/// let policy = arachne::Policy { load: 2000, every: Duration::from_millis(20), min_cores: 2, ..Default::default() };
/// let runtime = arachne::Builder::new(4).policy(policy).build().unwrap();
/// assert!(runtime.stats().active >= 2);
/// ```
#[derive(Clone, Copy, Debug)]
pub struct Policy {
    /// The policy asks for another core if a worker has more ready tasks than this on average; 1000 is one task.
    pub load: u64,
    /// The policy gives a core back if the busy time of all cores, in thousandths of one core, is now less by at least
    /// this number than when the policy asked for that core.
    pub hysteresis: u64,
    /// The time between two decisions of the policy.
    pub every: Duration,
    /// The least number of cores. With this many, the policy gives none back, however small the load.
    pub min_cores: usize,
}

impl Default for Policy {
    fn default() -> Policy {
        Policy { load: 1500, hysteresis: 90, every: Duration::from_millis(10), min_cores: 1 }
    }
}

/// Returns the number of processors that this process may use, rounded up.
///
/// ```
/// let runtime = arachne::Runtime::new(arachne::available_cores());
/// assert!(runtime.stats().workers.len() >= 1);
/// ```
#[must_use]
pub fn available_cores() -> usize {
    if cfg!(feature = "explore") {
        // Under the explorer (a test) one thread runs at a time, as if there were many processors.
        return 64;
    }
    let mask = sys::affinity().len().max(1);
    mask.min(quota().map_or(mask, whole)).max(1)
}

fn whole(thousandths: usize) -> usize {
    (thousandths + 999) / 1000
}

/// Returns the least processor quota, in thousandths of a processor, of this process's control group or those above it.
fn quota() -> Option<usize> {
    let groups = fs::read_to_string("/proc/self/cgroup").ok()?;
    let mut least = None;
    for line in groups.lines() {
        let mut words = line.splitn(3, ':').skip(1);
        let (controllers, path) = (words.next()?, words.next()?);
        let top = match controllers {
            "" => "/sys/fs/cgroup".to_string(),
            _ if controllers.split(',').any(|it| it == "cpu") => format!("/sys/fs/cgroup/{controllers}"),
            _ => continue,
        };
        let mut path = format!("{top}{}", path.trim_end_matches('/'));
        while path.starts_with(&top) {
            if let Some(here) = quota_of(&path) {
                least = Some(least.map_or(here, |least: usize| least.min(here)));
            }
            path.truncate(path.rfind('/').unwrap_or(0));
        }
    }
    least
}

fn quota_of(group: &str) -> Option<usize> {
    let read = |file: &str| fs::read_to_string(format!("{group}/{file}"));
    let text = read("cpu.max").or_else(|_| Ok(read("cpu.cfs_quota_us")? + &read("cpu.cfs_period_us")?));
    let text = text.map_err(|_: std::io::Error| ()).ok()?;
    let mut words = text.split_whitespace().map(|word| word.parse::<usize>().ok());
    Some(words.next()?? * 1000 / words.next()??.max(1))
}

/// After the policy has asked for a core, its next decisions (this many) follow at a quarter of the usual interval.
const SOON: u32 = 4;

/// The least and the most nanoseconds between two decisions of the policy while an arbiter (a daemon) grants the cores.
const WITH_ARBITER: (u64, u64) = (2_000_000, 5_000_000);
/// While an arbiter (a daemon) grants the cores: the policy gives none back for this many nanoseconds after a request.
const CALM: u64 = 50_000_000;

/// The policy's settings and state. The first worker uses it to decide how many workers may run.
pub(crate) struct Judge {
    estimator: Estimator,
    policy: Policy,
    last: Vec<Totals>,
    at: u64,
    looked: u64,
    most: usize,
    soon: u32,
    added: u64,
    begins: bool,
}

#[derive(Clone, Copy, Default)]
struct Totals {
    runnable: u64,
    scans: u64,
    idle: u64,
    waited: u64,
}

impl Judge {
    pub(crate) fn new(policy: Policy, shared: &Shared) -> Option<Judge> {
        let most = shared.workers.len();
        let estimator = Estimator::new(policy.load, policy.hysteresis, most as u64)?;
        Some(Judge {
            estimator,
            policy,
            last: totals(shared, most, now()),
            at: now(),
            looked: 0,
            most,
            soon: 0,
            added: 0,
            begins: false,
        })
    }

    /// Returns the milliseconds until the policy's next decision, from 1 to 20. The first worker sleeps no longer than
    /// that.
    pub(crate) fn millis(&self, shared: &Shared) -> i32 {
        ((self.every(1, shared.arbiter.is_up()) / 1_000_000) as i32).clamp(1, 20)
    }

    fn every(&self, times: u32, up: bool) -> u64 {
        let (least, most) = if up { WITH_ARBITER } else { (0, u64::MAX) };
        ((self.policy.every.as_nanos() as u64).min(most) / times as u64).max(least)
    }

    /// Returns true if many tasks were ready in this interval (`sample`) and yet cores were idle, so that the load
    /// began in the middle of it. The policy ignores such a sample. Otherwise it would remember that the cores were
    /// little busy when it asked for one more, and would keep that core for too long.
    fn is_begin(&self, sample: Sample) -> bool {
        let wants = sample.runnable * 1000 > self.policy.load * sample.scans;
        wants && sample.busy * 10 < sample.elapsed * sample.cores * 9
    }

    pub(crate) fn judge(&mut self, shared: &'static Shared) {
        let now = now();
        let elapsed = now - self.at;
        let up = shared.arbiter.is_up();
        if elapsed < self.every(if self.soon != 0 { SOON } else { 1 }, up) {
            return;
        }
        if now - self.looked > 1_000_000_000 {
            self.looked = now;
            let all = shared.workers.len();
            // An arbiter keeps this thread on one processor, so its affinity doesn't show how many there are.
            let most = if up { quota().map_or(all, whole) } else { available_cores() };
            self.most = most.clamp(1, all);
        }
        let active = shared.active.0.load(Relaxed);
        shared.counts.core_time.fetch_add(elapsed * active as u64, Relaxed);
        // Counts only workers that were active for the whole sample: an arbiter may grant a core in the middle of one.
        let sample = sample(&self.last, &totals(shared, active.min(self.last.len()), now), elapsed);
        self.begins = !self.begins && self.is_begin(sample);
        if self.begins {
            (self.last, self.at, self.soon) = (totals(shared, active, now), now, self.soon.max(1));
            return;
        }
        let (adds, removes) = (&shared.counts.adds, &shared.counts.removes);
        let advice = self.estimator.judge(sample);
        self.soon = match advice {
            Some(Advice::Add) => SOON,
            Some(Advice::Remove) => 0,
            _ => self.soon.saturating_sub(1),
        };
        let calm = !up || now - self.added > CALM;
        if active > self.most || advice == Some(Advice::Remove) && active > self.policy.min_cores && calm {
            removes.fetch_add(shared.want(active - 1) as u64, Relaxed);
        } else if advice == Some(Advice::Add) && active < self.most {
            self.added = now;
            adds.fetch_add(shared.want(active + 1) as u64, Relaxed);
        } else if up && calm {
            shared.want(active.max(self.policy.min_cores).min(self.most));
        }
        self.last = totals(shared, shared.active.0.load(Relaxed), now);
        self.at = now;
    }
}

fn totals(shared: &Shared, active: usize, now: u64) -> Vec<Totals> {
    let of = |worker: &Worker| Totals {
        runnable: worker.runnable.load(Relaxed),
        scans: worker.scans.load(Relaxed),
        idle: worker.idle_time(now),
        waited: waited(&worker.account),
    };
    shared.workers[..active].iter().map(|line| of(&line.0)).collect()
}

/// Returns for how many nanoseconds in all a worker's thread was ready to run but waited for a processor.
fn waited(account: &crate::sync::Mutex<Option<fs::File>>) -> u64 {
    let mut text = [0; 64];
    let len = account.lock().unwrap().as_ref().and_then(|file| file.read_at(&mut text, 0).ok()).unwrap_or(0);
    let text = std::str::from_utf8(&text[..len]).unwrap_or("");
    text.split_whitespace().nth(1).and_then(|word| word.parse().ok()).unwrap_or(0)
}

/// Returns how much work waited for these workers, and for how long they were busy, since the totals `last`. A worker
/// counts its ready tasks only while it is busy. A wait for a processor counts neither as busy nor as load.
fn sample(last: &[Totals], totals: &[Totals], elapsed: u64) -> Sample {
    let cores = totals.len() as u64;
    let mut sample = Sample { cores, runnable: 0, scans: (elapsed * cores).max(1), busy: 0, elapsed };
    for (last, total) in last.iter().zip(totals) {
        let waited = total.waited.saturating_sub(last.waited).min(elapsed);
        let idle = total.idle.saturating_sub(last.idle).min(elapsed - waited);
        let (busy, scans) = (elapsed - waited - idle, total.scans.saturating_sub(last.scans).max(1));
        let runnable = total.runnable.saturating_sub(last.runnable).max(scans);
        sample.busy += busy;
        sample.runnable += (busy as u128 * runnable as u128 / scans as u128) as u64;
    }
    sample
}

impl Shared {
    /// Called when this worker's core is given back: offers the tasks in its local queues to the other workers, then
    /// blocks until this worker gets a core again.
    pub(crate) fn give_back(&self, context: &Context, turn: &mut Turn) {
        self.lay_down(context, turn);
        let worker = context.worker;
        let (gate, waits) = &worker.given_back;
        worker.away.store(true, SeqCst);
        // This comes after all jobs were made ready: the worker that serves this one from now on may be about to sleep,
        // and must check this one's task slots and timers first.
        self.ring(self.keeper(context.me));
        if self.arbiter.is_up() {
            self.wait_for_core(context, turn);
        } else {
            let ends = |given_back: &bool| !*given_back || self.stop.load(SeqCst) || self.arbiter.is_up();
            if context.me == 1 {
                self.cover(context, turn, |rests| {
                    let held = gate.lock().unwrap();
                    let called = || self.covers.0.load(SeqCst) != rests;
                    let (held, _) = waits
                        .wait_timeout_while(held, Duration::from_nanos(rests), |it| !ends(it) && !called())
                        .unwrap();
                    match ends(&held) {
                        true => Ends::Core,
                        false if called() => Ends::Call,
                        false => Ends::Time,
                    }
                });
            } else {
                drop(waits.wait_while(gate.lock().unwrap(), |it| !ends(it)).unwrap());
            }
        }
        worker.away.store(false, SeqCst);
        self.goes_on();
    }

    /// Lets the `active` workers with the lowest numbers run, and no others.
    pub(crate) fn set_active(&self, active: usize) {
        // Each flag is set under its worker's lock, so that a worker that is about to wait sees the change.
        for (number, line) in self.workers.iter().enumerate() {
            *line.0.given_back.0.lock().unwrap() = number >= active;
        }
        self.active.0.store(active, SeqCst);
        for (number, worker) in self.workers.iter().enumerate() {
            worker.0.given_back.1.notify_all();
            self.ring(number);
        }
    }
}
