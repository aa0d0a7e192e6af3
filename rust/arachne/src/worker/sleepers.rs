//! How workers sleep.
//!
//! One worker waits in the epoll, and each other sleeping worker waits on a condition variable of its own (its *bell*).
//! One sleeping worker, the *deputy*, also polls the epoll now and then, which is needed while the worker that should
//! wait there runs tasks or has no processor. The deputy polls each millisecond while tasks run, otherwise after 1, 2,
//! 4 .. ms.
//!
//! **Long polls.** While any worker is awake, the worker in the epoll and the deputy look at the others at least every
//! `LONG_REST` milliseconds. If one of the two finds a worker in the same poll twice, it takes that worker's queued and
//! ready tasks, and fires its timers. So a ready task that waits for a worker in a long poll begins within about 4 ms,
//! plus the machine's delays, unless all workers are in long polls. The first worker that runs a task after a sleep
//! wakes another worker, which then looks at the others again (`goes_on`).
//!
//! **One worker.** While only the first worker may run tasks, the second, on any processor, runs those that wait while
//! the first stays in one poll (`cover`). Each millisecond, or under an arbiter (a daemon) five times as often, the
//! second reads whether the first has ended another poll. If nothing runs for a while, it does so less often, until
//! `goes_on` is called.
//!
//! With the watcher thread of `Builder::watch_polls`, ready tasks also run if all workers are in long polls.

use super::{Turn, FEW, LONG_POLL, LOOK_OUT};
use crate::cores::Judge;
use crate::hand::FIRST;
use crate::reactor::Found;
use crate::shared::{add, Context, Shared, NO_ONE};
use crate::sync::atomic::{AtomicI32, Ordering::*};
use crate::timer::{self, now};

/// The number of times that an idle worker searches all other workers for work before it sleeps.
const SPINS: usize = 4;
/// While any worker is awake: the most milliseconds after which a sleeping worker next looks for long polls of others.
const LONG_REST: i32 = 2;
const FOR_EVER: i32 = 1 << 20;
/// While only the first worker may run tasks: the nanoseconds after which the second next reads whether the first is
/// still in the same poll of a task.
const COVER: u64 = 1_000_000;
/// Nanoseconds after which the second worker next reads whether the first stays in one poll, if an arbiter (a daemon)
/// grants the cores, or if the second has just run a task that waited for the first.
const COVER_SOON: u64 = 200_000;
/// The most nanoseconds between two reads, by the second worker, of whether the first (awake now) stays in one poll.
const COVER_LONG: u64 = 2_000_000;
/// The most nanoseconds between two reads, by the second worker, of whether the first (asleep now) has run a task.
const COVER_MOST: u64 = 3_600_000_000_000;

pub(crate) enum Ends {
    /// The wait for a processor has ended. The caller must find out whether the worker may use one now.
    Core,
    Call,
    Time,
}

impl Shared {
    /// Searches the other workers for tasks, and sleeps if there is none. Before it searches for the last time, this
    /// worker's bit in `sleepers` must be set, and `searching` (the number of workers that search) decreased. That
    /// search finds the tasks that are ready by then, and whoever makes another task ready later wakes this worker.
    pub(super) fn look_around(&'static self, context: &Context, turn: &mut Turn, judge: &Option<Judge>) {
        self.searching.0.fetch_add(1, SeqCst);
        if self.finds_work(context, turn) {
            return self.stop_looking(&context.hands);
        }
        // Set before the sleeper bit, and left after the bit is cleared, as `ring` reads `waits` while the bit is set.
        let waits = self.waits.0.compare_exchange(NO_ONE, context.me, SeqCst, SeqCst).is_ok();
        self.sleepers.0.fetch_or(1 << context.me, SeqCst);
        self.searching.0.fetch_sub(1, SeqCst);
        let busy = self.has_queued()
            || (0..self.workers.len()).any(|other| {
                let ready = self.ready(&context.hands, other) as usize;
                ready + self.workers[other].0.hand.waits() > 1
                    || ready == 1 && self.sleepers.0.load(SeqCst) >> other & 1 == 1
            })
            || !context.worker.hand.is_empty()
            || self.stop.load(SeqCst)
            || context.me >= self.active.0.load(SeqCst);
        let sleeps = !busy && self.may_park(context);
        let (found, called) = if sleeps { self.sleep(context, turn, judge, waits) } else { (Found::NOTHING, false) };
        // The idle bit must be cleared before the events wake tasks, which would otherwise wake this worker once more.
        self.wake_up(context);
        let roused = self.awake(context);
        if waits {
            self.waits.0.store(NO_ONE, SeqCst);
        }
        let heard = sleeps && self.hear(context, &found, self.room(context, turn)) != 0;
        turn.unsaid = sleeps && !roused && !heard && !called;
        if !turn.unsaid {
            self.goes_on();
        }
    }

    /// Searches its own slots and the other workers for tasks for a short while. Returns true if it may have found one.
    fn finds_work(&'static self, context: &Context, turn: &mut Turn) -> bool {
        turn.seen.iter_mut().zip(self.workers.iter()).for_each(|(seen, w)| *seen = w.0.polls.load(Relaxed));
        for spin in 0..SPINS {
            if self.stop.load(Relaxed) || context.me >= self.active.0.load(Relaxed) {
                return false;
            }
            let own = self.has_queued() || !context.worker.hand.is_empty() || self.mine(context);
            if own || self.steal(context, turn, spin + 1 == SPINS) {
                return true;
            }
            (0..8).for_each(|_| std::hint::spin_loop());
        }
        false
    }

    pub(super) fn mine(&self, context: &Context) -> bool {
        let me = context.me;
        self.ready(&context.hands, me) != 0 || self.lodgers(me).any(|other| self.ready(&context.hands, other) != 0)
    }

    fn may_park(&self, context: &Context) -> bool {
        std::iter::once(context.me).chain(self.lodgers(context.me)).all(|owner| {
            let parking = self.workers[owner].0.parking.lock().unwrap();
            parking.iter().all(|seat| seat.park())
        })
    }

    pub(super) fn tidy(&self, me: usize) {
        for seat in self.workers[me].0.parking.lock().unwrap().iter() {
            if seat.park() {
                seat.wake_up();
            }
        }
    }

    fn wake_up(&self, context: &Context) {
        for owner in std::iter::once(context.me).chain(self.lodgers(context.me)) {
            let parking = self.workers[owner].0.parking.lock().unwrap();
            // Checked under the lock: another worker may run the jobs of `owner` now, and sleep with these bits set.
            if self.keeper(owner) == context.me {
                parking.iter().for_each(|seat| seat.wake_up());
            }
        }
    }

    /// Sleeps in the epoll if `waits` is true, otherwise on this worker's condition variable. Returns the events found,
    /// and true if this worker must search for tasks again, because another one stays in one poll or has no processor.
    fn sleep(&self, context: &Context, turn: &mut Turn, judge: &Option<Judge>, waits: bool) -> (Found, bool) {
        if self.looks_before_sleep(context, turn) {
            return (Found::NOTHING, true);
        }
        add(&context.worker.parks, 1);
        let owners = std::iter::once(context.me).chain(self.lodgers(context.me));
        let mut timeout = timer::rest(self, owners);
        if let Some(judge) = judge {
            timeout = sooner(timeout, judge.millis(self));
        }
        if waits {
            return self.wait_in_epoll(context, turn, timeout);
        }
        if self.deputy.0.compare_exchange(NO_ONE, context.me, SeqCst, SeqCst).is_err() {
            context.worker.bell.wait(timeout);
            return (Found::NOTHING, false);
        }
        let found = self.stand_in(context, turn, timeout);
        self.deputy.0.store(NO_ONE, SeqCst);
        if self.is_unattended() {
            self.rouse_any();
        }
        found
    }

    /// Sleeps in the epoll until an event comes, `timeout` milliseconds have passed, or a worker that has tasks to run
    /// stays in one poll.
    fn wait_in_epoll(&self, context: &Context, turn: &mut Turn, timeout: i32) -> (Found, bool) {
        let most = self.asks(self.room(context, turn));
        if self.workers.len() == 1 {
            return (self.reactor.wait(timeout, most), false);
        }
        let mut left = timeout;
        loop {
            let rests = sooner(left, self.rests_of(context.me, turn, LONG_REST, FOR_EVER, &self.pauses));
            let found = self.reactor.wait(rests, most);
            if !found.is_empty() || left == rests {
                return (found, false);
            }
            left -= if left < 0 { 0 } else { rests };
            if self.look_after(context, turn).1 {
                return (Found::NOTHING, true);
            }
        }
    }

    /// Sleeps as the *deputy*, which polls the epoll now and then, for `timeout` milliseconds or until it is woken.
    /// Returns earlier if a worker that stays in one poll has tasks to run, or if there is such a worker and nobody
    /// waits in the epoll. Also returns if the epoll has events, because the worker that waits there has no processor
    /// then.
    fn stand_in(&self, context: &Context, turn: &mut Turn, timeout: i32) -> (Found, bool) {
        let bell = &context.worker.bell;
        let mut left = timeout;
        loop {
            let rests = sooner(left, self.rests_of(context.me, turn, 1, 2, &self.rests));
            if bell.wait(rests) {
                turn.rests = 1;
                return (Found::NOTHING, false);
            }
            if left == rests {
                return (Found::NOTHING, false);
            }
            left -= if left < 0 { 0 } else { rests };
            let (stands, waits) = self.look_after(context, turn);
            let stuck = self.waits.0.load(SeqCst) == NO_ONE;
            if !stuck && waits {
                return (Found::NOTHING, true);
            }
            if stuck && !stands && !waits {
                continue;
            }
            let found = self.reactor.look(self.asks(self.room(context, turn)));
            if stuck || !found.is_empty() {
                return (found, true);
            }
        }
    }

    fn looks_before_sleep(&self, context: &Context, turn: &mut Turn) -> bool {
        let now = context.looked.get();
        if self.workers.len() == 1 || now.saturating_sub(turn.looked) < LONG_POLL {
            return false;
        }
        turn.looked = now;
        std::mem::swap(&mut turn.seen, &mut turn.met);
        let (_, waits) = self.look_after(context, turn);
        std::mem::swap(&mut turn.seen, &mut turn.met);
        waits
    }

    /// Takes the tasks in the local queues of each worker that has ended no poll since this worker's last call, and
    /// fires its timers. Returns two values: true if there is such a worker, and true if there are tasks to run. If
    /// that worker's processor was asked back, takes only the tasks, as another worker fires its timers.
    fn look_after(&self, context: &Context, turn: &mut Turn) -> (bool, bool) {
        let (active, sleepers) = (self.active.0.load(SeqCst), self.sleepers.0.load(SeqCst));
        let (mut stands, mut waits) = (false, false);
        for other in 0..self.workers.len() {
            let polls = self.workers[other].0.polls.load(Relaxed);
            let gets_on = polls != std::mem::replace(&mut turn.seen[other], polls);
            let away = self.workers[other].0.away.load(SeqCst);
            if gets_on || away || other == context.me || sleepers >> other & 1 == 1 {
                continue;
            }
            waits |= self.take_out(context, turn, other, FIRST, true);
            if other >= active {
                // The worker's core was asked back, so another worker already looks after its timers and blocks.
                continue;
            }
            stands = true;
            for owner in std::iter::once(other).chain(self.lodgers(other)) {
                waits |= self.fire_quietly(context, owner) != 0 || self.ready(&context.hands, owner) != 0;
            }
        }
        (stands, waits)
    }

    /// The second worker waits for a processor by calls of `waits`, whose argument is the most nanoseconds to wait.
    /// Between these calls, it runs the tasks that wait while the first worker, the only one that may run tasks, stays
    /// in one poll.
    pub(crate) fn cover(&self, context: &Context, turn: &mut Turn, mut waits: impl FnMut(u64) -> Ends) {
        let mut rests = self.cover_often();
        loop {
            self.covers.0.store(rests, SeqCst);
            // Stored before the check: when the first worker wakes, it clears its sleeper bit, then reads this number.
            if rests > COVER_LONG && self.sleepers.0.load(SeqCst) & 1 == 0 {
                rests = COVER_LONG;
                self.covers.0.store(rests, SeqCst);
            }
            rests = match waits(rests) {
                Ends::Core => break,
                Ends::Call => self.cover_often(),
                Ends::Time => self.look_at_first(context, turn, rests),
            };
        }
        self.covers.0.store(0, SeqCst);
    }

    fn look_at_first(&self, context: &Context, turn: &mut Turn, rested: u64) -> u64 {
        let polls = self.workers[0].0.polls.load(Relaxed);
        if std::mem::replace(&mut turn.seen[0], polls) != polls {
            return self.cover_often();
        }
        // Without a core of its own the first worker runs on the processor that this worker would use.
        if self.arbiter.limit() != 0 && self.runs_what_waits(context, turn) {
            return COVER_SOON;
        }
        (2 * rested).clamp(COVER, COVER_MOST)
    }

    fn cover_often(&self) -> u64 {
        match self.arbiter.is_up() {
            true => COVER_SOON,
            false => COVER,
        }
    }

    fn call_cover(&self) {
        let gate = self.workers[1].0.given_back.0.lock().unwrap();
        self.covers.0.store(COVER, SeqCst);
        self.workers[1].0.given_back.1.notify_all();
        drop(gate);
        self.arbiter.call();
    }

    /// Runs the tasks of each worker that has ended no poll since the last call, and tasks that wait for events in the
    /// epoll, `LOOK_OUT` polls at most. Returns true if it ran one.
    fn runs_what_waits(&self, context: &Context, turn: &mut Turn) -> bool {
        // From now on other workers check this one too, since it has jobs.
        context.worker.away.store(false, SeqCst);
        turn.pace(context, now());
        let waits = self.look_after(context, turn).1;
        let found = if self.reactor.is_used() { self.reactor.look(FEW) } else { Found::NOTHING };
        self.hear(context, &found, FEW);
        let others = |turn: &mut Turn| (0..self.workers.len()).any(|other| self.help(context, turn, other, FEW));
        let mut ran = 0;
        while ran < LOOK_OUT {
            let job = match context.worker.hand.take(true) {
                Some(job) => job,
                None if waits && others(turn) => continue,
                None => break,
            };
            if ran == 0 {
                self.goes_on();
            }
            context.hands.begin(&job);
            self.run(context, turn, job);
            ran += 1;
        }
        self.lay_down(context, turn);
        context.worker.away.store(true, SeqCst);
        if self.next_timer(context.me) != u64::MAX {
            // The worker that fires this one's timers may be asleep.
            self.ring(self.keeper(context.me));
        }
        ran != 0
    }

    /// Returns the milliseconds after which a sleeping worker next looks for workers that stay in one poll, and stores
    /// this number in `told`. If a task has run since its last look, the number is `least`; otherwise it is `times` the
    /// number before. While any other worker is awake, it is at most `LONG_REST`.
    fn rests_of(&self, me: usize, turn: &mut Turn, least: i32, times: i32, told: &AtomicI32) -> i32 {
        let polls = self.workers.iter().map(|worker| worker.0.polls.load(Relaxed)).sum();
        let longer = turn.rests.saturating_mul(times).clamp(least, FOR_EVER);
        turn.rests = if polls != turn.watched { least } else { longer };
        turn.watched = polls;
        told.store(turn.rests, SeqCst);
        // Stored before the check: a worker that wakes clears its sleeper bit first, and then reads this number.
        if turn.rests > LONG_REST && self.is_anybody_awake(me) {
            turn.rests = LONG_REST;
            told.store(turn.rests, SeqCst);
        }
        turn.rests
    }

    fn is_anybody_awake(&self, me: usize) -> bool {
        let sleepers = self.sleepers.0.load(SeqCst) | 1 << me;
        self.workers.iter().enumerate().any(|(other, line)| sleepers >> other & 1 == 0 && !line.0.away.load(SeqCst))
    }

    /// Called by a worker that has just woken, since its next poll may be long. Makes sure that another worker then
    /// soon looks whether this one stays in that poll, and runs its waiting tasks: wakes one if all others sleep for
    /// longer.
    pub(crate) fn goes_on(&self) {
        if self.covers.0.load(SeqCst) > COVER_LONG {
            self.call_cover();
        }
        if self.sleepers.0.load(SeqCst) == 0 {
            return;
        }
        let (waits, deputy) = (self.waits.0.load(SeqCst), self.deputy.0.load(SeqCst));
        let looks = waits != NO_ONE && self.pauses.load(SeqCst) <= LONG_REST;
        if deputy != NO_ONE {
            if !looks && self.rests.load(SeqCst) > LONG_REST {
                self.rouse(deputy);
            }
        } else if waits == NO_ONE {
            self.rouse_any();
        } else if !looks {
            self.rouse(waits);
        }
    }
}

/// Returns the shorter of two timeouts in milliseconds; a negative `timeout` is infinite.
fn sooner(timeout: i32, other: i32) -> i32 {
    if timeout < 0 {
        other
    } else {
        timeout.min(other)
    }
}
