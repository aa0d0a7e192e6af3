//! A worker's loop: it runs ready tasks, checks the epoll and its timers, steals tasks from other workers, and sleeps.
//!
//! The proved core, which calls a task a *job*, lets only one worker at a time have a task, and decides whether a
//! worker may sleep. This module decides where a worker searches for tasks, and which sleeping worker to wake.
//!
//! **Next.** A task that the running task spawns or wakes runs next on the same worker. Up to `NEXTS` tasks run in a
//! row in this way (a *chain*). If another task is spawned or woken before the next task has run, that one runs next,
//! and the task that was to run next is made ready in its task slot, for any worker. A task that yields goes to the end
//! of the worker's own queue (its *line*), as does a task that would make the chain too long. The next task, the line
//! and a short queue of stolen tasks are together the worker's *local queues*.
//!
//! **Order.** After a chain the worker *sweeps* its task slots, in blocks of 64, and runs each task once that was ready
//! when the sweep of its block began. After all blocks (a *round*), the worker runs the tasks of its line. So a task
//! that is ready again and again makes no other task wait for more than a round.
//!
//! **Checks.** After `LOOK_OUT` polls of tasks, or after some time if polls are long, a worker fires its timers, polls
//! the epoll, and reads how many polls each other worker has ended. From each worker that has ended none since it read
//! this last, it takes up to two tasks. If a worker has ended none in `LONG` checks, it fires that worker's timers too.
//!
//! **Stealing.** A worker without work (a *thief*) takes half of the ready tasks in another worker's task slots. If
//! there is none, the thief takes half of the tasks in the other worker's local queues, but not the next task. The only
//! task of the other worker is taken only if that worker sleeps or has ended no poll since the thief's last check.
//! Stolen tasks run before all other ready tasks of the thief, and may be stolen again. A worker sleeps only if it
//! finds no other worker with two or more tasks to take. While any worker is idle, each other worker keeps only as many
//! tasks in its local queues as run in about `LOOK_TIME`.

use crate::core::{place_of, Hands, Job, Rested, Spawned, BLOCK, SHARD};
use crate::cores::Judge;
use crate::hand::FIRST;
use crate::reactor::{Found, EVENTS};
use crate::shared::{add, Context, Shared, NO_ONE};
use crate::sync::atomic::{AtomicUsize, Ordering::*};
use crate::task::{self, Raw};
use crate::timer::{now, Timers};
use crate::waker::{waker_of, NOBODY};

mod sleepers;

pub(crate) use sleepers::Ends;

/// The most tasks that run in a row in which each was woken or spawned by the task before it (a *chain*).
const NEXTS: u32 = 128;

/// After `LOOK_OUT` polls of tasks, or after `LOOK_TIME` nanoseconds, a busy worker polls the epoll, fires its timers,
/// and takes tasks from workers in long polls. After `LOOK_TIME`, it skips the epoll if another worker has polled it
/// within that time.
const LOOK_OUT: u32 = 64;
pub(crate) const LOOK_TIME: u64 = 100_000;
/// If only one worker may run tasks, it fires its timers after `LONELY_TIME` nanoseconds, and polls the epoll after
/// `LONELY_LOOK`, instead of `LOOK_TIME`. No other worker could run the tasks that it would find earlier.
const LONELY_TIME: u64 = 500_000;
const LONELY_LOOK: u64 = 2_000_000;
/// While it runs tasks, the first worker asks the policy how many workers may run only once in this many polls.
const JUDGED: u32 = 8;
/// A worker fires the timers of another one that has ended no poll in this many of its checks in a row.
const LONG: u32 = 8;
/// If a worker has been in one poll for this many nanoseconds, others may steal even the task that it would run next.
const LONG_POLL: u64 = 1_000_000;
const STALE: u32 = 16;
/// The most tasks that one poll of the epoll, or one theft from another worker, may put into a worker's local queues.
/// While any worker has no work, a worker's local queues may have only this many tasks in all.
const FEW: usize = 8;
/// A task that yields goes into the worker's line (its own queue) if fewer tasks than this are there. If only one
/// worker may run tasks, the limit is `HAND`.
const KEPT: usize = 16;
pub(crate) const HAND: usize = 48;
const MANY: usize = 4;

/// A worker counts at most this many of its ready tasks, for the policy that decides how many workers may run.
const CROWD: u32 = 128;

pub(crate) struct Turn {
    /// The number of stolen tasks that this worker must still run before its own. Other workers may have stolen some of
    /// them.
    first: usize,
    /// The number of tasks of the line (this worker's own queue) that it must still run before it searches its task
    /// slots.
    line_left: usize,
    /// The block (64 task slots) of this worker whose ready tasks it runs now.
    block: usize,
    wanted: u64,
    /// The index, among all blocks of this worker, of the block at which it next searches for ready tasks.
    next: usize,
    stale: u32,
    chain: u32,
    polls: u32,
    /// About how many tasks this worker polls in `LOOK_TIME` nanoseconds, at most `LOOK_OUT`.
    most: u32,
    counts: bool,
    seen: Vec<u64>,
    stood: Vec<u32>,
    since: Vec<u64>,
    met: Vec<u64>,
    looked: u64,
    rests: i32,
    watched: u64,
    helps: bool,
    unsaid: bool,
}

impl Turn {
    pub(crate) fn new(shared: &Shared, counts: bool) -> Turn {
        Turn {
            first: 0,
            line_left: 0,
            block: 0,
            wanted: 0,
            next: 0,
            stale: 0,
            chain: 0,
            polls: 0,
            most: LOOK_OUT,
            counts,
            seen: vec![0; shared.workers.len()],
            stood: vec![0; shared.workers.len()],
            since: vec![0; shared.workers.len()],
            met: vec![0; shared.workers.len()],
            looked: 0,
            rests: 1,
            watched: 0,
            helps: false,
            unsaid: false,
        }
    }

    fn pace(&mut self, context: &Context, now: u64) {
        if self.polls != 0 {
            let fitting = self.polls as u64 * LOOK_TIME / now.saturating_sub(context.looked.get()).max(1);
            self.most = fitting.clamp(1, LOOK_OUT as u64) as u32;
        }
        self.polls = 0;
        context.looked.set(now);
    }

    /// Returns true if this worker must poll the epoll and its timers now. Reads the clock, which takes long.
    #[inline]
    fn is_over(&self, context: &Context, alone: bool) -> bool {
        let time = if alone { LONELY_TIME } else { LOOK_TIME };
        now().saturating_sub(context.looked.get()) >= time
    }

    #[inline]
    fn few(&self) -> usize {
        FEW.min(self.most as usize)
    }
}

impl Shared {
    // --------------------------------------------------------------------------------------- whom to wake

    /// Wakes a worker because a task has become ready. If `unpark` is true, wakes the worker that owns the task's slot;
    /// otherwise wakes any sleeping worker or, if `quiet` is true, none.
    #[inline]
    pub(crate) fn published(&self, name: u64, unpark: bool, quiet: bool) {
        if unpark {
            self.rouse(self.keeper(self.home(place_of(name))));
        } else if !quiet {
            self.rouse_any();
        }
    }

    #[inline]
    pub(crate) fn make_ready(&self, context: &Context, job: &Job) {
        let unpark = context.hands.rest_ready(job);
        self.published(job.name, unpark, false);
    }

    /// Sets `job` to run next on this worker, and makes the task that was to run next ready for any worker.
    #[inline]
    pub(crate) fn set_next(&self, context: &Context, job: Job) {
        if !context.worker.hand.next.put(job) {
            self.displace_next(context, job);
        }
    }

    #[inline(never)]
    fn displace_next(&self, context: &Context, job: Job) {
        if let Some(waits) = context.worker.hand.next.take(context.alone) {
            self.make_ready(context, &waits);
        }
        // The `next` slot is empty now: either this call or another worker has taken its job.
        context.worker.hand.next.put(job);
    }

    /// Puts all tasks in the local queues of the worker `other` back into their task slots, ready for any worker. For
    /// each, wakes the worker that owns the slot if it sleeps, and no other.
    pub(crate) fn relieve(&self, hands: &Hands, other: usize) {
        while let Some(job) = self.workers[other].0.hand.take(true) {
            hands.gets(&job, other);
            self.published(job.name, hands.rest_ready(&job), true);
        }
    }

    /// Wakes `worker` if it sleeps. Returns true if this call has woken it, and no other thread has.
    fn rouse(&self, worker: usize) -> bool {
        let bit = 1 << worker;
        if self.sleepers.0.load(SeqCst) & bit == 0 || self.sleepers.0.fetch_and(!bit, SeqCst) & bit == 0 {
            return false;
        }
        // The worker counts as searching before it wakes, so that no second one is woken before it has searched.
        self.searching.0.fetch_add(1, SeqCst);
        self.ring(worker);
        true
    }

    /// Wakes `worker` from its sleep. If the worker doesn't sleep, its next sleep ends at once. There is one exception:
    /// a worker that enters the epoll just after this call has read `waits` (the number of the worker there) misses the
    /// wake. But a worker that has set `waits` searches for work once more, and finds the work that the caller has made
    /// ready.
    pub(crate) fn ring(&self, worker: usize) {
        if self.waits.0.load(SeqCst) == worker {
            self.reactor.notify();
        } else {
            self.workers[worker].0.bell.ring();
        }
    }

    /// Wakes a sleeping worker, unless a worker searches for work already. Prefers one that waits on its condition
    /// variable, then the *deputy* (which polls the epoll now and then), then the one in the epoll.
    #[inline]
    pub(crate) fn rouse_any(&self) {
        let sleepers = self.sleepers.0.load(SeqCst);
        if sleepers != 0 && self.searching.0.load(SeqCst) == 0 {
            let post = |post: &AtomicUsize| 1u64.checked_shl(post.load(Relaxed) as u32).unwrap_or(0);
            let others = sleepers & !post(&self.waits.0);
            let plain = others & !post(&self.deputy.0);
            let best = [plain, others, sleepers].into_iter().find(|&workers| workers != 0).unwrap_or(sleepers);
            self.rouse(best.trailing_zeros() as usize);
        }
    }

    /// Records that this worker no longer searches for work. If no other worker searches, and yet there is work, wakes
    /// a worker. `searching` is decreased before the look for work, because until then no worker is woken for new work.
    fn stop_looking(&self, hands: &Hands) {
        if self.searching.0.fetch_sub(1, SeqCst) != 1 {
            return;
        }
        let sleepers = self.sleepers.0.load(SeqCst);
        if sleepers == 0 {
            return;
        }
        let overlooked = |worker| self.ready(hands, worker) > if sleepers >> worker & 1 == 1 { 0 } else { 1 };
        if (0..self.workers.len()).any(overlooked) || self.has_queued() || self.is_unattended() {
            self.rouse_any();
        }
    }

    /// Records that this worker doesn't sleep any more. Returns true if another thread has woken it.
    fn awake(&self, context: &Context) -> bool {
        let bit = 1 << context.me;
        let roused = self.sleepers.0.load(SeqCst) & bit == 0 || self.sleepers.0.fetch_and(!bit, SeqCst) & bit == 0;
        if roused {
            self.stop_looking(&context.hands);
        }
        roused
    }

    fn is_unattended(&self) -> bool {
        self.waits.0.load(SeqCst) == NO_ONE && self.deputy.0.load(SeqCst) == NO_ONE
    }

    #[inline]
    fn all_busy(&self) -> bool {
        self.sleepers.0.load(Relaxed) == 0 && self.searching.0.load(Relaxed) == 0
    }

    #[inline]
    fn has_queued(&self) -> bool {
        self.queued.0.load(SeqCst) != 0 && !self.clogged.load(SeqCst)
    }

    pub(crate) fn ready(&self, hands: &Hands, worker: usize) -> u32 {
        self.ready_up_to(hands, worker, 8)
    }

    /// Returns about how many tasks are ready in the task slots of `worker`, at most `most`.
    fn ready_up_to(&self, hands: &Hands, worker: usize, most: u32) -> u32 {
        let mut count = 0;
        for &shard in self.workers[worker].0.used_shards() {
            let mut bits = hands.shown(shard);
            while bits != 0 && count < most {
                let block = shard * SHARD + bits.trailing_zeros() as usize;
                bits &= bits - 1;
                count += hands.ready(block).count_ones();
            }
        }
        count
    }

    // --------------------------------------------------------------------------------------- one task

    /// Polls the task of `job`, which this worker must have taken. After the poll, ends the task or puts it back.
    #[inline]
    fn run(&self, context: &Context, turn: &mut Turn, job: Job) {
        let name = job.name;
        let waker = waker_of(self.table, name);
        let mut cx = std::task::Context::from_waker(&waker);
        let worker = context.worker;
        // SAFETY: this worker holds the job until it is put back or ended below.
        let about = unsafe { task::about(job.job) };
        worker.begins(name, &about);
        self.observer.begins(&job, &about);
        context.current.set(name);
        context.woken.set(false);
        context.reads.set(0);
        context.put_off.set(false);
        // SAFETY: as above.
        let ended = unsafe { task::run(job.job, self.table, name, &mut cx) };
        turn.polls += 1;
        context.current.set(NOBODY);
        worker.running.store(NOBODY, Relaxed);
        add(&worker.polls, 1);
        self.observer.stops(&job, ended);
        if ended {
            return self.finish(context, &job);
        }
        self.rest(context, job);
    }

    /// Puts back a task that didn't end in its poll: as blocked or, if it was woken meanwhile, at the end of this
    /// worker's own queue.
    #[inline]
    fn rest(&self, context: &Context, job: Job) {
        let name = job.name;
        if !context.woken.get() {
            // The name must be written before the job is blocked: the runtime's end finds blocked jobs by these names.
            let kept = &self.names[job.place()];
            if kept.load(Relaxed) != name {
                kept.store(name, Relaxed);
            }
            match context.hands.rest_blocked(&job) {
                Rested::Blocked => return,
                Rested::Ready { unpark } => {
                    self.observer.ready(job.place());
                    return self.published(name, unpark, false);
                }
                Rested::InHand => {}
            }
        }
        self.observer.ready(job.place());
        self.set_behind(context, job, self.kept());
    }

    /// Ends the task and frees its slot. The slot is freed before the flags `roomy` and `clogged` are read, because a
    /// thread that finds no free slot changes both and then tries again.
    #[inline]
    fn finish(&self, context: &Context, job: &Job) {
        context.hands.finish(job);
        self.show_room(job.place() / BLOCK);
        add(&context.worker.ended, 1);
        if self.clogged.load(SeqCst) {
            self.clogged.store(false, SeqCst);
        }
    }

    #[inline]
    pub(crate) fn show_room(&self, block: usize) {
        let (word, bit) = (&self.roomy[block / SHARD].0, 1 << (block % SHARD));
        if word.load(SeqCst) & bit == 0 {
            word.fetch_or(bit, SeqCst);
        }
    }

    // --------------------------------------------------------------------------------------- what is next

    #[inline]
    fn pick(&'static self, context: &Context, turn: &mut Turn) -> Option<Job> {
        let is_over = |turn: &Turn| turn.most < LOOK_OUT && turn.polls >= 1 && turn.is_over(context, self.is_alone());
        if turn.polls >= LOOK_OUT || is_over(turn) {
            let by_time = turn.polls < LOOK_OUT;
            turn.pace(context, now());
            if !self.look_out(context, turn, by_time) {
                return None;
            }
        }
        self.pick_next(context, turn).or_else(|| self.pick_ready(context, turn))
    }

    /// Takes the task that was set to run next. If `NEXTS` such tasks have run in a row, puts it at the end of this
    /// worker's own queue instead, and returns None.
    #[inline]
    fn pick_next(&self, context: &Context, turn: &mut Turn) -> Option<Job> {
        if let Some(job) = context.worker.hand.next.take(context.alone) {
            if turn.chain < NEXTS {
                turn.chain += 1;
                context.hands.begin(&job);
                return Some(job);
            }
            self.set_behind(context, job, self.kept());
        }
        turn.chain = 0;
        None
    }

    /// Puts a task at the end of this worker's line (its own queue) or, if `most` tasks are there, into the task's
    /// slot, ready for any worker.
    #[inline]
    pub(crate) fn set_behind(&self, context: &Context, job: Job, most: usize) {
        if !context.worker.hand.line.put(job, most) {
            self.make_ready(context, &job);
        }
    }

    #[inline]
    fn kept(&self) -> usize {
        match self.all_busy() {
            false => 1,
            true if self.is_alone() => HAND,
            true => KEPT,
        }
    }

    #[inline]
    fn pick_ready(&'static self, context: &Context, turn: &mut Turn) -> Option<Job> {
        if turn.first != 0 {
            if let Some(job) = context.worker.hand.first.take(context.alone) {
                turn.first -= 1;
                context.hands.begin(&job);
                return Some(job);
            }
            turn.first = 0;
        }
        loop {
            if turn.line_left == 0 {
                if let Some(job) = self.sweep(context, turn) {
                    return Some(job);
                }
                turn.line_left = context.worker.hand.line.len();
            }
            if turn.line_left != 0 {
                if let Some(job) = context.worker.hand.line.take(context.alone) {
                    turn.line_left -= 1;
                    context.hands.begin(&job);
                    return Some(job);
                }
                turn.line_left = 0;
                continue;
            }
            if self.has_queued() {
                match self.begin_queued(context) {
                    Some(Some(job)) => return Some(job),
                    Some(None) => continue,
                    None => {}
                }
            }
            return None;
        }
    }

    /// Takes the next ready task in the task slots of this worker, block (64 slots) by block. After the last block,
    /// returns None if no task is ready, or if the worker must first run the tasks in its own queue or begin tasks that
    /// wait for a slot.
    #[inline]
    fn sweep(&self, context: &Context, turn: &mut Turn) -> Option<Job> {
        loop {
            if turn.wanted != 0 {
                if let Some(job) = context.hands.take_next(turn.block, &mut turn.wanted) {
                    return Some(job);
                }
                turn.wanted = 0;
            }
            if turn.stale >= STALE {
                turn.stale = 0;
                self.tidy(context.me);
            }
            let found = self.find_block(&context.hands, context.me, turn.next, &mut turn.stale);
            if let Some((next, block, ready)) = found {
                (turn.next, turn.block, turn.wanted) = (next, block, ready);
                continue;
            }
            let began = std::mem::take(&mut turn.next) != 0;
            if !began || !context.worker.hand.line.is_empty() || self.has_queued() {
                return None;
            }
        }
    }

    /// Searches the blocks (64 task slots each) of the worker `owner` for ready tasks. Returns the index of the block
    /// after the one found, that block, and a bit mask of its slots with a ready task.
    #[inline]
    fn find_block(&self, hands: &Hands, owner: usize, from: usize, stale: &mut u32) -> Option<(usize, usize, u64)> {
        let first = from / SHARD;
        for (i, &shard) in self.workers[owner].0.used_shards().iter().enumerate().skip(first) {
            let mut bits = hands.shown(shard);
            if i == first {
                bits &= u64::MAX << (from % SHARD);
            }
            while bits != 0 {
                let bit = bits.trailing_zeros() as usize;
                bits &= bits - 1;
                let block = shard * SHARD + bit;
                let ready = hands.ready(block);
                if ready != 0 {
                    return Some((i * SHARD + bit + 1, block, ready));
                }
                *stale += hands.hide(block) as u32;
            }
        }
        None
    }

    /// Puts the first task that waits for a task slot into a free one, of this worker if possible. Returns None if
    /// there is no such task or no free slot, `Some(Some(job))` if this worker must run the task, and `Some(None)` if
    /// the slot belongs to another worker, which will run it.
    fn begin_queued(&'static self, context: &Context) -> Option<Option<Job>> {
        let raw = self.pop_queued()?;
        if let Some(job) = self.place(context, raw) {
            return Some(job);
        }
        // The flag must be set before the second try: whoever frees a slot after that try clears the flag.
        self.clogged.store(true, SeqCst);
        if let Some(job) = self.place(context, raw) {
            self.clogged.store(false, SeqCst);
            return Some(job);
        }
        self.queue.lock().unwrap().push_front(raw);
        self.queued.0.fetch_add(1, SeqCst);
        None
    }

    fn pop_queued(&self) -> Option<Raw> {
        let mut queue = self.queue.lock().unwrap();
        let raw = queue.pop_front()?;
        self.queued.0.fetch_sub(1, SeqCst);
        if queue.is_empty() && queue.capacity() > 1024 {
            queue.shrink_to_fit();
        }
        Some(raw)
    }

    fn place(&'static self, context: &Context, raw: Raw) -> Option<Option<Job>> {
        let count = self.workers.len();
        (0..count).find_map(|i| {
            let worker = (context.me + i) % count;
            match self.spawn_at(&context.hands, worker, raw, true) {
                Spawned::Kept(job) => Some(Some(job)),
                Spawned::Ready { name, unpark } => {
                    self.published(name, unpark, true);
                    Some(None)
                }
                Spawned::Full => None,
            }
        })
    }

    // --------------------------------------------------------------------------------------- others

    /// Returns the workers that may run no tasks now, and whose tasks the worker `me` runs for them.
    fn lodgers(&self, me: usize) -> impl Iterator<Item = usize> {
        let active = self.active.0.load(SeqCst);
        (active..self.workers.len()).filter(move |&other| other % active == me)
    }

    /// Polls the epoll, fires timers, and takes tasks from workers in long polls, as a busy worker does now and then.
    /// Returns false if this worker must give its processor back.
    #[inline(never)]
    fn look_out(&self, context: &Context, turn: &mut Turn, by_time: bool) -> bool {
        if context.worker.hand.line.len() > turn.few() && !self.all_busy() {
            self.rouse_any();
        }
        // Jobs found here must not run before this worker's ready jobs or, if polls are long, before those of its local
        // queue. The only active worker keeps all of them, since it runs all jobs in that order.
        let (alone, lasts) = (self.is_alone(), turn.few() < FEW);
        let first = |turn: &Turn| turn.wanted == 0 && !self.mine(context);
        let takes = alone || (context.worker.hand.line.is_empty() || !lasts) && first(turn);
        let room = if takes { self.room(context, turn) } else { 0 };
        let (now, rest) = (context.looked.get(), if alone { LONELY_LOOK } else { LOOK_TIME });
        if by_time && now.saturating_sub(self.looked.0.load(Relaxed)) < rest {
            self.hear(context, &Found::NOTHING, room);
        } else {
            self.looked.0.store(now, Relaxed);
            self.look_at_events(context, room);
        }
        if turn.counts {
            let here = context.worker.hand.waits() + !context.worker.hand.next.is_empty() as usize;
            let mine = std::iter::once(context.me).chain(self.lodgers(context.me));
            let ready: u32 = mine.map(|owner| self.ready_up_to(&context.hands, owner, CROWD)).sum();
            add(&context.worker.scans, 1);
            add(&context.worker.runnable, here as u64 + ready as u64);
        }
        self.look_at_others(context, turn);
        !turn.counts || !self.is_asked_back(context.me)
    }

    /// Takes tasks from each worker that has ended no poll of a task since this worker's last call. After `LONG` such
    /// calls in a row, fires that worker's timers too.
    fn look_at_others(&self, context: &Context, turn: &mut Turn) {
        // If polls are long, this worker also takes jobs from workers in a poll. But it first runs those that it took
        // before and one of its own, and all jobs of its local queue, unless the other worker's poll is very long.
        let (active, long_polls) = (self.active.0.load(Relaxed), turn.few() < FEW);
        for other in 0..self.workers.len() {
            let worker = &self.workers[other].0;
            let polls = worker.polls.load(Relaxed);
            let gets_on = polls != turn.seen[other];
            let stands = other >= active || !gets_on;
            turn.seen[other] = polls;
            if gets_on {
                turn.since[other] = context.looked.get();
            }
            turn.stood[other] = if other == context.me || !stands { 0 } else { (turn.stood[other] + 1) % LONG };
            let may_be_long = long_polls && worker.running.load(Relaxed) != NOBODY;
            if other == context.me || !(stands || may_be_long) {
                continue;
            }
            let (long, sleeps) = (stands && turn.stood[other] == 0, self.sleepers.0.load(Relaxed) >> other & 1 == 1);
            if long && !sleeps {
                // The other worker is in a long poll or has no processor, and nobody else fires its timers.
                if other < active {
                    self.fire_quietly(context, other);
                }
            }
            let lasts = !gets_on && context.looked.get().saturating_sub(turn.since[other]) >= LONG_POLL;
            let may_help = !long_polls || !turn.helps && (turn.line_left == 0 || lasts);
            if !gets_on && !sleeps && may_help {
                self.take_out(context, turn, other, 2, lasts);
            }
            // A sleeping worker's slots are checked only now and then, as it is woken when a job becomes ready there.
            if (long || !sleeps) && may_help && self.ready(&context.hands, other) != 0 {
                self.help(context, turn, other, 2);
            }
        }
        turn.helps = turn.first != 0;
    }

    /// Takes up to `most` ready tasks from one block (64 task slots) of the worker `other`, to run them before this
    /// worker's own. Returns true if it got one.
    fn help(&self, context: &Context, turn: &mut Turn, other: usize, most: usize) -> bool {
        let (hands, stale) = (&context.hands, &mut 0);
        let start = context.random() as usize % (self.workers[other].0.used_shards().len() * SHARD);
        let found = self.find_block(hands, other, start, stale).or_else(|| self.find_block(hands, other, 0, stale));
        let (block, ready) = found.map_or((0, 0), |(_, block, ready)| (block, ready));
        let most = most.min(FIRST - context.worker.hand.first.len()).min(ready.count_ones() as usize);
        let got = (0..most).map_while(|_| hands.take_any(block)).map(|job| self.set_first(context, job)).count();
        self.has_taken(context, turn, got)
    }

    /// Takes up to `most` tasks from the local queues of the worker `other`, to run them before this worker's own. If
    /// `next` is true, takes even the task that `other` would run next. Returns true if it got one.
    fn take_out(&self, context: &Context, turn: &mut Turn, other: usize, most: usize, next: bool) -> bool {
        let most = most.min(FIRST - context.worker.hand.first.len());
        let jobs = (0..most).map_while(|_| self.workers[other].0.hand.take(next));
        let got = jobs.map(|job| match context.hands.gets(&job, other) {
            true => self.set_first(context, job),
            false => self.make_ready(context, &job),
        });
        let got = got.count();
        self.has_taken(context, turn, got)
    }

    fn set_first(&self, context: &Context, job: Job) {
        if !context.worker.hand.first.put(job, FIRST) {
            self.make_ready(context, &job);
        }
    }

    fn has_taken(&self, context: &Context, turn: &mut Turn, got: usize) -> bool {
        turn.first += got;
        if got != 0 {
            add(&context.worker.takes, 1);
        }
        got != 0
    }

    fn room(&self, context: &Context, turn: &Turn) -> usize {
        let most = if self.is_alone() { HAND } else { turn.few() };
        most.saturating_sub(context.worker.hand.line.len())
    }

    fn asks(&self, room: usize) -> usize {
        match room {
            0 if self.is_alone() => EVENTS,
            0 => FEW,
            room => room,
        }
    }

    #[inline]
    fn is_alone(&self) -> bool {
        self.active.0.load(Relaxed) == 1
    }

    /// Polls the epoll without waiting, fires the due timers, and wakes the tasks that waited for these. Returns the
    /// number of events and timers.
    fn look_at_events(&self, context: &Context, room: usize) -> usize {
        let found = if self.reactor.is_used() { self.reactor.look(self.asks(room)) } else { Found::NOTHING };
        self.hear(context, &found, room)
    }

    /// Wakes the tasks that wait for the events `found`, fires the due timers, and returns how many events and timers
    /// there were. The first `room` of the woken tasks go into this worker's own queue, and no worker is woken for
    /// them.
    fn hear(&self, context: &Context, found: &Found, room: usize) -> usize {
        context.keeps.set(false);
        context.room.set(room);
        let mut heard = self.reactor.tell(found);
        for owner in std::iter::once(context.me).chain(self.lodgers(context.me)) {
            heard += self.fire(owner);
        }
        context.room.set(0);
        context.keeps.set(true);
        if found.is_full() || heard >= room + MANY {
            self.rouse_any();
        }
        heard
    }

    fn fire_quietly(&self, context: &Context, other: usize) -> usize {
        context.keeps.set(false);
        let fired = self.fire(other);
        context.keeps.set(true);
        fired
    }

    pub(crate) fn fire(&self, owner: usize) -> usize {
        if self.next_timer(owner) == u64::MAX {
            return 0;
        }
        let now = now();
        let fire = |timers: &Timers| if timers.next() <= now { timers.fire(now) } else { 0 };
        fire(&self.workers[owner].0.timers) + if owner == 0 { fire(&self.visitors) } else { 0 }
    }

    /// Returns when (in nanoseconds) the earliest timer of the worker `owner` is due; `u64::MAX` if it has none.
    #[inline]
    pub(crate) fn next_timer(&self, owner: usize) -> u64 {
        let own = self.workers[owner].0.timers.next();
        if owner == 0 {
            own.min(self.visitors.next())
        } else {
            own
        }
    }

    /// Steals half of the ready tasks in another worker's task slots. If there is none and `last` is true, steals half
    /// of the tasks in that worker's local queues, but not the one that it runs next. A worker's only task is stolen
    /// only if that worker sleeps or, with `last`, has ended no poll since this worker began to search. Returns true if
    /// it stole a task.
    fn steal(&self, context: &Context, turn: &mut Turn, last: bool) -> bool {
        let count = self.workers.len();
        let offset = context.random() as usize % count;
        for other in (0..count).map(|i| (i + offset) % count).filter(|&other| other != context.me) {
            let worker = &self.workers[other].0;
            let ready = self.ready(&context.hands, other) as usize;
            let waits = if last { worker.hand.waits() } else { 0 };
            let stands = self.sleepers.0.load(Relaxed) >> other & 1 == 1
                || last && worker.polls.load(Relaxed) == turn.seen[other];
            let helps = |count: usize| count != 0 && (ready + waits > 1 || stands);
            if helps(ready) && self.help(context, turn, other, (ready + 1) / 2)
                || helps(waits) && self.take_out(context, turn, other, (waits + 1) / 2, false)
            {
                return true;
            }
        }
        false
    }

    // --------------------------------------------------------------------------------------- the loop

    pub(crate) fn work(&'static self, context: &Context, mut judge: Option<Judge>, counts: bool) {
        let mut turn = Turn::new(self, counts);
        let worker = context.worker;
        let most = if judge.is_some() { JUDGED } else { LOOK_OUT };
        while !self.stop.load(Relaxed) {
            if context.me >= self.active.0.load(SeqCst) {
                self.give_back(context, &mut turn);
                continue;
            }
            let mut ran = 0u32;
            while let Some(job) = self.pick(context, &mut turn) {
                if turn.unsaid {
                    turn.unsaid = false;
                    self.goes_on();
                }
                self.run(context, &mut turn, job);
                ran += 1;
                if ran == most || self.stop.load(Relaxed) {
                    break;
                }
            }
            if ran == 0 && self.look_when_idle(context, &mut turn) == 0 && !self.help_lodgers(context, &mut turn) {
                let begin = now();
                worker.idle_since.store(begin, Relaxed);
                turn.pace(context, begin);
                self.look_around(context, &mut turn, &judge);
                context.looked.set(worker.ends_idling());
            }
            if let Some(judge) = &mut judge {
                judge.judge(self);
            }
        }
        self.lay_down(context, &mut turn);
    }

    fn look_when_idle(&self, context: &Context, turn: &mut Turn) -> usize {
        let room = self.room(context, turn);
        if self.waits.0.load(Relaxed) != NO_ONE {
            return self.hear(context, &Found::NOTHING, room);
        }
        let heard = self.look_at_events(context, room);
        if heard != 0 && self.is_alone() {
            // The local queues may be full now: a check before these jobs have run would find no room.
            turn.pace(context, now());
            self.looked.0.store(context.looked.get(), Relaxed);
        }
        heard
    }

    fn help_lodgers(&self, context: &Context, turn: &mut Turn) -> bool {
        self.lodgers(context.me)
            .any(|other| self.ready(&context.hands, other) != 0 && self.help(context, turn, other, FEW))
    }

    /// Puts all tasks in this worker's local queues back into their task slots, ready for any worker.
    pub(crate) fn lay_down(&self, context: &Context, turn: &mut Turn) {
        while let Some(job) = context.worker.hand.take(true) {
            let unpark = context.hands.rest_ready(&job);
            self.published(job.name, unpark, true);
        }
        (turn.first, turn.line_left) = (0, 0);
    }
}
