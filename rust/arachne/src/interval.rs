//! An interval, by which a task waits for ticks at a fixed period.

use crate::block_on::poll_fn;
use crate::sync::Instant;
use crate::timer::{sleep_until, Sleep};
use std::future::Future;
use std::pin::Pin;
use std::task::{Context, Poll};
use std::time::Duration;

/// A tick counts as missed if it comes later than this after the time at which it was due.
const LATE: Duration = Duration::from_millis(5);

/// Thirty years, in place of a period that would exceed the clock's range.
const NEVER: Duration = Duration::from_secs(30 * 365 * 86_400);

fn later(moment: Instant, period: Duration) -> Instant {
    moment.checked_add(period).unwrap_or_else(|| moment + NEVER)
}

/// Says when the next ticks come after a missed one; see `Interval::set_missed_tick_behavior`.
///
/// ```
/// use arachne::MissedTickBehavior;
/// use std::time::{Duration, Instant};
/// arachne::Runtime::new(1).block_on(async {
///     let mut interval = arachne::interval(Duration::from_millis(20));
///     interval.set_missed_tick_behavior(MissedTickBehavior::Delay);
///     interval.tick().await;
///     std::thread::sleep(Duration::from_millis(100));
///     interval.tick().await;              // at once, as it is late
///     let late = Instant::now();
///     interval.tick().await;              // a period later
///     assert!(late.elapsed() >= Duration::from_millis(15));
/// });
/// ```
#[derive(Clone, Copy, PartialEq, Eq, Debug, Default)]
pub enum MissedTickBehavior {
    /// All missed ticks come at once, until the interval has caught up.
    #[default]
    Burst,
    /// The next tick comes one period after the late one was returned.
    Delay,
    /// The missed ticks are left out. The next tick is due a whole number of periods after the late one was due.
    Skip,
}

/// Ticks at a fixed period; see `interval`.
///
/// ```
/// use std::time::Duration;
/// let mut each: arachne::Interval = arachne::Runtime::new(1).enter(|| arachne::interval(Duration::from_secs(1)));
/// assert_eq!(each.period(), Duration::from_secs(1));
/// ```
#[derive(Debug)]
pub struct Interval {
    sleep: Sleep,
    due: Instant,
    period: Duration,
    missed: MissedTickBehavior,
}

/// Returns an interval that ticks at once, and then once per `period`.
///
/// ```
/// use std::time::{Duration, Instant};
/// arachne::Runtime::new(1).block_on(async {
///     let (begin, mut interval) = (Instant::now(), arachne::interval(Duration::from_millis(2)));
///     for _ in 0..3 {
///         interval.tick().await;
///     }
///     assert!(begin.elapsed() >= Duration::from_millis(4));
/// });
/// ```
///
/// # Panics
/// Panics if the period is zero.
#[track_caller]
pub fn interval(period: Duration) -> Interval {
    interval_at(Instant::now(), period)
}

/// Returns an interval that ticks at `start`, and then once per `period`.
///
/// ```
/// use std::time::{Duration, Instant};
/// let start = Instant::now() + Duration::from_millis(5);
/// arachne::Runtime::new(1).block_on(async {
///     assert_eq!(arachne::interval_at(start, Duration::from_millis(1)).tick().await, start);
/// });
/// assert!(Instant::now() >= start);
/// ```
///
/// # Panics
/// Panics if the period is zero.
#[track_caller]
pub fn interval_at(start: Instant, period: Duration) -> Interval {
    assert!(period > Duration::ZERO, "an interval's period is more than zero");
    Interval { sleep: sleep_until(start), due: start, period, missed: MissedTickBehavior::default() }
}

impl Interval {
    /// Waits for the next tick, and returns the time at which it was due.
    ///
    /// No tick is lost if this future is dropped. See the example at `interval`.
    ///
    /// # Panics
    /// The future panics if it has to wait outside of a runtime.
    pub async fn tick(&mut self) -> Instant {
        poll_fn(|cx: &mut Context<'_>| self.poll_tick(cx)).await
    }

    /// Polls for the next tick; see `tick`. If several tasks poll, only the one that polled last is woken.
    ///
    /// ```
    /// use std::time::Duration;
    /// arachne::Runtime::new(1).block_on(async {
    ///     let mut interval = arachne::interval(Duration::from_millis(1));
    ///     arachne::poll_fn(|cx| interval.poll_tick(cx)).await;
    /// });
    /// ```
    pub fn poll_tick(&mut self, cx: &mut Context<'_>) -> Poll<Instant> {
        if Pin::new(&mut self.sleep).poll(cx).is_pending() {
            return Poll::Pending;
        }
        let (due, now) = (self.due, Instant::now());
        let next = if now > due + LATE { self.after_missed(now) } else { later(due, self.period) };
        self.set(next);
        Poll::Ready(due)
    }

    fn after_missed(&self, now: Instant) -> Instant {
        match self.missed {
            MissedTickBehavior::Burst => later(self.due, self.period),
            MissedTickBehavior::Delay => later(now, self.period),
            MissedTickBehavior::Skip => {
                let (late, period) = (now.saturating_duration_since(self.due), self.period.as_nanos());
                now + Duration::from_nanos((period - late.as_nanos() % period).min(u64::MAX as u128) as u64)
            }
        }
    }

    fn set(&mut self, due: Instant) {
        self.due = due;
        Pin::new(&mut self.sleep).reset(due);
    }

    /// Moves the next tick to one period from now.
    ///
    /// ```
    /// use std::time::{Duration, Instant};
    /// arachne::Runtime::new(1).block_on(async {
    ///     let mut interval = arachne::interval(Duration::from_millis(5));
    ///     let begin = Instant::now();
    ///     interval.reset();                   // without it the first tick comes at once
    ///     interval.tick().await;
    ///     assert!(begin.elapsed() >= Duration::from_millis(5));
    /// });
    /// ```
    pub fn reset(&mut self) {
        self.set(later(Instant::now(), self.period));
    }

    /// Returns the period; see the example at `Interval`.
    #[must_use]
    pub fn period(&self) -> Duration {
        self.period
    }

    /// Sets when the next ticks come after a missed one (default: `Burst`). See the example at `MissedTickBehavior`.
    pub fn set_missed_tick_behavior(&mut self, behavior: MissedTickBehavior) {
        self.missed = behavior;
    }
}
