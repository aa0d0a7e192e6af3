//! The standard library's atomics, locks and threads, with a point (step at which threads may switch) at each call.

use super::*;
use std::ops::{Deref, DerefMut};
use std::sync::{LockResult, TryLockError, TryLockResult};
use std::time::Duration;

pub use std::sync::Arc;

// ------------------------------------------------------------------------------------------- atomics

pub mod atomic {
    use super::*;
    pub use std::sync::atomic::{compiler_fence, fence, Ordering};

    macro_rules! steps {
        ($of:ty, $word:expr, $($step:ident($($from:ident),*));*) => { $(
            #[inline]
            #[track_caller]
            pub fn $step(&self, $($from: $of,)* _: Ordering) -> $of {
                let value = self.step(stringify!($step)).$step($($from,)* SeqCst);
                seen($word(value));
                value
            }
        )* };
    }
    macro_rules! atomic {
        ($name:ident $of:ty, $word:expr, $($generic:tt)*) => {
            pub struct $name$($generic)*(std::sync::atomic::$name$($generic)*);
            impl$($generic)* $name$($generic)* {
                pub const fn new(value: $of) -> Self {
                    $name(std::sync::atomic::$name::new(value))
                }
                #[inline]
                #[track_caller]
                fn step(&self, what: &'static str) -> &std::sync::atomic::$name$($generic)* {
                    point(what, Location::caller());
                    check(&self.0);
                    &self.0
                }
                #[inline]
                #[track_caller]
                pub fn store(&self, value: $of, _: Ordering) {
                    self.step("store").store(value, SeqCst);
                    seen($word(value));
                }
                #[inline]
                #[track_caller]
                pub fn compare_exchange(&self, old: $of, new: $of, _: Ordering, _: Ordering) -> Result<$of, $of> {
                    let result = self.step("compare_exchange").compare_exchange(old, new, SeqCst, SeqCst);
                    seen($word(result.unwrap_or_else(|now| now)));
                    result
                }
                pub fn get_mut(&mut self) -> &mut $of {
                    self.0.get_mut()
                }
                steps!($of, $word, load(); swap(value));
            }
        };
    }
    macro_rules! number {
        ($($name:ident $of:ty),*) => { $(
            atomic!($name $of, |value| value as u64,);
            impl Default for $name {
                fn default() -> Self {
                    $name::new(Default::default())
                }
            }
            impl std::fmt::Debug for $name {
                fn fmt(&self, f: &mut std::fmt::Formatter<'_>) -> std::fmt::Result {
                    self.0.fmt(f)
                }
            }
        )* };
    }
    macro_rules! counter {
        ($($name:ident $of:ty),*) => { $(
            number!($name $of);
            impl $name {
                steps!($of, |value| value as u64, fetch_add(by); fetch_sub(by); fetch_max(by));
                steps!($of, |value| value as u64, fetch_or(bits); fetch_and(bits));
                #[track_caller]
                pub fn fetch_update(&self, _: Ordering, order: Ordering, mut next: impl FnMut($of) -> Option<$of>)
                    -> Result<$of, $of> {
                    let mut seen = self.load(order);
                    while let Some(new) = next(seen) {
                        match self.compare_exchange(seen, new, order, order) {
                            Ok(before) => return Ok(before),
                            Err(now) => seen = now,
                        }
                    }
                    Err(seen)
                }
            }
        )* };
    }
    number!(AtomicBool bool);
    counter!(AtomicU8 u8, AtomicU32 u32, AtomicI32 i32, AtomicU64 u64, AtomicUsize usize);
    atomic!(AtomicPtr *mut T, |value: *mut T| value as usize as u64, <T>);
    impl<T> Default for AtomicPtr<T> {
        fn default() -> Self {
            AtomicPtr::new(std::ptr::null_mut())
        }
    }
}

// ------------------------------------------------------------------------------------------- locks

#[derive(Default)]
pub struct Mutex<T: ?Sized> {
    held: Cell<u64>,
    value: UnsafeCell<T>,
}
// SAFETY: as for std's: one thread at a time runs, and has the guard.
unsafe impl<T: ?Sized + Send> Sync for Mutex<T> {}

pub struct MutexGuard<'a, T: ?Sized>(&'a Mutex<T>);

/// Returns the address of `of`, by which the scheduler knows what a thread waits for.
fn id<T: ?Sized>(of: &T) -> usize {
    of as *const T as *const u8 as usize
}

impl<T> Mutex<T> {
    pub const fn new(value: T) -> Mutex<T> {
        Mutex { held: Cell::new(0), value: UnsafeCell::new(value) }
    }
    pub fn into_inner(self) -> LockResult<T> {
        Ok(self.value.into_inner())
    }
    fn take(&self) -> MutexGuard<'_, T> {
        check(&self.held);
        while self.held.get() != 0 {
            world().wait(me(), id(&self.held), NEVER, -1);
        }
        self.held.set(1);
        MutexGuard(self)
    }
    #[track_caller]
    pub fn lock(&self) -> LockResult<MutexGuard<'_, T>> {
        point("lock", Location::caller());
        Ok(self.take())
    }
    #[track_caller]
    pub fn try_lock(&self) -> TryLockResult<MutexGuard<'_, T>> {
        point("try_lock", Location::caller());
        seen(self.held.get());
        if self.held.get() == 1 {
            return Err(TryLockError::WouldBlock);
        }
        Ok(self.take())
    }
}

impl<T: ?Sized> Drop for MutexGuard<'_, T> {
    fn drop(&mut self) {
        self.0.held.set(0);
        world().tell(id(&self.0.held), false);
    }
}
impl<T: ?Sized> Deref for MutexGuard<'_, T> {
    type Target = T;
    fn deref(&self) -> &T {
        // SAFETY: there is one guard at a time.
        unsafe { &*self.0.value.get() }
    }
}
impl<T: ?Sized> DerefMut for MutexGuard<'_, T> {
    fn deref_mut(&mut self) -> &mut T {
        // SAFETY: as above.
        unsafe { &mut *self.0.value.get() }
    }
}

#[derive(Default)]
pub struct RwLock<T>(Mutex<T>);
impl<T> RwLock<T> {
    #[track_caller]
    pub fn read(&self) -> LockResult<MutexGuard<'_, T>> {
        self.0.lock()
    }
    #[track_caller]
    pub fn write(&self) -> LockResult<MutexGuard<'_, T>> {
        self.0.lock()
    }
}

#[derive(Default)]
pub struct Condvar(Cell<u64>);
// SAFETY: as for `Mutex`.
unsafe impl Sync for Condvar {}
pub struct WaitTimeoutResult(bool);
impl WaitTimeoutResult {
    pub fn timed_out(&self) -> bool {
        self.0
    }
}
type Waited<'a, T> = LockResult<(MutexGuard<'a, T>, WaitTimeoutResult)>;

impl Condvar {
    pub const fn new() -> Condvar {
        Condvar(Cell::new(0))
    }
    #[track_caller]
    fn notify(&self, one: bool) {
        point("notify", Location::caller());
        check(&self.0);
        world().tell(id(self), one);
    }
    #[track_caller]
    pub fn notify_one(&self) {
        self.notify(true);
    }
    #[track_caller]
    pub fn notify_all(&self) {
        self.notify(false);
    }
    #[track_caller]
    fn wait_until<'a, T>(&self, guard: MutexGuard<'a, T>, until: u64) -> Waited<'a, T> {
        point("wait", Location::caller());
        check(&self.0);
        let mutex = guard.0;
        drop(guard);
        let told = world().wait(me(), id(self), until, -1);
        Ok((mutex.take(), WaitTimeoutResult(!told)))
    }
    #[track_caller]
    pub fn wait<'a, T>(&self, guard: MutexGuard<'a, T>) -> LockResult<MutexGuard<'a, T>> {
        self.wait_until(guard, NEVER).map(|waited| waited.0).map_err(|_| unreachable!())
    }
    #[track_caller]
    pub fn wait_timeout<'a, T>(&self, guard: MutexGuard<'a, T>, most: Duration) -> Waited<'a, T> {
        self.wait_until(guard, after(most))
    }
    #[track_caller]
    pub fn wait_while<'a, T>(
        &self,
        guard: MutexGuard<'a, T>,
        waits: impl FnMut(&mut T) -> bool,
    ) -> LockResult<MutexGuard<'a, T>> {
        self.wait_timeout_while(guard, Duration::MAX, waits).map(|waited| waited.0).map_err(|_| unreachable!())
    }
    #[track_caller]
    pub fn wait_timeout_while<'a, T>(
        &self,
        mut guard: MutexGuard<'a, T>,
        most: Duration,
        mut waits: impl FnMut(&mut T) -> bool,
    ) -> Waited<'a, T> {
        let until = after(most);
        while waits(&mut guard) {
            if now() >= until {
                return Ok((guard, WaitTimeoutResult(true)));
            }
            guard = self.wait_until(guard, until)?.0;
        }
        Ok((guard, WaitTimeoutResult(false)))
    }
}

// ------------------------------------------------------------------------------------------- time, epoll, threads

pub fn now() -> u64 {
    world().now.get()
}

fn after(duration: Duration) -> u64 {
    now().saturating_add(duration.as_nanos().min(NEVER as u128) as u64)
}

#[track_caller]
pub fn clock(_: impl FnOnce() -> u64) -> u64 {
    point("clock", Location::caller());
    now()
}

#[derive(Clone, Copy, PartialEq, Eq, PartialOrd, Ord, Debug)]
pub struct Instant(u64);
impl Instant {
    #[track_caller]
    pub fn now() -> Instant {
        Instant(clock(|| 0))
    }
    pub fn saturating_duration_since(&self, other: Instant) -> Duration {
        Duration::from_nanos(self.0.saturating_sub(other.0))
    }
    pub fn checked_add(self, duration: Duration) -> Option<Instant> {
        self.0.checked_add(u64::try_from(duration.as_nanos()).ok()?).map(Instant)
    }
}

impl std::ops::Add<Duration> for Instant {
    type Output = Instant;
    fn add(self, duration: Duration) -> Instant {
        self.checked_add(duration).expect("a moment that the clock has")
    }
}

const TOLD: usize = 1;

#[track_caller]
pub fn wait(epoll: i32, timeout: i32, mut look: impl FnMut(i32) -> usize) -> usize {
    point("epoll", Location::caller());
    let until = u64::try_from(timeout).map_or(NEVER, |millis| now() + millis * 1_000_000);
    loop {
        let found = look(0);
        if found != 0 || timeout == 0 || now() >= until {
            seen(found as u64);
            return found;
        }
        world().wait(me(), TOLD, until, epoll);
    }
}

pub fn told() {
    world().tell(TOLD, false);
}

pub mod thread {
    use super::*;
    use std::io;
    use std::panic::{catch_unwind, AssertUnwindSafe};
    use std::thread::Result;

    #[derive(Default)]
    pub struct Builder(String);
    pub struct JoinHandle<T>(Arc<Mutex<Option<Result<T>>>>);

    impl Builder {
        pub fn new() -> Builder {
            Builder::default()
        }
        pub fn name(self, name: String) -> Builder {
            Builder(name)
        }
        #[track_caller]
        pub fn spawn<T: Send + 'static>(self, run: impl FnOnce() -> T + Send + 'static) -> io::Result<JoinHandle<T>> {
            point("spawn", Location::caller());
            let result = Arc::new(Mutex::new(None));
            let tells = result.clone();
            let job = move || {
                *tells.take() = Some(catch_unwind(AssertUnwindSafe(run)));
                world().tell(id(&*tells), false);
            };
            world().begin(&self.0, Box::new(job));
            Ok(JoinHandle(result))
        }
    }
    impl<T> JoinHandle<T> {
        #[track_caller]
        pub fn join(self) -> Result<T> {
            point("join", Location::caller());
            loop {
                if let Some(result) = self.0.take().take() {
                    return result;
                }
                world().wait(me(), id(&*self.0), NEVER, -1);
            }
        }
    }

    #[derive(Clone, Debug)]
    pub struct Thread(usize);
    impl Thread {
        #[track_caller]
        pub fn unpark(&self) {
            point("unpark", Location::caller());
            let thread = &world().threads[self.0];
            thread.parks_on.set(true);
            world().tell(id(thread), false);
        }
    }
    pub fn current() -> Thread {
        Thread(me())
    }
    #[track_caller]
    pub fn park() {
        point("park", Location::caller());
        let thread = &world().threads[me()];
        while !thread.parks_on.replace(false) {
            world().wait(me(), id(thread), NEVER, -1);
        }
    }
    #[track_caller]
    pub fn park_timeout(duration: Duration) {
        point("park_timeout", Location::caller());
        let thread = &world().threads[me()];
        if !thread.parks_on.replace(false) {
            world().wait(me(), id(thread), after(duration), -1);
            thread.parks_on.set(false);
        }
    }
    #[track_caller]
    pub fn sleep(duration: Duration) {
        point("sleep", Location::caller());
        world().wait(me(), 0, after(duration), -1);
    }
    #[track_caller]
    pub fn yield_now() {
        point("yield", Location::caller());
        world().fall_behind(me());
        world().go_on(me());
    }
}
