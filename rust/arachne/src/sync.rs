//! The atomics, locks and threads of the standard library. No other module names `std::sync`.
//!
//! With the feature `explore` they are those of the explorer, a test that decides which thread runs next.

#[cfg(feature = "explore")]
pub(crate) use explorer::{atomic, clock, thread, told, wait, Arc, Condvar, Instant, Mutex, MutexGuard, RwLock};
#[cfg(not(feature = "explore"))]
pub(crate) use plain::*;

#[cfg(not(feature = "explore"))]
mod plain {
    pub(crate) use std::sync::{atomic, Arc, Condvar, Mutex, MutexGuard, RwLock};
    pub(crate) use std::thread;
    pub(crate) use std::time::Instant;

    /// The explorer's version returns a virtual time instead.
    #[inline(always)]
    pub(crate) fn clock(call: impl FnOnce() -> u64) -> u64 {
        call()
    }

    #[inline(always)]
    pub(crate) fn wait(_epoll: i32, timeout: i32, mut call: impl FnMut(i32) -> usize) -> usize {
        call(timeout)
    }

    /// The explorer's version records that an epoll may have an event.
    #[inline(always)]
    pub(crate) fn told() {}
}
