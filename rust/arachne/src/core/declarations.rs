// The declarations of the header `arachne_exec.h`. `tests/header.rs` compares them with it.
use std::ffi::c_void;

pub(crate) const ARACHNE_DONE: u32 = 0;
pub(crate) const ARACHNE_REFUSED: u32 = 1;
pub(crate) const ARACHNE_NO_MEMORY: u32 = 2;
pub(crate) const ARACHNE_CONTENDED: u32 = 3;
pub(crate) const ARACHNE_LOST: u32 = 4;
pub(crate) const ARACHNE_GRANTED: u32 = 5;
pub(crate) const ARACHNE_QUEUED: u32 = 6;
pub(crate) const ARACHNE_ALREADY_IN: u32 = 7;
pub(crate) const ARACHNE_FREED: u32 = 8;
pub(crate) const ARACHNE_HANDED_ON: u32 = 9;
pub(crate) const ARACHNE_NOT_HOLDER: u32 = 10;
pub(crate) const ARACHNE_LEFT: u32 = 11;
pub(crate) const ARACHNE_FULL: u32 = 12;
pub(crate) const ARACHNE_RUN: u32 = 13;
pub(crate) const ARACHNE_PARK: u32 = 14;
pub(crate) const ARACHNE_AGAIN: u32 = 15;
pub(crate) const ARACHNE_READY: u32 = 16;
pub(crate) const ARACHNE_BLOCKED: u32 = 17;
pub(crate) const ARACHNE_MARKED: u32 = 18;
pub(crate) const ARACHNE_ALREADY_MARKED: u32 = 19;
pub(crate) const ARACHNE_GONE: u32 = 20;
pub(crate) const ARACHNE_STAY: u32 = 21;
pub(crate) const ARACHNE_ADD: u32 = 22;
pub(crate) const ARACHNE_REMOVE: u32 = 23;
pub(crate) const ARACHNE_NOBODY: u32 = 64;

#[repr(C)]
pub(crate) struct arachne_exec {
    pub(crate) opaque: *mut c_void,
}

#[repr(C)]
pub(crate) struct arachne_exec_told {
    pub(crate) name: u64,
    pub(crate) job: u64,
    pub(crate) code: u32,
    pub(crate) unpark: u32,
}

#[repr(C)]
pub(crate) struct arachne_locks {
    pub(crate) opaque: *mut c_void,
}

#[repr(C)]
pub(crate) struct arachne_lock_told {
    pub(crate) at: u64,
    pub(crate) next: u64,
    pub(crate) code: u32,
}

#[repr(C)]
pub(crate) struct arachne_estimator {
    pub(crate) up: u64,
    pub(crate) hysteresis: u64,
    pub(crate) max: u64,
    pub(crate) thresholds: [u64; 64],
}

#[repr(C)]
pub(crate) struct arachne_sample {
    pub(crate) cores: u64,
    pub(crate) runnable: u64,
    pub(crate) scans: u64,
    pub(crate) busy: u64,
    pub(crate) elapsed: u64,
}

extern "C" {
    pub(crate) fn arachne_exec_new(exec: *mut arachne_exec, shards: usize) -> u32;
    pub(crate) fn arachne_exec_split(exec: *mut arachne_exec, other: *mut arachne_exec) -> u32;
    pub(crate) fn arachne_exec_join(exec: *mut arachne_exec, other: *mut arachne_exec) -> u32;
    pub(crate) fn arachne_exec_close(exec: *mut arachne_exec);
    pub(crate) fn arachne_exec_register(exec: *mut arachne_exec, worker: u32) -> u32;
    pub(crate) fn arachne_exec_spawn(exec: *mut arachne_exec, block: usize, job: u64) -> arachne_exec_told;
    pub(crate) fn arachne_exec_take(exec: *mut arachne_exec, block: usize) -> arachne_exec_told;
    pub(crate) fn arachne_exec_next(exec: *mut arachne_exec) -> arachne_exec_told;
    pub(crate) fn arachne_exec_spawn_here(exec: *mut arachne_exec, block: usize, job: u64) -> arachne_exec_told;
    pub(crate) fn arachne_exec_shown(exec: *mut arachne_exec, shard: usize) -> u64;
    pub(crate) fn arachne_exec_ready(exec: *mut arachne_exec, block: usize) -> u64;
    pub(crate) fn arachne_exec_wake_up(exec: *mut arachne_exec) -> u32;
    pub(crate) fn arachne_exec_rest_ready(exec: *mut arachne_exec) -> arachne_exec_told;
    pub(crate) fn arachne_exec_rest_blocked(exec: *mut arachne_exec) -> arachne_exec_told;
    pub(crate) fn arachne_exec_finish(exec: *mut arachne_exec) -> u32;
    pub(crate) fn arachne_exec_wake(exec: *mut arachne_exec, name: u64) -> arachne_exec_told;
    pub(crate) fn arachne_exec_wake_here(exec: *mut arachne_exec, name: u64) -> arachne_exec_told;
    pub(crate) fn arachne_locks_new(locks: *mut arachne_locks, count: usize) -> u32;
    pub(crate) fn arachne_locks_split(locks: *mut arachne_locks, other: *mut arachne_locks) -> u32;
    pub(crate) fn arachne_locks_join(locks: *mut arachne_locks, other: *mut arachne_locks) -> u32;
    pub(crate) fn arachne_locks_close(locks: *mut arachne_locks);
    pub(crate) fn arachne_lock_ask(locks: *mut arachne_locks, lock: usize, who: u64) -> arachne_lock_told;
    pub(crate) fn arachne_lock_free(locks: *mut arachne_locks, lock: usize, who: u64) -> arachne_lock_told;
    pub(crate) fn arachne_lock_withdraw(locks: *mut arachne_locks, lock: usize, who: u64) -> arachne_lock_told;
    pub(crate) fn arachne_estimator_new(up: u64, hysteresis: u64, max: u64, estimator: *mut arachne_estimator) -> bool;
    pub(crate) fn arachne_estimator_judge(estimator: *mut arachne_estimator, sample: *const arachne_sample) -> u32;
}
