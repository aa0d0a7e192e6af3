//! Functions for the explorer, a test that runs the crate under many orders of its threads' steps.

use super::*;
use crate::runtime::Runtime;

/// Sets how many workers of the runtime may run tasks.
pub fn set_active(runtime: &Runtime, active: usize) {
    runtime.shared().set_active(active);
}

/// Frees the data that the crate keeps for this thread: its handles of the proved core, and the parker of `block_on`.
pub fn forget_thread() {
    SEATS.with(|visitor| visitor.borrow_mut().seats = Vec::new());
    crate::block_on::forget_parker();
}

/// Frees the state of all runtimes. Each runtime must have ended, and no waker may be left.
pub fn forget_runtimes() {
    let mut pool = POOL.lock().unwrap();
    let (made, ended) = std::mem::take(&mut *pool);
    assert_eq!(made, ended.len(), "a runtime has not ended");
    for shared in ended {
        ALL[shared.table].store(ptr::null_mut(), SeqCst);
        shared.reactor.close();
        // SAFETY: the pointer is from `leak` in `make`, and the caller promises that nobody uses it.
        drop(unsafe { Box::from_raw(shared as *const Shared as *mut Shared) });
    }
}
