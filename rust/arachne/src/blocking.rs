//! The blocking pool: kernel threads, at most a fixed number, that run closures which may block.

use crate::shared::{entered, here, Shared};
use crate::sync::thread;
use crate::sync::{Condvar, Mutex};
use crate::task::{self, About, JoinHandle, Raw};
use std::collections::VecDeque;
use std::future::Future;
use std::panic::Location;
use std::pin::Pin;
use std::task::{Context, Poll, RawWaker, RawWakerVTable, Waker};
use std::time::Duration;

/// The time after which an idle thread of the pool ends.
const PATIENCE: Duration = Duration::from_secs(5);

#[derive(Default)]
struct State {
    work: VecDeque<Raw>,
    threads: usize,
    idle: usize,
    most: usize,
    stop: bool,
}

#[derive(Default)]
pub(crate) struct Pool {
    state: Mutex<State>,
    changed: Condvar,
}

struct Once<F>(Option<F>);
impl<F> Unpin for Once<F> {}
impl<F: FnOnce() -> T, T> Future for Once<F> {
    type Output = T;
    fn poll(mut self: Pin<&mut Self>, _: &mut Context<'_>) -> Poll<T> {
        Poll::Ready((self.0.take().expect("polled once"))())
    }
}

const NO_WAKER: RawWakerVTable =
    RawWakerVTable::new(|_| RawWaker::new(std::ptr::null(), &NO_WAKER), |_| {}, |_| {}, |_| {});

pub(crate) fn no_waker() -> Waker {
    // SAFETY: the functions of the table do nothing.
    unsafe { Waker::from_raw(RawWaker::new(std::ptr::null(), &NO_WAKER)) }
}

impl Pool {
    pub(crate) fn open(&self, most: usize) {
        let mut state = self.state.lock().unwrap();
        (state.most, state.stop) = (most.max(1), false);
    }

    fn push(&self, shared: &'static Shared, raw: Raw) {
        let mut state = self.state.lock().unwrap();
        if state.stop {
            drop(state);
            // SAFETY: nobody else has the task, and it was not begun.
            return unsafe { task::end(raw) };
        }
        state.work.push_back(raw);
        if state.idle >= state.work.len() {
            self.changed.notify_one();
        } else if state.threads < state.most {
            let started =
                thread::Builder::new().name("arachne-blocking".into()).spawn(move || shared.blocking.work(shared));
            match started {
                Ok(_) => state.threads += 1,
                Err(error) if state.threads == 0 => {
                    state.work.pop_back();
                    drop(state);
                    // SAFETY: as above.
                    unsafe { task::end(raw) };
                    panic!("no kernel thread for blocking work: {error}");
                }
                Err(_) => {}
            }
        }
    }

    fn work(&self, shared: &'static Shared) {
        shared.arbiter.unpin();
        let waker = no_waker();
        let mut state = self.state.lock().unwrap();
        loop {
            if let Some(raw) = state.work.pop_front() {
                drop(state);
                let cx = &mut Context::from_waker(&waker);
                // SAFETY: `raw` is from `new`, and nobody else has it. The task ends in its only poll.
                let ended = entered(shared, || unsafe { task::run(raw, 0, crate::waker::NOBODY, cx) });
                debug_assert!(ended);
                state = self.state.lock().unwrap();
                continue;
            }
            if state.stop {
                break;
            }
            state.idle += 1;
            let (next, waited) = self.changed.wait_timeout(state, PATIENCE).unwrap();
            state = next;
            state.idle -= 1;
            if waited.timed_out() && state.work.is_empty() {
                break;
            }
        }
        state.threads -= 1;
        self.changed.notify_all();
    }

    pub(crate) fn is_busy(&self) -> bool {
        let state = self.state.lock().unwrap();
        !state.work.is_empty() || state.idle < state.threads
    }

    /// Cancels the closures that have not begun, and refuses all later ones.
    pub(crate) fn close(&self) {
        let mut state = self.state.lock().unwrap();
        state.stop = true;
        let left = std::mem::take(&mut state.work);
        self.changed.notify_all();
        drop(state);
        // SAFETY: nobody else has these tasks, and none was begun.
        left.into_iter().for_each(|raw| unsafe { task::end(raw) });
    }

    /// Waits for at most `time` until all threads of the pool have ended.
    pub(crate) fn wait_for_end(&self, time: Duration) -> bool {
        let state = self.state.lock().unwrap();
        let (state, _) = self.changed.wait_timeout_while(state, time, |state| state.threads != 0).unwrap();
        state.threads == 0
    }
}

impl Shared {
    pub(crate) fn spawn_blocking<T: Send + 'static>(
        &'static self,
        work: impl FnOnce() -> T + Send + 'static,
        about: About,
    ) -> JoinHandle<T> {
        let (raw, handle) = task::new(Once(Some(work)), about);
        self.blocking.push(self, raw);
        handle
    }
}

/// Runs a closure that may block, on the runtime's blocking pool. Returns a handle on the closure's result.
///
/// Once the closure has begun, it can't be aborted. To wait for a future in the closure, use `block_on`.
///
/// ```
/// let runtime = arachne::Runtime::new(1);
/// let read = || std::fs::read_to_string("/proc/self/status");
/// let text = runtime.block_on(async { arachne::spawn_blocking(read).await.unwrap() });
/// assert!(text.is_ok());
/// ```
///
/// # Panics
/// Panics outside of a runtime, or if the pool has no thread and none can be started.
#[track_caller]
pub fn spawn_blocking<T: Send + 'static>(work: impl FnOnce() -> T + Send + 'static) -> JoinHandle<T> {
    let about = About { spawned: Location::caller(), name: None };
    here().expect("spawn_blocking outside of a runtime").spawn_blocking(work, about)
}
