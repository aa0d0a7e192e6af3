//! A task: one allocation that contains the future, and later its output.
//!
//! The runtime and the task's handles own it together: the runtime until the task ends, a handle until it is dropped.
//! The last of these owners frees the allocation.

use crate::sync::atomic::{AtomicU32, AtomicU64, Ordering::*};
use crate::sync::Mutex;
use crate::waker::{wake_name, NOBODY};
use std::any::Any;
use std::cell::UnsafeCell;
use std::fmt;
use std::future::Future;
use std::marker::PhantomData;
use std::panic::{catch_unwind, AssertUnwindSafe, Location};
use std::pin::Pin;
use std::ptr::NonNull;
use std::task::{Context, Poll, Waker};

/// State bit: the task has ended, and its output is stored.
const COMPLETE: u32 = 1;
/// State bit: the task's `JoinHandle` was not dropped.
const JOINED: u32 = 2;
/// State bit: `join_waker` has the handle's waker. While the bit is set, only the thread that ends the task reads it.
const WAITING: u32 = 4;
/// State bit: the thread that has ended the task won't access it any more, so that the last handle may free it.
const SETTLED: u32 = 8;
/// State bit: the task was aborted. The worker that takes it next must end it instead of polling it.
const ABORTED: u32 = 16;
/// State bit: an abort handle was made, so the thread that ends the task may access the task until it sets `SETTLED`.
const SHARED: u32 = 32;
/// The number to add to a task's state for one abort handle more: this bit and those above it count them.
const ONE: u32 = 64;
const HELD: u32 = JOINED | !(ONE - 1);

/// The value with which a task panicked; see `JoinError::Panicked`.
///
/// ```
/// let runtime = arachne::Runtime::new(1);
/// match runtime.block_on(runtime.spawn(async { panic!("on purpose") })) {
///     Err(arachne::JoinError::Panicked(panic)) => assert_eq!(panic.message(), Some("on purpose")),
///     other => unreachable!("{other:?}"),
/// }
/// ```
pub struct Panic(Box<dyn Any + Send>);
// SAFETY: a shared reference gives access only to the message, whose two types (`&str` and `String`) are `Sync`.
unsafe impl Sync for Panic {}

impl Panic {
    /// Returns the panic's message, if the payload is a string; see the example at `Panic`.
    #[must_use]
    pub fn message(&self) -> Option<&str> {
        self.0.downcast_ref::<&str>().copied().or(self.0.downcast_ref::<String>().map(|s| &**s))
    }

    /// Returns the panic's payload, for `std::panic::resume_unwind`; see `JoinError::into_panic`.
    #[must_use]
    pub fn into_inner(self) -> Box<dyn Any + Send> {
        self.0
    }
}

impl fmt::Debug for Panic {
    fn fmt(&self, f: &mut fmt::Formatter<'_>) -> fmt::Result {
        match self.message() {
            Some(message) => write!(f, "Panic({message:?})"),
            None => f.write_str("Panic(..)"),
        }
    }
}

/// The error of a task that has no output: it panicked, was aborted, or its runtime ended.
///
/// ```
/// let runtime = arachne::Runtime::new(1);
/// let error = runtime.block_on(runtime.spawn(async { panic!("on purpose") })).unwrap_err();
/// assert!(error.is_panic() && !error.is_cancelled());
/// assert_eq!(error.to_string(), "the task panicked: on purpose");
/// ```
#[non_exhaustive]
pub enum JoinError {
    /// The task panicked with this value.
    Panicked(Panic),
    /// The task was aborted by a handle.
    Aborted,
    /// The runtime ended before the task did.
    Cancelled,
}

impl JoinError {
    /// Returns true if the task panicked; see the example at `JoinError`.
    #[must_use]
    pub fn is_panic(&self) -> bool {
        matches!(self, JoinError::Panicked(_))
    }

    /// Returns true if the task was aborted, or if its runtime ended first; see the example at `JoinHandle`.
    #[must_use]
    pub fn is_cancelled(&self) -> bool {
        !self.is_panic()
    }

    /// Returns the panic's payload, for `std::panic::resume_unwind`.
    ///
    /// ```
    /// let runtime = arachne::Runtime::new(1);
    /// let error = runtime.block_on(runtime.spawn(async { panic!("on purpose") })).unwrap_err();
    /// assert_eq!(error.into_panic().downcast_ref::<&str>(), Some(&"on purpose"));
    /// ```
    ///
    /// # Panics
    /// Panics if the task didn't panic; see `try_into_panic`.
    #[must_use]
    #[track_caller]
    pub fn into_panic(self) -> Box<dyn Any + Send> {
        match self.try_into_panic() {
            Ok(payload) => payload,
            Err(error) => panic!("no panic: {error}"),
        }
    }

    /// Returns the panic's payload, or this error if the task didn't panic.
    ///
    /// ```
    /// let runtime = arachne::Runtime::new(1);
    /// let task = runtime.spawn(std::future::pending::<()>());
    /// task.abort();
    /// let error = runtime.block_on(task).unwrap_err().try_into_panic().unwrap_err();
    /// assert!(error.is_cancelled());
    /// ```
    pub fn try_into_panic(self) -> Result<Box<dyn Any + Send>, JoinError> {
        match self {
            JoinError::Panicked(panic) => Ok(panic.into_inner()),
            other => Err(other),
        }
    }

    fn message(&self) -> Option<&str> {
        match self {
            JoinError::Panicked(panic) => panic.message(),
            _ => None,
        }
    }
}

impl fmt::Debug for JoinError {
    fn fmt(&self, f: &mut fmt::Formatter<'_>) -> fmt::Result {
        match (self, self.message()) {
            (JoinError::Panicked(_), Some(message)) => write!(f, "Panicked({message:?})"),
            (JoinError::Panicked(_), None) => f.write_str("Panicked(..)"),
            (JoinError::Aborted, _) => f.write_str("Aborted"),
            (JoinError::Cancelled, _) => f.write_str("Cancelled"),
        }
    }
}

impl fmt::Display for JoinError {
    fn fmt(&self, f: &mut fmt::Formatter<'_>) -> fmt::Result {
        match (self, self.message()) {
            (JoinError::Panicked(_), Some(message)) => write!(f, "the task panicked: {message}"),
            (JoinError::Panicked(_), None) => f.write_str("the task panicked"),
            (JoinError::Aborted, _) => f.write_str("the task was aborted"),
            (JoinError::Cancelled, _) => f.write_str("the runtime ended before the task did"),
        }
    }
}

impl std::error::Error for JoinError {}

impl From<JoinError> for std::io::Error {
    fn from(error: JoinError) -> std::io::Error {
        std::io::Error::new(std::io::ErrorKind::Other, error)
    }
}

struct VTable {
    /// Polls the future. If the future is ready, stores its output in the task, and returns true.
    poll: unsafe fn(*mut Header, &mut Context<'_>) -> bool,
    cancel: unsafe fn(*mut Header, JoinError),
    take_output: unsafe fn(*mut Header, *mut ()),
    drop_output: unsafe fn(*mut Header),
    free: unsafe fn(*mut Header),
}

pub(crate) struct Header {
    state: AtomicU32,
    /// The number of the runtime that polls the task (its `Shared::table`); written before the first poll.
    table: AtomicU32,
    /// The task's identifier in its runtime, by which wakers wake it; written before the first poll.
    name: AtomicU64,
    vtable: &'static VTable,
    join_waker: UnsafeCell<Option<Waker>>,
    about: About,
}

/// Describes a task, for reports: which line of code spawned it, and its name if it has one.
///
/// ```
/// let task = arachne::Runtime::new(1).spawn_named("greeter", async {});
/// let about: arachne::About = task.about();
/// assert!(about.spawned.file().ends_with(".rs"));
/// assert!(about.to_string().starts_with("greeter ("));
/// ```
#[derive(Clone, Copy, PartialEq, Eq, Debug)]
#[non_exhaustive]
pub struct About {
    /// The line of code that spawned the task.
    pub spawned: &'static Location<'static>,
    /// The task's name, if it was given one.
    pub name: Option<&'static Label>,
}

/// A name that programs give to tasks, for reports. Equal names share one label, and a label is never freed.
///
/// ```
/// assert!(std::ptr::eq(arachne::Label::of("sweeper"), arachne::Label::of("sweeper")));
/// ```
#[derive(PartialEq, Eq, Debug)]
pub struct Label(String);

static LABELS: Mutex<Vec<&'static Label>> = Mutex::new(Vec::new());

impl Label {
    /// Returns the label with this text. The first call with a text makes its label; see the example at `Label`.
    pub fn of(text: &str) -> &'static Label {
        let mut labels = LABELS.lock().unwrap();
        if let Some(label) = labels.iter().find(|label| label.0 == text) {
            return label;
        }
        let label: &'static Label = Box::leak(Box::new(Label(text.to_string())));
        labels.push(label);
        label
    }

    /// Returns the label's text.
    ///
    /// ```
    /// assert_eq!(arachne::Label::of("sweeper").as_str(), "sweeper");
    /// ```
    #[must_use]
    pub fn as_str(&self) -> &str {
        &self.0
    }
}

impl fmt::Display for About {
    fn fmt(&self, f: &mut fmt::Formatter<'_>) -> fmt::Result {
        match self.name {
            Some(name) => write!(f, "{} ({})", name.0, self.spawned),
            None => write!(f, "task of {}", self.spawned),
        }
    }
}

enum Stage<F: Future> {
    Running(F),
    Done(Result<F::Output, JoinError>),
    Spent,
}

#[repr(C)]
struct Task<F: Future> {
    header: Header,
    stage: UnsafeCell<Stage<F>>,
}

/// A pointer to a task, as the 64-bit number that the proved core stores. It is invalid after the task has ended.
pub(crate) type Raw = u64;

pub(crate) fn new<F>(future: F, about: About) -> (Raw, JoinHandle<F::Output>)
where
    F: Future + Send + 'static,
    F::Output: Send + 'static,
{
    let task = Box::new(Task {
        header: Header {
            state: AtomicU32::new(JOINED),
            table: AtomicU32::new(0),
            name: AtomicU64::new(NOBODY),
            vtable: &VTable {
                poll: poll::<F>,
                cancel: cancel::<F>,
                take_output: take_output::<F>,
                drop_output: drop_output::<F>,
                free: free::<F>,
            },
            join_waker: UnsafeCell::new(None),
            about,
        },
        stage: UnsafeCell::new(Stage::Running(future)),
    });
    let at = NonNull::from(Box::leak(task)).cast::<Header>();
    (at.as_ptr() as usize as Raw, JoinHandle { at, of: PhantomData })
}

/// Frees a task that was never polled, and returns its future.
///
/// # Safety
/// The caller must pass the `raw` and the handle that one call of `new` returned, and nobody else may use them.
pub(crate) unsafe fn unmake<F: Future>(raw: Raw, handle: JoinHandle<F::Output>) -> F {
    std::mem::forget(handle);
    let task = Box::from_raw(at(raw).cast::<Task<F>>());
    match task.stage.into_inner() {
        Stage::Running(future) => future,
        _ => unreachable!("a task that has not begun has its future"),
    }
}

#[inline]
fn at(raw: Raw) -> *mut Header {
    raw as usize as *mut Header
}

/// Polls a task or, if it was aborted, ends it. Returns true if the task has ended; `raw` is then invalid.
///
/// # Safety
/// `raw` must be from `new`, and its task must not have ended. No other thread may poll or end it during the call.
#[inline]
pub(crate) unsafe fn run(raw: Raw, table: usize, name: u64, cx: &mut Context<'_>) -> bool {
    let header = at(raw);
    if (*header).name.load(Relaxed) == NOBODY {
        // The name must be written before the `ABORTED` bit is read: `abort` sets the bit before it reads the name.
        (*header).table.store(table as u32, Relaxed);
        (*header).name.store(name, SeqCst);
    }
    if (*header).state.load(SeqCst) & ABORTED != 0 {
        ((*header).vtable.cancel)(header, JoinError::Aborted);
    } else if !((*header).vtable.poll)(header, cx) {
        return false;
    }
    complete(header);
    true
}

/// Ends a task that has not ended, with the output `Cancelled`. The caller must not use `raw` again.
///
/// # Safety
/// The caller must fulfil the conditions of `run`.
pub(crate) unsafe fn end(raw: Raw) {
    let header = at(raw);
    ((*header).vtable.cancel)(header, JoinError::Cancelled);
    complete(header);
}

/// Returns the line of code that spawned the task, and the task's name.
///
/// # Safety
/// The caller must fulfil the conditions of `run`.
#[inline]
pub(crate) unsafe fn about(raw: Raw) -> About {
    (*at(raw)).about
}

/// Records that the task has ended, and wakes the task that waits for its output. Frees it if it has no handle any
/// more.
unsafe fn complete(header: *mut Header) {
    let before = (*header).state.fetch_or(COMPLETE, AcqRel);
    if before & HELD == 0 {
        ((*header).vtable.free)(header);
    } else if before & (WAITING | SHARED) != 0 {
        // The handle doesn't touch the waker while COMPLETE is set and SETTLED is not.
        let waker = if before & WAITING != 0 { (*(*header).join_waker.get()).take() } else { None };
        if let Some(waker) = waker {
            let _ = catch_unwind(AssertUnwindSafe(|| waker.wake()));
        }
        if before & JOINED == 0 {
            ((*header).vtable.drop_output)(header);
        }
        if (*header).state.fetch_or(SETTLED, AcqRel) & HELD == 0 {
            ((*header).vtable.free)(header);
        }
    }
    // If neither `WAITING` nor `SHARED` was set, the handle owns the task as soon as it sees COMPLETE, so the task must
    // not be accessed from here on.
}

/// Returns true if the task has ended, and the thread that ended it won't access it any more.
fn is_settled(state: u32) -> bool {
    state & COMPLETE != 0 && (state & (WAITING | SHARED) == 0 || state & SETTLED != 0)
}

fn abort(header: &Header) {
    header.state.fetch_or(ABORTED, SeqCst);
    let name = header.name.load(SeqCst);
    if name != NOBODY {
        wake_name(header.table.load(Relaxed) as usize, name);
    }
}

unsafe fn poll<F: Future>(header: *mut Header, cx: &mut Context<'_>) -> bool {
    let task = header.cast::<Task<F>>();
    let stage = (*task).stage.get();
    let polled = catch_unwind(AssertUnwindSafe(|| match &mut *stage {
        // SAFETY: the future stays in the task's box until it is dropped there.
        Stage::Running(future) => Pin::new_unchecked(future).poll(cx),
        _ => unreachable!("a task was polled after its end"),
    }));
    let output = match polled {
        Ok(Poll::Pending) => return false,
        Ok(Poll::Ready(output)) => Ok(output),
        Err(payload) => Err(JoinError::Panicked(Panic(payload))),
    };
    lay(stage, output);
    true
}

unsafe fn cancel<F: Future>(header: *mut Header, why: JoinError) {
    let task = header.cast::<Task<F>>();
    lay((*task).stage.get(), Err(why));
}

/// Drops the future, and stores `output` in its place. If `output` is Ok and the drop panics, stores that panic.
unsafe fn lay<F: Future>(stage: *mut Stage<F>, output: Result<F::Output, JoinError>) {
    let dropped = catch_unwind(AssertUnwindSafe(|| std::ptr::drop_in_place(stage)));
    let output = match (dropped, output) {
        (Err(payload), Ok(output)) => {
            let _ = catch_unwind(AssertUnwindSafe(|| drop(output)));
            Err(JoinError::Panicked(Panic(payload)))
        }
        (_, output) => output,
    };
    std::ptr::write(stage, Stage::Done(output));
}

unsafe fn take_output<F: Future>(header: *mut Header, to: *mut ()) {
    let task = header.cast::<Task<F>>();
    let stage = (*task).stage.get();
    match std::mem::replace(&mut *stage, Stage::Spent) {
        Stage::Done(output) => to.cast::<Poll<Result<F::Output, JoinError>>>().write(Poll::Ready(output)),
        _ => panic!("a task's handle was polled after it was ready"),
    }
}

unsafe fn drop_output<F: Future>(header: *mut Header) {
    let task = header.cast::<Task<F>>();
    let output = std::mem::replace(&mut *(*task).stage.get(), Stage::Spent);
    let _ = catch_unwind(AssertUnwindSafe(|| drop(output)));
}

unsafe fn free<F: Future>(header: *mut Header) {
    let task = Box::from_raw(header.cast::<Task<F>>());
    let _ = catch_unwind(AssertUnwindSafe(|| drop(task)));
}

/// A handle on a task, which is also the future of the task's output. Dropping the handle leaves the task running.
///
/// Panics if it is polled again after it was ready.
///
/// ```
/// let runtime = arachne::Runtime::new(2);
/// let (ends, waits) = (runtime.spawn(async { 42 }), runtime.spawn(std::future::pending::<()>()));
/// assert_eq!(runtime.block_on(ends).unwrap(), 42);
/// waits.abort();
/// assert!(runtime.block_on(waits).unwrap_err().is_cancelled());
/// ```
pub struct JoinHandle<T> {
    at: NonNull<Header>,
    of: PhantomData<T>,
}
// SAFETY: only the thread that has the handle reads or drops the output. All other accesses to the task are atomic.
unsafe impl<T: Send> Send for JoinHandle<T> {}
// SAFETY: a shared handle gives only atomic access.
unsafe impl<T: Send> Sync for JoinHandle<T> {}
impl<T> Unpin for JoinHandle<T> {}

impl<T> fmt::Debug for JoinHandle<T> {
    fn fmt(&self, f: &mut fmt::Formatter<'_>) -> fmt::Result {
        write!(f, "JoinHandle({})", self.about())
    }
}

impl<T> JoinHandle<T> {
    #[inline]
    fn header(&self) -> &Header {
        // SAFETY: a task with a handle is not freed.
        unsafe { self.at.as_ref() }
    }

    /// Returns true once the task has ended.
    ///
    /// ```
    /// let runtime = arachne::Runtime::new(1);
    /// let task = runtime.spawn(async { 42 });
    /// while !task.is_finished() {
    ///     std::thread::yield_now();
    /// }
    /// assert_eq!(runtime.block_on(task).unwrap(), 42);        // without waiting
    /// ```
    #[must_use]
    pub fn is_finished(&self) -> bool {
        self.header().state.load(Acquire) & COMPLETE != 0
    }

    /// Aborts the task: the worker that takes it next drops its future, and its output is `JoinError::Aborted`.
    ///
    /// A task that ends before a worker takes it again keeps its output. See the example at `JoinHandle`.
    pub fn abort(&self) {
        abort(self.header());
    }

    /// Returns a handle that can abort the task but not get its output; see the example at `AbortHandle`.
    #[must_use]
    pub fn abort_handle(&self) -> AbortHandle {
        let share = |state| (state & COMPLETE == 0).then_some((state | SHARED) + ONE);
        match self.header().state.fetch_update(AcqRel, Acquire, share) {
            Ok(before) if before > u32::MAX / 2 => std::process::abort(),
            Ok(_) => AbortHandle(Some(self.at)),
            // The task has ended: there is nothing to abort.
            Err(_) => AbortHandle(None),
        }
    }

    /// Returns the line that spawned the task, and the task's name; see the example at `About`.
    #[must_use]
    pub fn about(&self) -> About {
        self.header().about
    }
}

impl<T> JoinHandle<T> {
    /// Returns true if the task has ended. Otherwise stores `waker`, which is woken when the task ends, and returns
    /// false.
    pub(crate) fn is_there(&mut self, waker: &Waker) -> bool {
        let header = self.header();
        let mut state = header.state.load(Acquire);
        if state & (COMPLETE | WAITING) == WAITING {
            // The old waker must be claimed back before it is replaced, unless the task ends first and uses it.
            state = header.state.fetch_and(!WAITING, AcqRel);
            if state & COMPLETE != 0 {
                header.state.fetch_or(WAITING, AcqRel);
            }
        }
        if state & COMPLETE == 0 {
            let place = header.join_waker.get();
            // SAFETY: WAITING is clear, and COMPLETE was clear after that, so only the handle uses the waker.
            unsafe {
                if !matches!(&*place, Some(old) if old.will_wake(waker)) {
                    *place = Some(waker.clone());
                }
            }
            if header.state.fetch_or(WAITING, AcqRel) & COMPLETE == 0 {
                return false;
            }
            // The task ended before WAITING was set, so nobody else reads the waker.
            header.state.fetch_and(!WAITING, AcqRel);
        }
        true
    }

    fn take(&mut self) -> Poll<Result<T, JoinError>> {
        let mut output: Poll<Result<T, JoinError>> = Poll::Pending;
        let to: *mut Poll<Result<T, JoinError>> = &mut output;
        // SAFETY: the output is stored, and has this type. Only the handle takes it.
        unsafe { (self.header().vtable.take_output)(self.at.as_ptr(), to.cast()) };
        output
    }

    pub(crate) fn output(mut self) -> Option<Result<T, JoinError>> {
        match self.is_finished().then(|| self.take())? {
            Poll::Ready(output) => Some(output),
            Poll::Pending => None,
        }
    }
}

impl<T> Future for JoinHandle<T> {
    type Output = Result<T, JoinError>;
    fn poll(mut self: Pin<&mut Self>, cx: &mut Context<'_>) -> Poll<Self::Output> {
        if self.is_there(cx.waker()) {
            self.take()
        } else {
            Poll::Pending
        }
    }
}

impl<T> Drop for JoinHandle<T> {
    fn drop(&mut self) {
        let header = self.header();
        if header.state.load(Relaxed) & SHARED != 0 {
            // If the task has ended, this handle must drop the output. Otherwise the thread that ends the task does so.
            let leave = |state| (state & COMPLETE == 0).then_some(state & !JOINED);
            if header.state.fetch_update(AcqRel, Acquire, leave).is_ok() {
                return;
            }
            // SAFETY: the output is stored, and nobody else takes it.
            unsafe { (header.vtable.drop_output)(self.at.as_ptr()) };
        }
        // If the task isn't ended and SETTLED, the thread that ends it or an abort handle will free it.
        let before = header.state.fetch_and(!JOINED, AcqRel);
        if before & HELD == JOINED && is_settled(before) {
            // SAFETY: the thread that ended the task no longer accesses it, and the handles are gone.
            unsafe { (header.vtable.free)(self.at.as_ptr()) };
        }
    }
}

/// A handle that can abort a task but not get its output; from `JoinHandle::abort_handle` or `JoinSet::spawn`.
///
/// ```
/// let runtime = arachne::Runtime::new(1);
/// let task = runtime.spawn(std::future::pending::<()>());
/// let handle = task.abort_handle();
/// handle.abort();
/// assert!(runtime.block_on(task).unwrap_err().is_cancelled());
/// assert!(handle.is_finished());
/// ```
pub struct AbortHandle(Option<NonNull<Header>>);
// SAFETY: the handle gives only atomic access. The last handle frees the task, whose output is `Send`.
unsafe impl Send for AbortHandle {}
// SAFETY: the same.
unsafe impl Sync for AbortHandle {}

impl AbortHandle {
    fn header(&self) -> Option<&Header> {
        // SAFETY: a task with an abort handle is not freed.
        self.0.map(|at| unsafe { &*at.as_ptr() })
    }

    /// Aborts the task, as `JoinHandle::abort` does; see the example at `AbortHandle`.
    pub fn abort(&self) {
        if let Some(header) = self.header() {
            abort(header);
        }
    }

    /// Returns true once the task has ended; see the example at `AbortHandle`.
    #[must_use]
    pub fn is_finished(&self) -> bool {
        self.header().map_or(true, |header| header.state.load(Acquire) & COMPLETE != 0)
    }
}

impl Clone for AbortHandle {
    fn clone(&self) -> AbortHandle {
        if let Some(header) = self.header() {
            // As in `Arc`: the count can get this high only if handles are leaked.
            if header.state.fetch_add(ONE, Relaxed) > u32::MAX / 2 {
                std::process::abort();
            }
        }
        AbortHandle(self.0)
    }
}

impl Drop for AbortHandle {
    fn drop(&mut self) {
        if let (Some(at), Some(header)) = (self.0, self.header()) {
            let before = header.state.fetch_sub(ONE, AcqRel);
            if before & HELD == ONE && is_settled(before) {
                // SAFETY: the thread that ended the task no longer accesses it, and the handles are gone.
                unsafe { (header.vtable.free)(at.as_ptr()) };
            }
        }
    }
}

impl fmt::Debug for AbortHandle {
    fn fmt(&self, f: &mut fmt::Formatter<'_>) -> fmt::Result {
        f.debug_struct("AbortHandle").field("is_finished", &self.is_finished()).finish()
    }
}
