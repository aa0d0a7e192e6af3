//! The client of an arbiter, the daemon in `rust/arbiter` that grants whole processors (*cores*) to processes.
//!
//! The first worker runs with or without a core. Each other worker waits, on a connection of its own, until the arbiter
//! grants it a core. It gives the core back by waiting again. The arbiter writes the number of cores that the runtime
//! may have to a page of shared memory. Each worker that checks for events reads the page, and makes workers wait if
//! more than that number run tasks. While all workers sleep, the arbiter sends a message instead, to the thread that
//! reads the control connection. Without an arbiter, the policy decides how many workers may run tasks (are *active*).

use crate::shared::{Context, Shared};
use crate::sync::atomic::{AtomicBool, AtomicPtr, AtomicU32, AtomicUsize, Ordering::*};
use crate::sync::{thread, Arc, Condvar, Mutex, MutexGuard};
use crate::sys;
use crate::worker::{Ends, Turn};
use std::fs::File;
use std::io::{self, Read, Write};
use std::net::Shutdown;
use std::os::unix::io::AsRawFd;
use std::os::unix::net::UnixStream;
use std::path::PathBuf;
use std::time::Duration;

/// The size of a message in bytes. The constants below are the kinds of messages, as in `rust/arbiter/src/protocol.rs`.
const SIZE: usize = 16;
const VERSION: u32 = 1;
const HELLO: u32 = 1;
const JOIN: u32 = 2;
const WAIT: u32 = 3;
const ASK: u32 = 4;
const WELCOME: u32 = 5;
const GRANT: u32 = 6;
const ALLOWED: u32 = 7;
const REFUSED: u32 = 8;

/// Without an arbiter, a runtime tries to connect again after `AGAIN`; if it was refused, after `REFUSED_AGAIN`.
const AGAIN: Duration = Duration::from_secs(1);
const REFUSED_AGAIN: Duration = Duration::from_secs(30);
/// A worker whose wait for a core failed, or that can't use the granted core yet, asks again after this time.
const SOON: Duration = Duration::from_millis(1);

#[derive(Clone, Debug)]
pub(crate) struct Wish {
    pub(crate) path: PathBuf,
    pub(crate) priority: u8,
    pub(crate) reserved: usize,
}

#[derive(Default)]
pub(crate) struct Client {
    /// A shared page, to which the arbiter writes how many cores this runtime may have. It is never unmapped.
    page: AtomicPtr<AtomicU32>,
    /// True while the runtime is connected to an arbiter, which grants its cores. Guarded by the lock `order`.
    up: AtomicBool,
    asked: AtomicUsize,
    /// A thread must lock this before it changes how many workers may run tasks.
    order: Mutex<()>,
    state: Mutex<State>,
    changed: Condvar,
}

#[derive(Default)]
struct State {
    closed: bool,
    refused: bool,
    /// The runtime's control connection to the arbiter, and then a connection for each worker.
    streams: Vec<Arc<UnixStream>>,
    /// For each worker, the id of its kernel thread; 0 until that thread runs.
    threads: Vec<u32>,
    /// The eventfd by which `Client::call` wakes the second worker while it waits for a core.
    call: Option<File>,
    cpus: Vec<usize>,
    pins: bool,
}

fn send(mut stream: &UnixStream, words: [u32; 4]) -> io::Result<()> {
    let mut bytes = [0; SIZE];
    bytes.chunks_exact_mut(4).zip(words).for_each(|(chunk, word)| chunk.copy_from_slice(&word.to_le_bytes()));
    stream.write_all(&bytes)
}

fn words_of(bytes: &[u8; SIZE]) -> [u32; 4] {
    let word = |at: usize| u32::from_le_bytes([bytes[at], bytes[at + 1], bytes[at + 2], bytes[at + 3]]);
    [word(0), word(4), word(8), word(12)]
}

fn receive(mut stream: &UnixStream) -> io::Result<[u32; 4]> {
    let mut bytes = [0; SIZE];
    stream.read_exact(&mut bytes)?;
    Ok(words_of(&bytes))
}

impl Client {
    pub(crate) fn reset(&self) {
        *self.state.lock().unwrap() = State::default();
    }

    /// Prepares for a connection to the arbiter. Fails if the system refuses a descriptor.
    pub(crate) fn open(&self, workers: usize) -> io::Result<()> {
        let mut state = self.state.lock().unwrap();
        (state.threads, state.cpus) = (vec![0; workers], sys::affinity());
        state.call = Some(sys::new_event_file()?);
        Ok(())
    }

    fn waits(&self, stream: &UnixStream, nanos: u64) -> Ends {
        let call = self.state.lock().unwrap().call.as_ref().map_or(-1, |call| call.as_raw_fd());
        match sys::readable([stream.as_raw_fd(), call], nanos) {
            [true, _] => Ends::Core,
            [_, true] => {
                sys::lower(call);
                Ends::Call
            }
            _ => Ends::Time,
        }
    }

    /// Wakes the second worker if it waits for a core. While only the first worker may run tasks, the second, once
    /// woken, runs the tasks that wait because the first stays in one poll.
    pub(crate) fn call(&self) {
        if let Some(call) = &self.state.lock().unwrap().call {
            sys::raise(call.as_raw_fd());
        }
    }

    #[inline]
    pub(crate) fn is_up(&self) -> bool {
        self.up.load(Acquire)
    }

    /// Returns the number of cores that the arbiter allows this runtime; `usize::MAX` without an arbiter.
    #[inline]
    pub(crate) fn limit(&self) -> usize {
        if !self.is_up() {
            return usize::MAX;
        }
        // SAFETY: a page is mapped before an arbiter is up, and never unmapped.
        unsafe { (*self.page.load(Relaxed)).load(Relaxed) as usize }
    }

    pub(crate) fn names(&self, worker: usize) {
        self.state.lock().unwrap().threads[worker] = sys::thread_number().unwrap_or(u32::MAX);
        self.changed.notify_all();
    }

    /// Lets the calling thread, which was started by a worker on the worker's processor, run on any processor.
    pub(crate) fn unpin(&self) {
        let state = self.state.lock().unwrap();
        if state.pins {
            sys::set_affinity(0, &state.cpus);
        }
    }

    /// Asks the arbiter for `cores` cores in all. Returns false, and sends nothing, if the last request was for as
    /// many.
    fn ask(&self, cores: usize) -> bool {
        if self.asked.swap(cores, SeqCst) == cores {
            return false;
        }
        let control = self.state.lock().unwrap().streams.first().cloned();
        if !control.map_or(false, |control| send(&control, [ASK, cores as u32, 0, 0]).is_ok()) {
            // The connection's buffer is full, or the arbiter is gone, as the thread that reads it will notice.
            self.asked.store(usize::MAX, SeqCst);
        }
        true
    }

    fn connect(&self, wish: &Wish) -> io::Result<Arc<UnixStream>> {
        let stream = Arc::new(UnixStream::connect(&wish.path)?);
        let mut state = self.state.lock().unwrap();
        if state.closed {
            return Err(io::ErrorKind::ConnectionAborted.into());
        }
        state.streams.push(stream.clone());
        Ok(stream)
    }

    /// Closes all connections, so that the arbiter forgets this runtime.
    fn hang_up(&self, refused: bool) {
        let mut state = self.state.lock().unwrap();
        state.refused |= refused;
        state.streams.iter().for_each(|stream| drop(stream.shutdown(Shutdown::Both)));
    }

    pub(crate) fn close(&self) {
        self.state.lock().unwrap().closed = true;
        self.hang_up(false);
        self.changed.notify_all();
    }
}

impl Shared {
    /// Asks the arbiter for `cores` cores in all, and lets only that many workers run tasks. Returns true if this
    /// changes the number of these workers or of the cores asked for.
    pub(crate) fn want(&self, cores: usize) -> bool {
        // Another thread has the lock, and is changing the number of active workers.
        let _order = match self.arbiter.order.try_lock() {
            Ok(order) => order,
            Err(_) => return false,
        };
        let (up, active) = (self.arbiter.is_up(), self.active.0.load(SeqCst));
        let asks = up && self.arbiter.ask(cores);
        if cores < active || cores > active && !up {
            self.set_active(cores);
            return true;
        }
        asks
    }

    fn obey(&self, _order: &MutexGuard<()>, allowed: usize) {
        if self.arbiter.is_up() && allowed.max(1) < self.active.0.load(SeqCst) {
            self.set_active(allowed.max(1));
        }
    }

    /// Lets fewer workers run tasks if the arbiter wants cores back. Returns true if the worker `me` must now stop.
    pub(crate) fn is_asked_back(&self, me: usize) -> bool {
        let active = self.active.0.load(Relaxed);
        if active > 1 && self.arbiter.limit() < active {
            // A thread that has the lock reads the page too, or this worker reads it again at its next check.
            if let Ok(order) = self.arbiter.order.try_lock() {
                self.obey(&order, self.arbiter.limit());
            }
        }
        me >= self.active.0.load(Relaxed)
    }

    /// Gives this worker's core back, and waits until the arbiter grants one or has closed the connection.
    #[cold]
    pub(crate) fn wait_for_core(&self, context: &Context, turn: &mut Turn) {
        let me = context.me;
        let stream = match self.arbiter.state.lock().unwrap().streams.get(me + 1) {
            Some(stream) => stream.clone(),
            None => return,
        };
        let heard = send(&stream, [WAIT, 0, 0, 0]).and_then(|()| {
            if me == 1 {
                self.cover(context, turn, |rests| self.arbiter.waits(&stream, rests));
            }
            receive(&stream)
        });
        if !matches!(heard, Ok([GRANT, ..])) {
            // The arbiter no longer knows this thread, so the runtime ends all its connections.
            self.arbiter.hang_up(matches!(heard, Ok([REFUSED, ..])));
            return thread::sleep(SOON);
        }
        let order = self.arbiter.order.lock().unwrap();
        let active = self.active.0.load(SeqCst);
        if me == active && me < self.arbiter.limit() {
            self.set_active(me + 1);
        } else if me >= active {
            // The arbiter has asked for this core again, or a worker with a lower number has lost its core and is still
            // in a poll. Then this worker must wait, because only the workers with the lowest numbers may be active.
            drop(order);
            thread::sleep(SOON);
        }
    }

    /// Runs the thread that reads the control connection to the arbiter, and that at first asks for `first` cores.
    pub(crate) fn run_arbiter(&'static self, wish: Wish, first: usize, follows: bool) {
        sys::ask_for_slices(100_000);
        let (mut first, mut told) = (Some(first), false);
        loop {
            let met = self.meet(&wish, first.take());
            if let Ok(control) = &met {
                while let Ok([ALLOWED, allowed, ..]) = receive(control) {
                    // The number in the message counts. That on the page may have grown since, but a worker in a poll
                    // may have lost its core, and must wait for a new one.
                    let order = self.arbiter.order.lock().unwrap();
                    self.obey(&order, allowed as usize);
                }
            }
            let refused = self.part(follows) || met.map_or_else(|error| is_refused(&error), |_| false);
            if refused && !std::mem::replace(&mut told, true) {
                eprintln!("arachne: the arbiter at {} refuses this runtime", wish.path.display());
            }
            let (state, again) = (self.arbiter.state.lock().unwrap(), if refused { REFUSED_AGAIN } else { AGAIN });
            let state = self.arbiter.changed.wait_timeout_while(state, again, |state| !state.closed).unwrap().0;
            if state.closed {
                return;
            }
        }
    }

    /// Connects the runtime and each worker to the arbiter, and asks for `first` cores. If that is None, asks for one
    /// for each worker that is active now (may run tasks).
    fn meet(&self, wish: &Wish, first: Option<usize>) -> io::Result<Arc<UnixStream>> {
        let client = &self.arbiter;
        let state = client.state.lock().unwrap();
        let begins = |state: &mut State| !state.closed && state.threads.contains(&0);
        let threads = client.changed.wait_while(state, begins).unwrap().threads.clone();
        let control = client.connect(wish)?;
        control.set_write_timeout(Some(SOON))?;
        send(&control, [HELLO, VERSION, wish.priority as u32, (wish.reserved as u32) << 16 | threads.len() as u32])?;
        let (bytes, page) = sys::receive_with(control.as_raw_fd())?;
        let words = words_of(&bytes);
        let page = match (words[0], page) {
            (WELCOME, Some(page)) => page,
            _ => return Err(io::ErrorKind::PermissionDenied.into()),
        };
        client.page.store(sys::map_page(&page, client.page.load(SeqCst))?, SeqCst);
        client.state.lock().unwrap().pins = words[3] == 0;
        for (worker, &thread) in threads.iter().enumerate() {
            let floats = (worker == 0) as u32;
            send(&*client.connect(wish)?, [JOIN, words[1], thread, (worker as u32) << 1 | floats])?;
        }
        let _order = client.order.lock().unwrap();
        let first = first.unwrap_or_else(|| self.active.0.load(SeqCst));
        client.up.store(true, SeqCst);
        self.set_active(1);
        client.asked.store(usize::MAX, SeqCst);
        client.ask(first);
        Ok(control)
    }

    /// Closes all connections to the arbiter, and lets workers run on all processors again. Returns true if the arbiter
    /// has refused one of them.
    fn part(&self, follows: bool) -> bool {
        let _order = self.arbiter.order.lock().unwrap();
        let was_up = self.arbiter.up.swap(false, SeqCst);
        let mut state = self.arbiter.state.lock().unwrap();
        state.streams.drain(..).for_each(|stream| drop(stream.shutdown(Shutdown::Both)));
        let refused = std::mem::take(&mut state.refused);
        // A worker ends only after `closed` is set, so until then its thread id is not that of another thread.
        if was_up && !state.closed && state.pins {
            for &thread in &state.threads {
                // If the system refuses this, the thread stays on its one processor.
                let _ = sys::set_affinity(thread, &state.cpus);
            }
        }
        drop(state);
        if was_up && !self.stop.load(SeqCst) {
            // Without the arbiter, only the policy makes workers wait: those beyond the number that it wants.
            let active = if follows { self.active.0.load(SeqCst) } else { self.workers.len() };
            self.set_active(active);
        }
        refused
    }
}

fn is_refused(error: &io::Error) -> bool {
    error.kind() == io::ErrorKind::PermissionDenied
}
