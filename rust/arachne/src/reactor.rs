//! The epoll of a runtime, which reports the events of its sockets. A worker can sleep in the epoll until it is woken.
//!
//! Only one worker at a time waits in the epoll. This worker asks only for as many events as its local queues have room
//! for (`asks` in worker.rs). All other events stay in the kernel, so that they aren't delayed if this worker loses its
//! processor. If there may be more events, the worker wakes a sleeping worker. A worker with ready tasks polls the
//! epoll too, and makes the tasks that it wakes ready in their task slots, unless only one worker is active.

use crate::sync::atomic::{AtomicU64, AtomicUsize, Ordering::*};
use crate::sync::{Arc, Condvar, Mutex};
use crate::sys::{self, Event};
use crate::waker::{name_in, wake_name, NOBODY};
use std::io;
use std::os::unix::io::RawFd;
use std::task::Waker;
use std::time::Duration;

pub(crate) const READ: u64 = 1;
pub(crate) const WRITE: u64 = 2;
pub(crate) const READ_CLOSED: u64 = 4;
pub(crate) const WRITE_CLOSED: u64 = 8;
const TICK: u64 = 256;
/// Stored in place of a task's identifier if a waker isn't that of a task of this runtime.
const OTHER: u64 = NOBODY - 1;
/// The epoll key of the eventfd that ends a wait.
const WOKEN: u64 = 0;
pub(crate) const EVENTS: usize = 64;

/// Room for one waker, which an event calls. For a task of this runtime, only its identifier is stored, without a lock.
pub(crate) struct Slot {
    table: usize,
    name: AtomicU64,
    other: Mutex<Option<Waker>>,
}

impl Slot {
    pub(crate) fn new(table: usize) -> Slot {
        Slot { table, name: AtomicU64::new(NOBODY), other: Mutex::new(None) }
    }

    #[inline]
    pub(crate) fn set(&self, waker: &Waker) {
        match name_in(waker, self.table) {
            Some(name) => {
                self.name.swap(name, SeqCst);
            }
            None => {
                *self.other.lock().unwrap() = Some(waker.clone());
                self.name.swap(OTHER, SeqCst);
            }
        }
    }

    #[inline]
    pub(crate) fn wake(&self) {
        if self.name.load(SeqCst) != NOBODY {
            self.wake_it();
        }
    }

    fn wake_it(&self) {
        match self.name.swap(NOBODY, SeqCst) {
            NOBODY => {}
            OTHER => {
                let waker = self.other.lock().unwrap().take();
                if let Some(waker) = waker {
                    waker.wake();
                }
            }
            name => wake_name(self.table, name),
        }
    }
}

/// The readiness of a descriptor, and the wakers of the tasks that wait for it. The bits above the lowest eight count
/// the events, so that no readiness bit is cleared after a newer event.
pub(crate) struct Io {
    pub(crate) state: AtomicU64,
    /// The waker of the last `poll_` call that reads; each call replaces it.
    pub(crate) reader: Slot,
    pub(crate) writer: Slot,
    pub(crate) readers: Waiters,
    pub(crate) writers: Waiters,
}

/// The futures that wait to read a descriptor, or those that wait to write it. An event wakes them all.
pub(crate) struct Waiters {
    table: usize,
    /// The identifier of one waiting task of this runtime, stored without a lock. The identifier stays there if the
    /// task stops waiting.
    first: AtomicU64,
    count: AtomicUsize,
    /// The key that the next waker gets, and the wakers of the other futures with their keys.
    others: Mutex<(u64, Vec<(u64, Waker)>)>,
}

impl Waiters {
    fn new(table: usize) -> Waiters {
        Waiters { table, first: AtomicU64::new(NOBODY), count: AtomicUsize::new(0), others: Mutex::default() }
    }

    /// Registers a future's waker. `key` must be 0 at first, and later the value that the last call has left in it. The
    /// caller must then read the descriptor's state, because an event changes the state before it wakes the futures.
    #[inline]
    pub(crate) fn join(&self, key: &mut u64, waker: &Waker) {
        if *key == 0 {
            if let Some(name) = name_in(waker, self.table) {
                match self.first.compare_exchange(NOBODY, name, SeqCst, SeqCst) {
                    Ok(_) => return,
                    Err(first) if first == name => return,
                    Err(_) => {}
                }
            }
        }
        self.join_others(key, waker);
    }

    #[inline(never)]
    fn join_others(&self, key: &mut u64, waker: &Waker) {
        let mut others = self.others.lock().unwrap();
        let (made, waiting) = &mut *others;
        if let Some((_, old)) = waiting.iter_mut().find(|(of, _)| *of == *key) {
            if !old.will_wake(waker) {
                let old = std::mem::replace(old, waker.clone());
                // Dropped after the lock is released: the drop of a waker may drop a future that calls `leave`.
                drop(others);
                drop(old);
            }
            return;
        }
        *made += 1;
        *key = *made;
        waiting.push((*made, waker.clone()));
        self.count.store(waiting.len(), SeqCst);
    }

    pub(crate) fn leave(&self, key: u64) {
        let mut others = self.others.lock().unwrap();
        let left = others.1.iter().position(|(of, _)| *of == key).map(|at| others.1.swap_remove(at));
        self.count.store(others.1.len(), SeqCst);
        drop(others);
        drop(left);
    }

    #[inline]
    fn wake(&self) {
        if self.first.load(SeqCst) != NOBODY {
            match self.first.swap(NOBODY, SeqCst) {
                NOBODY => {}
                name => wake_name(self.table, name),
            }
        }
        if self.count.load(SeqCst) != 0 {
            self.wake_others();
        }
    }

    #[inline(never)]
    fn wake_others(&self) {
        let mut others = self.others.lock().unwrap();
        let waiting = std::mem::take(&mut others.1);
        self.count.store(0, SeqCst);
        drop(others);
        waiting.into_iter().for_each(|(_, waker)| waker.wake());
    }
}

impl Io {
    fn new(table: usize) -> Io {
        Io {
            state: AtomicU64::new(0),
            reader: Slot::new(table),
            writer: Slot::new(table),
            readers: Waiters::new(table),
            writers: Waiters::new(table),
        }
    }

    /// Clears `bits` in the state, unless an event came after the state was read as `seen`.
    #[inline]
    pub(crate) fn clear(&self, seen: u64, bits: u64) -> u64 {
        match self.state.compare_exchange(seen, seen & !bits, SeqCst, SeqCst) {
            Ok(_) => seen & !bits,
            Err(now) => now,
        }
    }

    #[inline]
    fn tell(&self, events: u32) {
        let mut bits = 0;
        if events & (sys::IN | sys::RDHUP | sys::HUP | sys::ERR) != 0 {
            bits |= READ;
        }
        if events & (sys::RDHUP | sys::HUP | sys::ERR) != 0 {
            bits |= READ_CLOSED;
        }
        if events & (sys::OUT | sys::HUP | sys::ERR) != 0 {
            bits |= WRITE;
        }
        if events & (sys::HUP | sys::ERR) != 0 {
            bits |= WRITE_CLOSED;
        }
        let _ = self.state.fetch_update(SeqCst, SeqCst, |state| Some((state | bits).wrapping_add(TICK)));
        if bits & READ != 0 {
            self.reader.wake();
            self.readers.wake();
        }
        if bits & WRITE != 0 {
            self.writer.wake();
            self.writers.wake();
        }
    }
}

/// A removed descriptor's key isn't used again, so a late event finds nothing.
#[derive(Default)]
struct Sources {
    all: Vec<(u32, Option<Arc<Io>>)>,
    free: Vec<u32>,
}

/// The events that one call of epoll_wait has returned; `asked` is the most that it could return.
pub(crate) struct Found {
    events: [Event; EVENTS],
    count: usize,
    asked: usize,
}

impl Found {
    pub(crate) const NOTHING: Found = Found { events: [Event { events: 0, data: 0 }; EVENTS], count: 0, asked: EVENTS };

    fn of(epoll: RawFd, timeout: i32, most: usize) -> Found {
        let mut found = Found { asked: most.clamp(1, EVENTS), ..Found::NOTHING };
        found.count = sys::wait(epoll, &mut found.events[..found.asked], timeout);
        found
    }

    pub(crate) fn is_full(&self) -> bool {
        self.count == self.asked
    }

    pub(crate) fn is_empty(&self) -> bool {
        self.count == 0
    }
}

pub(crate) struct Reactor {
    epoll: RawFd,
    /// The eventfd by which `notify` ends a wait in the epoll. The eventfd stays raised until a worker has seen it.
    event: RawFd,
    used: AtomicUsize,
    sources: Mutex<Sources>,
}

/// The key of a descriptor: an index, and how many earlier descriptors had that index.
#[derive(Clone, Copy)]
pub(crate) struct Key(u64);

impl Reactor {
    pub(crate) fn new() -> io::Result<Reactor> {
        let (epoll, event) = (sys::new_epoll()?, sys::new_event()?);
        sys::watch(epoll, event, sys::IN, WOKEN)?;
        Ok(Reactor { epoll, event, used: AtomicUsize::new(0), sources: Mutex::default() })
    }

    #[inline]
    pub(crate) fn is_used(&self) -> bool {
        self.used.load(Relaxed) != 0
    }

    /// Wakes the worker that waits in this epoll. If no worker waits, the next wait ends at once.
    pub(crate) fn notify(&self) {
        sys::raise(self.event);
    }

    pub(crate) fn add(&self, fd: RawFd, table: usize) -> io::Result<(Arc<Io>, Key)> {
        let io = Arc::new(Io::new(table));
        let key = {
            let mut sources = self.sources.lock().unwrap();
            let at = sources.free.pop().unwrap_or(sources.all.len() as u32) as usize;
            if at == sources.all.len() {
                sources.all.push((0, None));
            }
            sources.all[at].1 = Some(io.clone());
            Key((sources.all[at].0 as u64) << 32 | (at as u64 + 1))
        };
        if let Err(error) = sys::watch(self.epoll, fd, sys::IN | sys::OUT | sys::RDHUP | sys::EDGE, key.0) {
            self.forget(key);
            return Err(error);
        }
        self.used.fetch_add(1, Relaxed);
        Ok((io, key))
    }

    #[cfg(feature = "explore")]
    pub(crate) fn close(&self) {
        [self.epoll, self.event].into_iter().for_each(sys::close_fd);
    }

    fn forget(&self, key: Key) {
        let mut sources = self.sources.lock().unwrap();
        let at = (key.0 as u32 - 1) as usize;
        sources.all[at].0 = sources.all[at].0.wrapping_add(1) & 0x7fff_ffff;
        sources.all[at].1 = None;
        sources.free.push(at as u32);
    }

    pub(crate) fn remove(&self, fd: RawFd, key: Key) {
        sys::unwatch(self.epoll, fd);
        self.used.fetch_sub(1, Relaxed);
        self.forget(key);
    }

    fn find(&self, data: u64) -> Option<Arc<Io>> {
        let sources = self.sources.lock().unwrap();
        let (uses, io) = sources.all.get(data as u32 as usize - 1)?;
        io.as_ref().filter(|_| *uses as u64 == data >> 32).cloned()
    }

    /// Wakes all tasks that wait for a descriptor of this reactor, although there was no event.
    pub(crate) fn wake_all(&self) {
        let sources: Vec<_> = self.sources.lock().unwrap().all.iter().filter_map(|(_, io)| io.clone()).collect();
        for io in sources {
            [&io.reader, &io.writer].into_iter().for_each(Slot::wake);
            [&io.readers, &io.writers].into_iter().for_each(Waiters::wake);
        }
    }

    /// Returns at most `most` of the events that have occurred, without waiting.
    pub(crate) fn look(&self, most: usize) -> Found {
        Found::of(self.epoll, 0, most)
    }

    /// Waits for events or for `notify`, for at most `timeout` milliseconds (-1: for ever). Only one worker at a time
    /// may wait. If more than `most` events have occurred, `notify` may end the next wait, too.
    pub(crate) fn wait(&self, timeout: i32, most: usize) -> Found {
        let found = Found::of(self.epoll, timeout, most);
        if found.events[..found.count].iter().any(|event| event.data == WOKEN) {
            sys::lower(self.event);
        }
        found
    }

    /// Wakes the tasks that wait for the events `found`.
    pub(crate) fn tell(&self, found: &Found) -> usize {
        let sockets = found.events[..found.count].iter().filter(|event| event.data != WOKEN);
        sockets
            .filter_map(|event| {
                let (data, bits) = (event.data, event.events);
                self.find(data).map(|io| io.tell(bits))
            })
            .count()
    }
}

#[derive(Default)]
pub(crate) struct Bell {
    rung: Mutex<bool>,
    heard: Condvar,
}

impl Bell {
    /// Wakes the worker that sleeps on this bell. If no worker sleeps, the next sleep ends at once.
    pub(crate) fn ring(&self) {
        *self.rung.lock().unwrap() = true;
        self.heard.notify_one();
    }

    /// Returns true if the bell was rung since the last wait.
    pub(crate) fn wait(&self, timeout: i32) -> bool {
        let rung = self.rung.lock().unwrap();
        let silent = |rung: &mut bool| !*rung;
        let mut rung = match u64::try_from(timeout) {
            Ok(millis) => self.heard.wait_timeout_while(rung, Duration::from_millis(millis), silent).unwrap().0,
            Err(_) => self.heard.wait_while(rung, silent).unwrap(),
        };
        std::mem::take(&mut *rung)
    }
}
