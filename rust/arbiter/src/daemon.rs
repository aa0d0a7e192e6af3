//! The daemon's loop. It reads messages, asks the proved library which thread gets which core, and moves the threads.

mod hearing;
mod turns;

use crate::host::{Host, WINDOW};
use crate::means::{self, Means};
use crate::options::Options;
use crate::sys;
use crate::threads::{self, Threads};
use arbiter::library::{Move, Share, State};
use arbiter::protocol::*;
use hearing::{Connection, Role};
use std::collections::{BTreeMap, HashSet};
use std::fs;
use std::io::{self, ErrorKind, Write};
use std::os::unix::net::UnixListener;
use std::sync::atomic::Ordering::*;
use std::time::{Duration, Instant};
use turns::Turns;

/// If a client is later than this to give back cores, the daemon takes them by force.
const PATIENCE: Duration = Duration::from_millis(10);
/// The daemon searches this often for threads that have ended, and for threads that run on a core that was granted to
/// another thread.
const LOOKS: Duration = Duration::from_secs(1);
/// The most threads that the daemon checks before it decides again which thread gets which core.
const AT_ONCE: usize = 8;
/// The most connections to the status socket that the daemon answers in one pass of its loop.
const READERS: usize = 8;

struct Thread {
    id: u32,
    /// The time at which the thread began, which distinguishes it from a later thread with the same id.
    began: u64,
    connection: u64,
    core: Option<usize>,
}

struct Core {
    /// The core's processors. While the core is granted, its thread runs on the first of them, and no thread runs on
    /// any other of them.
    cpus: Vec<usize>,
    owner: Option<(u32, u32)>,
    /// The time at which the core was last granted or given back.
    since: Instant,
}

struct Client {
    number: usize,
    process: u32,
    user: u32,
    ended: fs::File,
    control: u64,
    page: sys::Page,
    priority: u32,
    least: u32,
    asked: u32,
    allowed: u32,
    given: u64,
    /// How often the daemon took a core from the client by force.
    forced: u64,
    until: Option<Instant>,
    turned: u64,
    arrives: u32,
    /// The client's threads, by the numbers that the client has given them.
    threads: BTreeMap<u32, Thread>,
}

struct Look {
    threads: Threads,
    all: bool,
}

pub struct Arbiter {
    clients_socket: UnixListener,
    readers_socket: UnixListener,
    means: Means,
    state: State,
    start: Instant,
    log: bool,
    kept: Vec<usize>,
    cores: Vec<Core>,
    host: Host,
    managed: Vec<usize>,
    /// The processors on which threads without a core run.
    rest: Vec<usize>,
    all: Vec<usize>,
    /// The connections by number. Newer connections have greater numbers.
    connections: BTreeMap<u64, Connection>,
    connected: u64,
    /// The clients, by the number in `connections` of their control connection.
    clients: BTreeMap<u32, Client>,
    forced: u64,
    turns: Turns,
    look: Option<Look>,
    looked: Instant,
}

impl Arbiter {
    /// Fails if memory is refused, or if `options` has more than 1,024 cores.
    pub fn new(options: &Options, means: Means, clients: UnixListener, readers: UnixListener) -> io::Result<Arbiter> {
        let mut kept = options.cores();
        let cores = kept.split_off(options.keep);
        let state =
            State::new(cores.len()).ok_or_else(|| io::Error::new(ErrorKind::Other, "no memory, or too many cores"))?;
        Ok(Arbiter {
            clients_socket: clients,
            readers_socket: readers,
            means,
            state,
            start: Instant::now(),
            log: options.log,
            kept: kept.concat(),
            host: Host::new(cores.iter().map(|cpus| cpus[0]).collect(), options.cpus.clone()),
            cores: cores.into_iter().map(|cpus| Core { cpus, owner: None, since: Instant::now() }).collect(),
            managed: options.cpus.clone(),
            rest: options.cpus.clone(),
            all: options.all.clone(),
            connections: BTreeMap::new(),
            connected: 0,
            clients: BTreeMap::new(),
            forced: 0,
            turns: Turns::new(Duration::from_millis(options.turn)),
            look: None,
            looked: Instant::now(),
        })
    }

    /// Grants cores to clients until this process is asked to end. After that, all threads may run on all processors
    /// again.
    pub fn run(&mut self) {
        while !sys::ENDS.load(SeqCst) {
            self.hear(self.time_left());
            self.look_at_threads();
            self.look_at_host();
            self.settle();
            if self.begin_turn() {
                self.settle();
            }
            self.answer_readers();
        }
        let begun = self.look_at_strangers().threads;
        self.drop_clients();
        begun.filter(|&thread| self.is_on_one(thread)).for_each(|thread| self.means.free(thread, &self.all));
        sys::print(format_args!("by force {}, after {:.0} s", self.forced, self.start.elapsed().as_secs_f64()));
    }

    fn time_left(&self) -> i32 {
        let ends = self.clients.values().filter_map(|client| client.until);
        let next = ends.chain(self.next_turn()).min();
        let next = next.map_or(LOOKS, |at| at.saturating_duration_since(Instant::now()) + Duration::from_millis(1));
        let most = match self.clients.is_empty() {
            _ if self.look.is_some() => Duration::from_millis(1),
            true => LOOKS,
            false => WINDOW,
        };
        next.min(most).as_millis() as i32
    }

    fn say(&self, text: impl FnOnce() -> String) {
        if self.log {
            sys::print(format_args!("{:.6} {}", clock(), text()));
        }
    }

    // ------------------------------------------------------------------------------------------ decisions

    /// Drops clients that have ended, lets the library decide which thread gets which core, and moves the threads,
    /// until no decision changes any more.
    fn settle(&mut self) {
        loop {
            self.bury();
            self.decide();
            let ids: Vec<u32> = self.clients.keys().copied().collect();
            ids.into_iter().for_each(|id| self.take_from(id));
            let mut all_moved = true;
            while let Some(given) = self.state.give() {
                all_moved &= self.place(given);
            }
            // This loop ends: a client that doesn't read or can't be moved is dropped, and a turn ends only once.
            if !self.end_turn() && all_moved && self.connections.values().all(|it| !it.gone) {
                return self.update_rest();
            }
        }
    }

    /// Writes to a client's page how many cores it is allowed, and takes those that it has beyond that number. The core
    /// of a thread that floats (never waits for a core) is taken at once. Any other core is taken only if the client is
    /// late to give it back.
    fn take_from(&mut self, id: u32) {
        let share = self.share(id);
        let client = self.clients.get_mut(&id).unwrap();
        let number = client.number;
        if client.allowed != share.allowed {
            let less = share.allowed < client.allowed;
            client.allowed = share.allowed;
            client.page.allowed().store(share.allowed, SeqCst);
            let control = client.control;
            if less {
                self.send(control, [ALLOWED, share.allowed, 0, 0]);
            }
        }
        let client = self.clients.get_mut(&id).unwrap();
        if share.held <= share.allowed {
            client.until = None;
            return;
        }
        let late = Instant::now() >= *client.until.get_or_insert_with(|| Instant::now() + PATIENCE);
        let mut left = share.held;
        while let Some(taken) = self.state.take_back(number, late) {
            self.unplace(id, taken.place as u32);
            self.forced += late as u64;
            self.clients.get_mut(&id).unwrap().forced += late as u64;
            left -= 1;
        }
        if left <= share.allowed {
            self.clients.get_mut(&id).unwrap().until = None;
        }
    }

    fn share(&mut self, id: u32) -> Share {
        self.clients.get(&id).map_or(Share { allowed: 0, held: 0 }, |client| self.state.share(client.number))
    }

    fn bury(&mut self) {
        loop {
            let gone = self.connections.iter().find(|(_, it)| it.gone).map(|(&name, _)| name);
            let name = match gone {
                Some(name) => name,
                None => return,
            };
            match self.connections.remove(&name).map(|it| it.role) {
                Some(Role::Control(id)) => self.drop_client(id),
                Some(Role::Thread(id, place)) => self.drop_thread(id, place),
                _ => {}
            }
        }
    }

    fn drop_clients(&mut self) {
        let ids: Vec<u32> = self.clients.keys().copied().collect();
        ids.into_iter().for_each(|id| self.drop_client(id));
    }

    fn drop_client(&mut self, id: u32) {
        let places: Vec<u32> = self.clients.get(&id).map_or(Vec::new(), |it| it.threads.keys().copied().collect());
        places.into_iter().for_each(|place| self.drop_thread(id, place));
        if let Some(client) = self.clients.remove(&id) {
            self.state.leave(client.number);
            self.connections.remove(&client.control);
            self.say(|| format!("client {id} goes"));
        }
    }

    fn drop_thread(&mut self, id: u32, place: u32) {
        self.unplace(id, place);
        if let Some(client) = self.clients.get(&id) {
            self.state.end(client.number, place as usize);
        }
        let client = self.clients.get_mut(&id);
        if let Some((process, thread)) = client.and_then(|it| Some((it.process, it.threads.remove(&place)?))) {
            self.connections.remove(&thread.connection);
            // Until its cpuset is emptied, the thread may use only processors that can't be granted (all, if none is
            // granted).
            let free = if self.host.takes_machine() { &self.managed } else { &self.kept };
            self.means.leave(thread.id, thread.is_of(process), free, &self.all);
        }
    }

    // ------------------------------------------------------------------------------------------ moves

    /// Moves a thread to the core that it was given. If that fails, removes the thread from its client, and returns
    /// false.
    fn place(&mut self, given: Move) -> bool {
        let id = match self.clients.iter().find(|(_, client)| client.number == given.client) {
            Some((&id, _)) => id,
            None => return true,
        };
        let (place, core) = (given.place as u32, given.core);
        let client = self.clients.get_mut(&id).unwrap();
        client.given += 1;
        let thread = client.threads.get_mut(&place).unwrap();
        let (cpu, name) = (self.cores[core].cpus[0], thread.connection);
        thread.core = Some(core);
        (self.cores[core].owner, self.cores[core].since) = (Some((id, place)), Instant::now());
        if !self.set_on_core(core) {
            self.drop_thread(id, place);
            return false;
        }
        if given.waited {
            self.send(name, [GRANT, cpu as u32, 0, 0]);
        }
        self.say(|| format!("core {cpu} to {id}.{place}"));
        true
    }

    /// Takes a thread's core away, if it has one, and lets the thread run on the processors for threads without a core.
    fn unplace(&mut self, client: u32, place: u32) {
        let of = self.clients.get_mut(&client).and_then(|it| Some((it.process, it.threads.get_mut(&place)?)));
        let (process, thread) = match of {
            Some(of) => of,
            None => return,
        };
        if let Some(core) = thread.core.take() {
            (self.cores[core].owner, self.cores[core].since) = (None, Instant::now());
            if thread.is_of(process) {
                let _ = self.means.run_on(thread.id, &self.rest);
            }
            self.say(|| format!("core {} back from {client}.{place}", self.cores[core].cpus[0]));
        }
    }

    fn set_on_core(&mut self, core: usize) -> bool {
        let owner = self.cores[core].owner.and_then(|(id, place)| {
            let client = self.clients.get(&id)?;
            Some((client.process, client.threads.get(&place)?))
        });
        let (process, thread) = match owner {
            Some(owner) => owner,
            None => return true,
        };
        let moved = match self.host.takes(core) {
            _ if !thread.is_of(process) => return false,
            true => self.means.run_on(thread.id, &self.rest),
            false => self.means.run_on(thread.id, &self.cores[core].cpus[..1]),
        };
        moved.is_ok()
    }

    fn update_rest(&mut self) {
        let (cores, host) = (&self.cores, &self.host);
        let free = (0..cores.len()).filter(|&core| cores[core].owner.is_none() || host.takes(core));
        let free = free.flat_map(|core| &cores[core].cpus);
        let rest: Vec<usize> = self.kept.iter().chain(free).copied().collect();
        if rest != self.rest {
            let all = self.clients.values().flat_map(|it| it.threads.values().map(move |thread| (it.process, thread)));
            // With cpusets this also sets the cpuset of a thread that has ended, since no other thread can own it.
            let by_set = matches!(self.means, Means::Cpusets(_));
            let others = all.filter(|(process, thread)| {
                thread.core.map_or(true, |core| host.takes(core)) && (by_set || thread.is_of(*process))
            });
            self.means.set_rest(&rest, others.map(|(_, thread)| thread.id));
            self.rest = rest;
        }
    }

    /// Sends a message of four numbers. If that fails (the client doesn't read, say), the next `bury` drops the client.
    fn send(&mut self, name: u64, words: [u32; 4]) {
        if let Some(connection) = self.connections.get_mut(&name) {
            let sent = connection.stream.write(&bytes_of(words));
            connection.gone |= !matches!(sent, Ok(SIZE));
        }
    }

    // ------------------------------------------------------------------------------------------ looks

    /// Moves a few threads: those of a new client to the processors `rest`, and other threads off granted cores.
    fn look_at_threads(&mut self) {
        let threads = self.clients.values().flat_map(|client| client.threads.values());
        let known: HashSet<u32> = threads.map(|thread| thread.id).collect();
        for _ in 0..AT_ONCE {
            let (all, thread) = match self.look.as_mut().map(|look| (look.all, look.threads.next())) {
                Some((all, Some(thread))) => (all, thread),
                _ => return self.look = self.next_look(),
            };
            if known.contains(&thread) {
                continue;
            }
            if all {
                self.means.admit(thread);
            } else if self.is_on_one(thread) {
                self.means.free(thread, &self.all);
            }
        }
    }

    fn is_on_one(&self, thread: u32) -> bool {
        matches!(sys::affinity_of(thread)[..], [cpu] if self.cores.iter().any(|core| core.cpus[0] == cpu))
    }

    /// Returns the threads to check next: those of a new client, or those in the cpuset of a thread that has left. Once
    /// a second, drops threads that have ended, and returns the threads that clients' threads may have started.
    fn next_look(&mut self) -> Option<Look> {
        if let Some(client) = self.clients.values_mut().find(|client| client.arrives != 0) {
            client.arrives -= 1;
            return Some(Look { threads: self.means.arrivals(client.process), all: true });
        }
        if self.looked.elapsed() <= LOOKS {
            return self.means.next_left().map(|threads| Look { threads, all: true });
        }
        self.looked = Instant::now();
        self.means.try_again();
        let all =
            self.clients.iter().flat_map(|(&id, it)| it.threads.iter().map(move |(&place, t)| (id, it, place, t)));
        let ended = all.filter(|(_, client, _, thread)| !thread.is_of(client.process));
        let ended: Vec<_> = ended.map(|(id, _, place, _)| (id, place)).collect();
        ended.into_iter().for_each(|(id, place)| self.drop_thread(id, place));
        Some(self.look_at_strangers())
    }

    fn look_at_strangers(&self) -> Look {
        let processes = self.clients.values().map(|client| client.process).collect();
        let known = self.clients.values().flat_map(|it| it.threads.values().map(|thread| thread.id)).collect();
        Look { threads: self.means.strangers(known, processes), all: false }
    }

    /// If the host takes the whole machine, the daemon closes all connections, and clients go on as without a daemon.
    /// If the host takes a granted processor, the thread there runs on `rest` until the host returns the processor.
    fn look_at_host(&mut self) {
        let (was_taken, changed) = (self.host.takes_machine(), self.host.look());
        if self.host.takes_machine() != was_taken {
            self.say(|| format!("machine taken by the host: {}", self.host.takes_machine()));
        }
        if self.host.takes_machine() && !was_taken {
            // After the clients are gone, only this look finds the threads that their threads have started on a core.
            self.look = Some(self.look_at_strangers());
            self.drop_clients();
            self.connections.clear();
        }
        if changed.is_empty() {
            return;
        }
        self.update_rest();
        for core in changed {
            self.say(|| format!("core {} taken by the host: {}", self.cores[core].cpus[0], self.host.takes(core)));
            let _ = self.set_on_core(core);
        }
    }

    fn answer_readers(&self) {
        for (mut stream, _) in (0..READERS).map_while(|_| self.readers_socket.accept().ok()) {
            let _ = stream.set_nonblocking(true);
            let _ = stream.write_all(self.status().as_bytes());
        }
    }

    fn status(&self) -> String {
        let mut text = String::new();
        if self.host.takes_machine() {
            text += "the host has taken the machine: nothing is granted until it has been calm for five seconds\n";
        }
        for (id, client) in &self.clients {
            let Client { process, user, priority, least, asked, allowed, given, forced, .. } = client;
            let has = client.threads.values().filter(|thread| thread.core.is_some()).count();
            text += &format!(
                "client {id}: process {process}, user {user}, priority {priority}, reserved {least}, asks for {asked}, \
                 may have {allowed}, has {has}; {given} given, {forced} taken by force\n"
            );
        }
        for (nth, core) in self.cores.iter().enumerate() {
            let thread = |(id, place)| Some((id, self.clients.get(&id)?.threads.get(&place)?.id));
            let owner = core.owner.and_then(thread);
            let owner = owner.map_or("nobody".into(), |(id, thread)| format!("client {id}, thread {thread}"));
            let host = if self.host.takes(nth) { "; the host takes it" } else { "" };
            let seconds = core.since.elapsed().as_secs_f64();
            let (several, cpus) = (if core.cpus.len() > 1 { "s" } else { "" }, means::list(&core.cpus));
            text += &format!("processor{several} {cpus}: {owner}, for {seconds:.3} s{host}\n");
        }
        text
    }
}

impl Thread {
    /// Returns true if the thread still exists, and its id isn't that of a later thread.
    fn is_of(&self, process: u32) -> bool {
        threads::began(process, self.id) == Some(self.began)
    }
}

fn clock() -> f64 {
    std::time::SystemTime::now().duration_since(std::time::SystemTime::UNIX_EPOCH).unwrap().as_secs_f64()
}
