//! Reads the messages of all connections and acts on them, before the daemon decides which thread gets which core.

use super::{Arbiter, Client, Thread};
use crate::means::Means;
use crate::{sys, threads};
use arbiter::library::{read, Message};
use arbiter::protocol::*;
use std::collections::BTreeMap;
use std::io::{ErrorKind, Read};
use std::os::unix::io::AsRawFd;
use std::os::unix::net::UnixStream;

/// The most connections in all. A client's connection takes three descriptors, and the usual limit is 1,024.
const CONNECTIONS: usize = 300;
/// The most connections of one process. Two clients of 64 workers each need 130 connections.
const OF_A_PROCESS: usize = 130;
/// The most connections of a user who is neither root nor the daemon's own, and of all such users together.
const OF_A_USER: usize = 100;
const OF_OTHERS: usize = CONNECTIONS / 2;
/// The most passes over all sockets before a decision, and in one pass the most messages of a connection and the most
/// new connections. So a client that sends without pause can't delay a decision.
const PASSES: usize = 4;
const MESSAGES: usize = 4;
const ACCEPTED: usize = 64;
/// The most clients at a time. The library numbers clients from 0 to 63.
const CLIENTS: usize = 64;
/// The highest priority (lowest number) and the most clients of a user who is neither root nor the daemon's own.
const FOR_OTHERS: u32 = 4;
const OF_ANOTHER: usize = 16;

const OF_ANOTHER_USER: &str = "a process of another user";

pub(super) enum Role {
    New,
    Control(u32),
    Thread(u32, u32),
}

pub(super) struct Connection {
    pub(super) stream: UnixStream,
    /// The client's process id and user id.
    peer: (u32, u32),
    /// True for root and for the daemon's own user.
    trusted: bool,
    bytes: [u8; SIZE],
    len: usize,
    pub(super) role: Role,
    /// True if the connection has ended, or a message on it was refused. The next `bury` drops the connection.
    pub(super) gone: bool,
}

impl Arbiter {
    /// Reads all messages that have arrived. If there are none, waits for one, for at most `timeout` milliseconds.
    ///
    /// Makes up to four passes, to read the messages of a client's threads with its request for cores. If the daemon
    /// read only the request, it would give the cores to other clients and take them back at once.
    pub(super) fn hear(&mut self, timeout: i32) {
        let mut timeout = timeout;
        for _ in 0..PASSES {
            if !self.pass(timeout) {
                return;
            }
            timeout = 0;
        }
    }

    /// Reads messages of all connections. Returns false if none arrives within `timeout` milliseconds.
    fn pass(&mut self, timeout: i32) -> bool {
        self.bury();
        let names: Vec<u64> = self.connections.keys().copied().collect();
        let ids: Vec<u32> = self.clients.keys().copied().collect();
        let streams = self.connections.values().map(|it| it.stream.as_raw_fd());
        let processes = self.clients.values().map(|it| it.ended.as_raw_fd());
        let sockets = [self.clients_socket.as_raw_fd(), self.readers_socket.as_raw_fd()];
        let fds = streams.chain(processes).chain(sockets);
        let mut fds: Vec<sys::Polled> = fds.map(|fd| sys::Polled { fd, events: 1, seen: 0 }).collect();
        sys::wait(&mut fds, timeout);
        // The readers of the status get it after the decision.
        fds.pop();
        if fds.iter().all(|it| it.seen == 0) {
            return false;
        }
        for (&id, _) in ids.iter().zip(&fds[names.len()..]).filter(|(_, fd)| fd.seen != 0) {
            self.drop_client(id);
        }
        for (&name, _) in names.iter().zip(&fds).filter(|(_, fd)| fd.seen != 0) {
            self.read(name);
        }
        for _ in 0..ACCEPTED {
            match self.clients_socket.accept() {
                Ok((stream, _)) => self.accept(stream),
                Err(_) => break,
            }
        }
        // A client's threads send their messages before the client sends its request. So if the request was read above,
        // the threads' messages have arrived, and are read here.
        let others = self.connections.iter().filter(|(_, it)| !matches!(it.role, Role::Control(_)));
        let others: Vec<u64> = others.map(|(&name, _)| name).collect();
        others.into_iter().for_each(|name| self.read(name));
        true
    }

    /// Adds a new connection, or closes it if there are too many or the virtual machine's host takes the machine.
    fn accept(&mut self, stream: UnixStream) {
        let peer @ (process, user) = match sys::peer(&stream) {
            Ok(peer) => peer,
            Err(_) => return,
        };
        let trusted = user == 0 || user == sys::user();
        let count = |is_one: &dyn Fn(&&Connection) -> bool| self.connections.values().filter(is_one).count();
        let mut has_room = self.connections.len() < CONNECTIONS && count(&|it| it.peer.0 == process) < OF_A_PROCESS;
        if !trusted {
            has_room &= count(&|it| it.peer.1 == user) < OF_A_USER && count(&|it| !it.trusted) < OF_OTHERS;
        }
        if self.host.takes_machine() || !has_room || stream.set_nonblocking(true).is_err() {
            return;
        }
        self.connected += 1;
        let connection = Connection { stream, peer, trusted, bytes: [0; SIZE], len: 0, role: Role::New, gone: false };
        self.connections.insert(self.connected, connection);
    }

    fn read(&mut self, name: u64) {
        for _ in 0..MESSAGES {
            let connection = match self.connections.get_mut(&name) {
                Some(connection) if !connection.gone => connection,
                _ => return,
            };
            match connection.stream.read(&mut connection.bytes[connection.len..]) {
                Ok(0) => connection.gone = true,
                Ok(n) => connection.len += n,
                Err(error) if error.kind() == ErrorKind::WouldBlock => return,
                Err(error) if error.kind() == ErrorKind::Interrupted => continue,
                Err(_) => connection.gone = true,
            }
            if connection.len == SIZE {
                connection.len = 0;
                let bytes = connection.bytes;
                if let Err(why) = read(&bytes).and_then(|message| self.obey(name, message)) {
                    self.say(|| format!("refused: {why}"));
                    self.send(name, [REFUSED, 0, 0, 0]);
                    self.connections.get_mut(&name).unwrap().gone = true;
                }
            }
        }
    }

    fn obey(&mut self, name: u64, message: Message) -> Result<(), &'static str> {
        let connection = &self.connections[&name];
        match (&connection.role, message) {
            (Role::New, Message::Hello { priority, reserved, most }) => self.greet(name, priority, reserved, most),
            (Role::New, Message::Join { client, thread, place, floats }) => {
                self.join(name, client, thread, place, floats)
            }
            (Role::Control(client), Message::Ask { cores }) => {
                let id = *client;
                let client = self.clients.get_mut(&id).ok_or("no client")?;
                if std::mem::replace(&mut client.asked, cores) != cores {
                    self.say(|| format!("client {id} asks for {cores}"));
                }
                self.tell(id);
                Ok(())
            }
            (&Role::Thread(client, place), Message::Wait) => self.take_back(client, place),
            _ => Err("a message that is out of place"),
        }
    }

    fn greet(&mut self, name: u64, priority: u32, least: u32, most: u32) -> Result<(), &'static str> {
        let Connection { peer: (process, user), trusted, .. } = self.connections[&name];
        let reserved: u32 = self.clients.values().map(|client| client.least).sum();
        if !trusted && priority < FOR_OTHERS {
            return Err("a priority that it may not have");
        }
        if least > 0 && (!trusted || (reserved + least) as usize > self.cores.len()) {
            return Err("reserved cores that it may not have");
        }
        if !trusted && self.clients.values().filter(|client| client.user == user).count() >= OF_ANOTHER {
            return Err("too many clients of one user");
        }
        let free = |number: &usize| self.clients.values().all(|client| client.number != *number);
        let number = (0..CLIENTS).find(free).ok_or("too many clients")?;
        let failed = |_| "the system refused it";
        let ended = sys::watch_process(process).map_err(failed)?;
        if !threads::is_user(process, user) {
            return Err(OF_ANOTHER_USER);
        }
        if !trusted && self.means.frees(process) {
            return Err("a process of another cpuset");
        }
        let client = Client {
            number,
            process,
            user,
            ended,
            control: name,
            page: sys::Page::new().map_err(failed)?,
            priority,
            least,
            asked: 0,
            allowed: 0,
            given: 0,
            forced: 0,
            until: None,
            // The clients that are waiting for a turn already come before this one.
            turned: self.turns.count,
            arrives: 2,
            threads: BTreeMap::new(),
        };
        let id = name as u32;
        let welcome = [WELCOME, id, self.cores.len() as u32, matches!(self.means, Means::Cpusets(_)) as u32];
        if !self.state.hello(number, priority as u8, least, most) {
            return Err("no such client");
        }
        let connection = self.connections.get_mut(&name).unwrap();
        if let Err(error) = sys::send_with(&connection.stream, &bytes_of(welcome), client.page.fd()) {
            self.state.leave(number);
            return Err(failed(error));
        }
        connection.role = Role::Control(id);
        self.say(|| format!("client {id} comes: process {process}, priority {priority}"));
        self.clients.insert(id, client);
        Ok(())
    }

    fn join(&mut self, name: u64, id: u32, thread: u32, place: u32, floats: bool) -> Result<(), &'static str> {
        let (process, user) = self.connections[&name].peer;
        let client = self.clients.get(&id).filter(|client| client.process == process).ok_or("no client of it")?;
        let number = client.number;
        let thread = threads::thread_of(process, thread).ok_or("a thread that isn't one of it")?;
        let began = threads::began(process, thread).ok_or("a thread that has ended")?;
        if !threads::is_user(process, user) {
            return Err(OF_ANOTHER_USER);
        }
        if self.clients.values().any(|client| client.threads.values().any(|it| it.id == thread)) {
            return Err("a thread that is known");
        }
        if !self.state.join(number, place as usize, floats) {
            return Err("two threads of one place");
        }
        if self.means.enter(thread, &self.rest).is_err() {
            self.state.end(number, place as usize);
            return Err("a thread that can't be moved");
        }
        let client = self.clients.get_mut(&id).unwrap();
        client.threads.insert(place, Thread { id: thread, began, connection: name, core: None });
        self.connections.get_mut(&name).unwrap().role = Role::Thread(id, place);
        Ok(())
    }

    /// Takes the core of a client's thread, if it has one; the thread then waits for another.
    fn take_back(&mut self, client: u32, place: u32) -> Result<(), &'static str> {
        let number = self.clients.get(&client).ok_or("no client")?.number;
        if !self.state.wait(number, place as usize) {
            return Err("one that floats, or waits, waits");
        }
        self.unplace(client, place);
        Ok(())
    }
}
