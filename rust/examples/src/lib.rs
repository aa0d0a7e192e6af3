//! Reads commands of Redis's protocol, and makes the answers. The servers on all executors share this part.
#![allow(clippy::result_unit_err, clippy::type_complexity)]

use std::collections::hash_map::{DefaultHasher, HashMap};
use std::hash::{Hash, Hasher};
use std::sync::Mutex;

const SHARDS: usize = 64;

pub struct Store(Vec<Mutex<HashMap<Vec<u8>, Vec<u8>>>>);

impl Default for Store {
    fn default() -> Store {
        Store((0..SHARDS).map(|_| Mutex::default()).collect())
    }
}

/// Returns the number and the next line's index; None if the line is incomplete.
fn number(bytes: &[u8], at: usize) -> Option<Result<(i64, usize), ()>> {
    let end = at + bytes.get(at..)?.windows(2).position(|w| w == b"\r\n")?;
    let parsed = std::str::from_utf8(&bytes[at..end]).ok().and_then(|t| t.parse().ok());
    Some(parsed.map(|n| (n, end + 2)).ok_or(()))
}

/// Returns the first command's words and its length in bytes, or None if it is incomplete.
fn command(bytes: &[u8]) -> Option<Result<(Vec<&[u8]>, usize), ()>> {
    if bytes.is_empty() {
        return None;
    }
    if bytes[0] != b'*' {
        let end = bytes.windows(2).position(|w| w == b"\r\n")?;
        return Some(Ok((bytes[..end].split(|&b| b == b' ').filter(|w| !w.is_empty()).collect(), end + 2)));
    }
    let (count, mut at) = match number(bytes, 1)? {
        Ok((n @ 0..=64, at)) => (n, at),
        _ => return Some(Err(())),
    };
    let mut words = Vec::with_capacity(count as usize);
    for _ in 0..count {
        if *bytes.get(at)? != b'$' {
            return Some(Err(()));
        }
        let (len, from) = match number(bytes, at + 1)? {
            Ok((n @ 0..=1_000_000, from)) => (n as usize, from),
            _ => return Some(Err(())),
        };
        if bytes.len() < from + len + 2 {
            return None;
        }
        words.push(&bytes[from..from + len]);
        at = from + len + 2;
    }
    Some(Ok((words, at)))
}

impl Store {
    fn shard(&self, key: &[u8]) -> &Mutex<HashMap<Vec<u8>, Vec<u8>>> {
        let mut hasher = DefaultHasher::new();
        key.hash(&mut hasher);
        &self.0[hasher.finish() as usize % SHARDS]
    }

    fn answer(&self, words: &[&[u8]], out: &mut Vec<u8>) {
        let name = match words.first() {
            Some(name) => name.to_ascii_uppercase(),
            None => return,
        };
        match (&*name, &words[1..]) {
            (b"PING", []) => out.extend(b"+PONG\r\n"),
            (b"PING", [text]) => bulk(text, out),
            (b"GET", [key]) => match self.shard(key).lock().unwrap().get(*key) {
                Some(value) => bulk(value, out),
                None => out.extend(b"$-1\r\n"),
            },
            (b"SET", [key, value]) => {
                self.shard(key).lock().unwrap().insert(key.to_vec(), value.to_vec());
                out.extend(b"+OK\r\n");
            }
            (b"INCR", [key]) => {
                let mut shard = self.shard(key).lock().unwrap();
                let value = shard.entry(key.to_vec()).or_insert_with(|| b"0".to_vec());
                let seen = std::str::from_utf8(value).ok().and_then(|text| text.parse::<i64>().ok());
                match seen.and_then(|n| n.checked_add(1)) {
                    Some(n) => {
                        *value = n.to_string().into_bytes();
                        out.extend(format!(":{n}\r\n").bytes());
                    }
                    None => out.extend(b"-ERR value is not an integer or out of range\r\n"),
                }
            }
            (b"DEL", keys) => {
                let gone = keys.iter().filter(|key| self.shard(key).lock().unwrap().remove(**key).is_some()).count();
                out.extend(format!(":{gone}\r\n").bytes());
            }
            (b"CONFIG", [_, key]) => {
                out.extend(b"*2\r\n");
                bulk(key, out);
                bulk(b"", out);
            }
            (b"COMMAND", _) => out.extend(b"*0\r\n"),
            (_, _) => out.extend(b"-ERR unknown command or wrong number of arguments\r\n"),
        }
    }

    /// Answers all complete commands. Returns the number of their bytes, and of the commands. Fails if the bytes are no
    /// commands.
    pub fn serve(&self, bytes: &[u8], out: &mut Vec<u8>) -> Result<(usize, u64), ()> {
        let (mut at, mut count) = (0, 0);
        while let Some(command) = command(&bytes[at..]) {
            let (words, len) = command?;
            self.answer(&words, out);
            at += len;
            count += 1;
        }
        Ok((at, count))
    }
}

fn bulk(text: &[u8], out: &mut Vec<u8>) {
    out.extend(b"$");
    out.extend(text.len().to_string().bytes());
    out.extend(b"\r\n");
    out.extend(text);
    out.extend(b"\r\n");
}

/// The bytes that were read from a connection and not answered yet.
pub struct Buffer {
    pub bytes: Vec<u8>,
    pub len: usize,
}
impl Buffer {
    pub fn new() -> Buffer {
        Buffer { bytes: vec![0; 16384], len: 0 }
    }
    pub fn room(&mut self) -> &mut [u8] {
        if self.len == self.bytes.len() {
            self.bytes.resize(2 * self.len, 0);
        }
        &mut self.bytes[self.len..]
    }
    pub fn spend(&mut self, count: usize) {
        self.bytes.copy_within(count..self.len, 0);
        self.len -= count;
    }
}
impl Default for Buffer {
    fn default() -> Buffer {
        Buffer::new()
    }
}

/// Waits until the standard input ends, which is how a server is asked to end.
pub fn wait_for_end() {
    let _ = std::io::Read::read_to_end(&mut std::io::stdin(), &mut Vec::new());
}

/// A server's arguments: `CORES PORT [policy [SOCKET PRIORITY]]`, the last two for an arbiter (a daemon that grants
/// cores).
pub struct Arguments {
    pub cores: usize,
    pub port: u16,
    pub follows: bool,
    pub arbiter: Option<(String, u8)>,
}

impl Arguments {
    pub fn read() -> Option<Arguments> {
        let mut words = std::env::args().skip(1);
        let (cores, port) = (words.next()?.parse().ok()?, words.next()?.parse().ok()?);
        let follows = words.next().is_some();
        let arbiter = match words.next() {
            Some(socket) => Some((socket, words.next()?.parse().ok()?)),
            None => None,
        };
        Some(Arguments { cores, port, follows, arbiter })
    }

    pub fn runtime(&self) -> std::io::Result<arachne::Runtime> {
        let builder = arachne::Builder::new(self.cores);
        let builder = match &self.arbiter {
            Some((socket, priority)) => builder.arbiter(socket, *priority, 0),
            None => builder,
        };
        if self.follows { builder.policy(arachne::Policy::default()) } else { builder }.build()
    }
}
