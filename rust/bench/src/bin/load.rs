//! `load redis|served:MICROS PORT RATE:MILLISECONDS..` is an open-loop client: it sends each request when it is due.
//!
//! The requests are SETs of Redis's protocol, or requests to the server `served` that take MICROS. In each phase
//! (RATE:MILLISECONDS), the client sends RATE requests a second for MILLISECONDS, on 32 connections, and prints the
//! latencies, each from when the request was due. Every 10 ms, the client prints the time in milliseconds, how many
//! requests were due and answered, and the latency in us (99 per cent and the maximum).
use std::collections::VecDeque;
use std::io::{ErrorKind, Read, Write};
use std::net::TcpStream;
use std::thread;
use std::time::{Duration, Instant, SystemTime};

const CONNECTIONS: u64 = 32;
const KINDS: usize = 4096;
const ROW: u64 = 10_000_000;

struct Connection {
    stream: TcpStream,
    /// The requests that aren't answered yet: the time at which each was due, and the index of its phase.
    due: VecDeque<(u64, usize)>,
    rest: usize,
}

/// Returns a request's bytes, and the length of its answer in bytes.
fn request(kind: &str, nth: usize) -> (Vec<u8>, usize) {
    match kind.strip_prefix("served:") {
        Some(micros) => ([0u64.to_le_bytes(), micros.parse::<u64>().unwrap().to_le_bytes()].concat(), 16),
        None => {
            let key = format!("key:{:012}", nth * 7919 % 100_000);
            let text = format!("*3\r\n$3\r\nSET\r\n${}\r\n{key}\r\n$64\r\n{}\r\n", key.len(), "x".repeat(64));
            (text.into_bytes(), 5)
        }
    }
}

fn connect(port: u16) -> Connection {
    let stream = TcpStream::connect(("127.0.0.1", port)).expect("the server answers");
    stream.set_nodelay(true).unwrap();
    stream.set_nonblocking(true).unwrap();
    Connection { stream, due: VecDeque::new(), rest: 0 }
}

/// Returns the latency in us that a fraction `part` of the sorted latencies doesn't exceed.
fn point(sorted: &[u64], part: f64) -> f64 {
    let at = ((sorted.len() as f64 * part) as usize).min(sorted.len().max(1) - 1);
    sorted.get(at).map_or(0.0, |&nanos| nanos as f64 / 1e3)
}

fn main() {
    let words: Vec<String> = std::env::args().skip(1).collect();
    let mut connections: Vec<_> = (0..CONNECTIONS).map(|_| connect(words[1].parse().unwrap())).collect();
    let requests: Vec<_> = (0..KINDS).map(|nth| request(&words[0], nth)).collect();
    let size = requests[0].1;
    let start = Instant::now();
    let clock = SystemTime::now().duration_since(SystemTime::UNIX_EPOCH).unwrap().as_micros() as f64 / 1e3;
    let now = || start.elapsed().as_nanos() as u64;
    let millis = |at: u64| clock + at as f64 / 1e6;
    // In an additional last phase, the client waits for at most two seconds for the answers to earlier requests.
    let phases: Vec<(u64, u64)> = words[2..]
        .iter()
        .map(|phase| phase.split_once(':').expect("RATE:MILLISECONDS"))
        .map(|(rate, millis)| (rate.parse().unwrap(), millis.parse::<u64>().unwrap() * 1_000_000))
        .chain([(0, 2_000_000_000)])
        .collect();
    let (mut begin, mut nth, mut bytes, mut open) = (now(), 0usize, vec![0; 65536], 0u64);
    let (mut rows, mut row_begins, mut row_due, mut row) = (Vec::new(), begin, 0u64, Vec::new());
    let (mut sent, mut times) = (vec![0u64; phases.len()], vec![Vec::new(); phases.len()]);
    for (phase, &(rate, time)) in phases.iter().enumerate() {
        if rate != 0 {
            println!("{:.1} phase {} begins", millis(begin), words[2 + phase]);
        }
        while now() < begin + time && (rate != 0 || open != 0) {
            let at = now();
            while rate != 0 && sent[phase] * 1_000_000_000 / rate + begin <= at {
                let connection = &mut connections[nth % CONNECTIONS as usize];
                connection.stream.write_all(&requests[nth % KINDS].0).expect("a request is sent");
                connection.due.push_back((sent[phase] * 1_000_000_000 / rate + begin, phase));
                (sent[phase], nth, open, row_due) = (sent[phase] + 1, nth + 1, open + 1, row_due + 1);
            }
            for connection in connections.iter_mut().filter(|connection| !connection.due.is_empty()) {
                match connection.stream.read(&mut bytes) {
                    Ok(0) => panic!("the server has gone"),
                    Ok(n) => connection.rest += n,
                    Err(error) if error.kind() == ErrorKind::WouldBlock => continue,
                    Err(error) => panic!("{error}"),
                }
                let at = now();
                for _ in 0..connection.rest / size {
                    let (due, phase) = connection.due.pop_front().expect("an answer to a request");
                    times[phase].push(at - due);
                    row.push(at - due);
                    open -= 1;
                }
                connection.rest %= size;
            }
            if at - row_begins >= ROW {
                row.sort_unstable();
                let (count, slow, worst) = (row.len(), point(&row, 0.99), point(&row, 1.0));
                rows.push(format!("{:.1} {row_due} {count} {slow:.0} {worst:.0}", millis(at)));
                row.clear();
                (row_begins, row_due) = (at, 0);
            }
            thread::sleep(Duration::from_micros(10));
        }
        begin += time;
    }
    for (phase, times) in times.iter_mut().enumerate().take(words.len() - 2) {
        times.sort_unstable();
        println!(
            "phase {}: sent {} answered {}, {:.0} a second; us 50 % {:.0} 99 % {:.0} 99.9 % {:.0} most {:.0}",
            words[2 + phase],
            sent[phase],
            times.len(),
            times.len() as f64 / (phases[phase].1 as f64 / 1e9),
            point(times, 0.5),
            point(times, 0.99),
            point(times, 0.999),
            point(times, 1.0)
        );
    }
    rows.iter().for_each(|row| println!("{row}"));
}
