//! A server whose requests take a given time, and its client.
//!
//! `served EXECUTOR CORES [policy [SOCKET PRIORITY]]` is the server, on arachne or tokio. SOCKET is that of the arbiter
//! (the daemon that grants cores). The server prints its port, and with `policy` a line when the number of active cores
//! changes. The server ends when its standard input ends.
//!
//! `served client PORT CONNECTIONS IN-FLIGHT MICROS MILLISECONDS` keeps IN-FLIGHT requests in flight per connection.
//! `served offer PORT RATE MICROS MILLISECONDS` sends each of RATE requests a second when it is due, on 32 connections.
use std::io::{ErrorKind, Read, Write};
use std::net::TcpStream;
use std::sync::atomic::{AtomicU64, Ordering::Relaxed};
use std::thread;
use std::time::{Duration, Instant, SystemTime};

/// The size in bytes of a request or answer. Both contain when the request was due, and its work in microseconds.
const SIZE: usize = 16;

fn spin(time: Duration) {
    let start = Instant::now();
    while start.elapsed() < time {
        std::hint::spin_loop();
    }
}

/// Returns the time in milliseconds, by a clock that all processes share.
fn clock() -> f64 {
    SystemTime::now().duration_since(SystemTime::UNIX_EPOCH).unwrap().as_micros() as f64 / 1e3
}

fn serve(buffer: &[u8]) -> usize {
    for request in buffer.chunks_exact(SIZE) {
        spin(Duration::from_micros(u64::from_le_bytes(request[8..].try_into().unwrap())));
    }
    buffer.len() / SIZE * SIZE
}

macro_rules! connection {
    ($stream:ident, $read:ident, $write_all:ident) => {{
        let (mut buffer, mut len) = (vec![0; 4096], 0);
        loop {
            match $stream.$read(&mut buffer[len..]).await {
                Ok(0) | Err(_) => return,
                Ok(n) => len += n,
            }
            let whole = serve(&buffer[..len]);
            if $stream.$write_all(&buffer[..whole]).await.is_err() {
                return;
            }
            buffer.copy_within(whole..len, 0);
            len -= whole;
        }
    }};
}

fn on_arachne(cores: usize, follows: bool, arbiter: Option<&[String]>) {
    let builder = arachne::Builder::new(cores);
    let builder = match arbiter {
        Some(words) => builder.arbiter(&words[0], words[1].parse().unwrap(), 0),
        None => builder,
    };
    let runtime = if follows { builder.policy(arachne::Policy::default()) } else { builder }.build().unwrap();
    let listener = arachne::net::TcpListener::bind("127.0.0.1:0").unwrap();
    println!("{}", listener.local_addr().unwrap().port());
    runtime.spawn(async move {
        while let Ok((stream, _)) = listener.accept().await {
            stream.set_nodelay(true).unwrap();
            arachne::spawn_balanced(async move { connection!(stream, read, write_all) });
        }
    });
    if follows {
        thread::spawn(move || {
            let mut held = 0;
            loop {
                let stats = runtime.stats();
                if stats.active != held {
                    held = stats.active;
                    println!("{:.1} held {held}", clock());
                }
                thread::sleep(Duration::from_millis(1));
            }
        });
    } else {
        std::mem::forget(runtime);
    }
}

fn on_tokio(cores: usize) {
    use tokio::io::{AsyncReadExt, AsyncWriteExt};
    let runtime = tokio::runtime::Builder::new_multi_thread().worker_threads(cores).enable_all().build().unwrap();
    let listener = runtime.block_on(tokio::net::TcpListener::bind("127.0.0.1:0")).unwrap();
    println!("{}", listener.local_addr().unwrap().port());
    runtime.spawn(async move {
        while let Ok((mut stream, _)) = listener.accept().await {
            stream.set_nodelay(true).unwrap();
            tokio::spawn(async move { connection!(stream, read, write_all) });
        }
    });
    std::mem::forget(runtime);
}

fn request(due: u64, micros: u64) -> [u8; SIZE] {
    let mut bytes = [0; SIZE];
    bytes[..8].copy_from_slice(&due.to_le_bytes());
    bytes[8..].copy_from_slice(&micros.to_le_bytes());
    bytes
}

fn connect(port: u16) -> TcpStream {
    let stream = TcpStream::connect(("127.0.0.1", port)).unwrap();
    stream.set_nodelay(true).unwrap();
    stream
}

/// Each connection has a kernel thread.
fn client(port: u16, connections: u64, flight: usize, micros: u64, time: Duration) {
    static ANSWERED: AtomicU64 = AtomicU64::new(0);
    static SENT: AtomicU64 = AtomicU64::new(0);
    println!("{:.1} begins", clock());
    let start = Instant::now();
    let ask = move || {
        let (mut stream, mut bytes, mut rest) = (connect(port), vec![0; flight * SIZE], 0);
        stream.write_all(&request(0, micros).repeat(flight)).unwrap();
        if SENT.fetch_add(1, Relaxed) + 1 == connections {
            println!("{:.1} each has sent", clock());
        }
        while start.elapsed() < time {
            let len = stream.read(&mut bytes).unwrap() + rest;
            rest = len % SIZE;
            stream.write_all(&request(0, micros).repeat(len / SIZE)).unwrap();
            ANSWERED.fetch_add((len / SIZE) as u64, Relaxed);
        }
    };
    let threads: Vec<_> = (0..connections).map(|_| thread::spawn(ask)).collect();
    threads.into_iter().for_each(|thread| thread.join().unwrap());
    println!("{:.1} ends", clock());
    println!("{:.0} answers a second", ANSWERED.load(Relaxed) as f64 / start.elapsed().as_secs_f64());
}

/// Reads answers, and adds to `times` the nanoseconds since each answered request was due.
fn receive(stream: &mut TcpStream, back: &mut Vec<u8>, start: Instant, times: &mut Vec<u64>) {
    let mut bytes = [0; 4096];
    match stream.read(&mut bytes) {
        Ok(n) => back.extend(&bytes[..n]),
        Err(error) if error.kind() == ErrorKind::WouldBlock => return,
        Err(error) => panic!("{error}"),
    }
    let (now, whole) = (start.elapsed().as_nanos() as u64, back.len() / SIZE * SIZE);
    let due = |answer: &[u8]| u64::from_le_bytes(answer[..8].try_into().unwrap());
    times.extend(back[..whole].chunks_exact(SIZE).map(|answer| now.saturating_sub(due(answer))));
    back.drain(..whole);
}

fn offer(port: u16, rate: u64, micros: u64, time: Duration) {
    let mut streams: Vec<_> = (0..32).map(|_| (connect(port), Vec::new())).collect();
    streams.iter().for_each(|(stream, _)| stream.set_nonblocking(true).unwrap());
    let (start, mut sent, mut times) = (Instant::now(), 0, Vec::new());
    let total = rate * time.as_millis() as u64 / 1000;
    while (times.len() as u64) < total && start.elapsed() < 3 * time {
        let now = start.elapsed().as_nanos() as u64;
        while sent < total && sent * 1_000_000_000 / rate <= now {
            let due = sent * 1_000_000_000 / rate;
            streams[sent as usize % 32].0.write_all(&request(due, micros)).unwrap();
            sent += 1;
        }
        streams.iter_mut().for_each(|(stream, back)| receive(stream, back, start, &mut times));
        thread::sleep(Duration::from_micros(20));
    }
    times.sort_unstable();
    let last = times.len() - 1;
    let point = |part: f64| times[((times.len() as f64 * part) as usize).min(last)] as f64 / 1e3;
    let points = [0.5, 0.99, 0.999].map(point);
    println!(
        "{} of {total} answered; 50 % {:.0}, 99 % {:.0}, 99.9 % {:.0} us",
        times.len(),
        points[0],
        points[1],
        points[2]
    );
}

fn main() {
    let words: Vec<String> = std::env::args().skip(1).collect();
    let number = |at: usize| words[at].parse::<u64>().unwrap();
    match &*words[0] {
        "client" => {
            client(number(1) as u16, number(2), number(3) as usize, number(4), Duration::from_millis(number(5)))
        }
        "offer" => offer(number(1) as u16, number(2), number(3), Duration::from_millis(number(4))),
        name => {
            let cores = number(1) as usize;
            if name == "arachne" {
                on_arachne(cores, words.len() > 2, words.get(3..5))
            } else {
                on_tokio(cores)
            }
            examples::wait_for_end();
            std::process::exit(0);
        }
    }
}
