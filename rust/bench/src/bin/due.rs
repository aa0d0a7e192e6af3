//! `due PORT CLIENTS RATE MILLISECONDS [PROCESSOR]` is an open-loop client of a server of Redis's protocol.
//!
//! Requests (SETs of 64 bytes) are due at random times, RATE a second on average, and are sent even if earlier ones
//! aren't answered. The requests go to CLIENTS connections in turn. The client's only kernel thread never sleeps.
//!
//! The program prints how many requests a second were answered. It prints the time from when a request was due until
//! its answer, in us (50, 99 and 99.9 per cent and the maximum). The program also prints how late it sent requests, and
//! how often it lost its processor for more than 200 us. The first tenth of the time isn't counted.
use std::collections::VecDeque;
use std::io::{ErrorKind::WouldBlock, Read, Write};
use std::net::TcpStream;
use std::os::unix::io::AsRawFd;
use std::time::{Duration, Instant};

#[repr(C, packed)]
#[derive(Clone, Copy)]
struct Event {
    events: u32,
    data: u64,
}

extern "C" {
    fn epoll_create1(flags: i32) -> i32;
    fn epoll_ctl(epoll: i32, operation: i32, fd: i32, event: *mut Event) -> i32;
    fn epoll_wait(epoll: i32, events: *mut Event, most: i32, timeout: i32) -> i32;
    fn sched_setaffinity(thread: i32, len: usize, mask: *const u64) -> i32;
}

const ANSWER: usize = b"+OK\r\n".len();

struct Client {
    stream: TcpStream,
    command: Vec<u8>,
    due: VecDeque<u64>,
    got: usize,
}

fn point(sorted: &[u64], part: f64) -> f64 {
    let at = (sorted.len() as f64 * part) as usize;
    sorted.get(at.min(sorted.len().saturating_sub(1))).map_or(f64::NAN, |&nanos| nanos as f64 / 1000.0)
}

fn random(state: &mut u64) -> f64 {
    *state ^= *state << 13;
    *state ^= *state >> 7;
    *state ^= *state << 17;
    ((*state >> 11) as f64 + 1.0) / (1u64 << 53) as f64
}

fn main() {
    let number = |at: usize| std::env::args().nth(at).and_then(|word| word.parse::<u64>().ok());
    let (Some(port), Some(clients), Some(rate), Some(millis)) = (number(1), number(2), number(3), number(4)) else {
        panic!("due PORT CLIENTS RATE MILLISECONDS [PROCESSOR]")
    };
    if let Some(processor) = number(5) {
        // SAFETY: the mask is one word, and is read within the call.
        unsafe { sched_setaffinity(0, 8, &(1u64 << processor)) };
    }
    // SAFETY: the call takes no pointer.
    let epoll = unsafe { epoll_create1(0) };
    let connect = |client: u64| {
        let stream = TcpStream::connect(("127.0.0.1", port as u16)).expect("the server answers");
        stream.set_nodelay(true).unwrap();
        stream.set_nonblocking(true).unwrap();
        let mut event = Event { events: 1, data: client };
        // SAFETY: the event lives through the call.
        unsafe { epoll_ctl(epoll, 1, stream.as_raw_fd(), &mut event) };
        let key = format!("key:{:012}", client * 7919 % 100_000);
        let command = format!("*3\r\n$3\r\nSET\r\n${}\r\n{key}\r\n$64\r\n{}\r\n", key.len(), "x".repeat(64));
        Client { stream, command: command.into_bytes(), due: VecDeque::new(), got: 0 }
    };
    let mut all: Vec<Client> = (0..clients).map(connect).collect();
    std::thread::sleep(Duration::from_millis(50));
    let (start, end, warm) = (Instant::now(), millis * 1_000_000, millis * 100_000);
    let now = || start.elapsed().as_nanos() as u64;
    let (mut state, mut next, mut turn) = (0x9e37_79b9_7f4a_7c15u64, 0f64, 0usize);
    let mut took = Vec::with_capacity((rate * millis / 1000) as usize + 1000);
    let (mut late, mut open) = (Vec::new(), 0usize);
    let mut events = [Event { events: 0, data: 0 }; 64];
    let (mut bytes, mut last) = (vec![0; 65536], now());
    let mut stops = 0;
    loop {
        let time = now();
        stops += (time - last > 200_000) as u64;
        last = time;
        let mut sent = 0;
        while next <= time as f64 && next < end as f64 && sent < 16 {
            let client = &mut all[turn];
            turn = (turn + 1) % clients as usize;
            let begun = now();
            match client.stream.write(&client.command) {
                Ok(n) => assert_eq!(n, client.command.len(), "a command was sent in part"),
                Err(error) => panic!("a command isn't sent: {error}; the server is {open} behind"),
            }
            client.due.push_back(next as u64);
            if next as u64 >= warm {
                late.push(begun - next as u64);
            }
            open += 1;
            sent += 1;
            next += -random(&mut state).ln() * 1e9 / rate as f64;
        }
        // SAFETY: the events live through the call.
        let count = unsafe { epoll_wait(epoll, events.as_mut_ptr(), 64, 0) };
        for event in &events[..count.max(0) as usize] {
            let client = &mut all[event.data as usize];
            match client.stream.read(&mut bytes) {
                Ok(0) => panic!("the server ended"),
                Ok(n) => client.got += n,
                Err(error) if error.kind() == WouldBlock => continue,
                Err(error) => panic!("{error}"),
            }
            let time = now();
            while client.got >= ANSWER {
                client.got -= ANSWER;
                let due = client.due.pop_front().expect("an answer to a command");
                open -= 1;
                if due >= warm {
                    took.push(time - due);
                }
            }
        }
        if next >= end as f64 && (open == 0 || time > end + 1_000_000_000) {
            break;
        }
    }
    took.sort_unstable();
    late.sort_unstable();
    println!(
        "{rate} a second, {:.0} answered, {open} not; us at 50, 99, 99.9, 100 %: {:.0} {:.0} {:.0} {:.0}; \
         late {:.0} {:.0}, {stops} stops",
        took.len() as f64 / (millis as f64 * 0.9 / 1000.0),
        point(&took, 0.5),
        point(&took, 0.99),
        point(&took, 0.999),
        point(&took, 1.0),
        point(&late, 0.99),
        point(&late, 0.999)
    );
}
