//! `trial NAME [CORES]` tries a runtime under one of these loads, each for a limited time:
//!
//! - soak: runs tasks of eight kinds for SECONDS (the third argument; 300 if there is none), and prints their count and
//!   the memory in use.
//! - overload: requests of 100 us at 0.8, 1, 1.2 and 2 times the rate that the cores can serve, behind a limit of
//!   concurrent requests (the third argument; one more than there are cores if there is none).
//! - blocking: 10,000 requests of 5 us a second, while a task on each of four workers blocks for 100 ms.
//! - waiting: runs a million tasks that wait, and prints the bytes per task, and the time of a ping-pong with and
//!   without these tasks.
//! - drain: sends SIGTERM to the server `redis`, under load and after a million answers.
use arachne::net::{TcpListener, TcpStream};
use arachne::{Builder, Limit, Lock, Runtime};
use std::io::{ErrorKind, Read, Write};
use std::sync::atomic::{AtomicBool, AtomicU64, Ordering::*};
use std::sync::{Arc, Mutex};
use std::task::{Poll, Waker};
use std::thread;
use std::time::{Duration, Instant};

/// The length of a message in bytes. A request has the time at which it was due, in nanoseconds since the trial began,
/// and the microseconds of work that it takes. An answer has the same time, and 1 if the request was accepted.
const SIZE: usize = 16;

fn spin(time: Duration) {
    let start = Instant::now();
    while start.elapsed() < time {
        std::hint::spin_loop();
    }
}

async fn request(bytes: [u8; SIZE], out: Arc<Lock<Arc<TcpStream>>>, ticket: Option<arachne::Ticket>) {
    let mut answer = bytes;
    let micros = u64::from_le_bytes(bytes[8..].try_into().unwrap());
    if ticket.is_some() {
        // Before this request's work, other requests that have arrived are read, and refused if there are too many.
        arachne::yield_now().await;
        spin(Duration::from_micros(micros));
    }
    answer[8..].copy_from_slice(&u64::from(ticket.is_some()).to_le_bytes());
    drop(ticket);
    let stream = out.lock().await;
    let _ = stream.write_all(&answer).await;
}

async fn connection(stream: TcpStream, limit: Limit) -> std::io::Result<()> {
    stream.set_nodelay(true)?;
    let stream = Arc::new(stream);
    let out = Arc::new(Lock::new(stream.clone()));
    let (mut buffer, mut len) = (vec![0; 4096], 0);
    loop {
        match stream.read(&mut buffer[len..]).await? {
            0 => return Ok(()),
            n => len += n,
        }
        for bytes in buffer[..len].chunks_exact(SIZE) {
            let bytes: [u8; SIZE] = bytes.try_into().unwrap();
            match limit.enter() {
                Some(ticket) => drop(arachne::spawn(request(bytes, out.clone(), Some(ticket)))),
                None => request(bytes, out.clone(), None).await,
            }
        }
        let whole = len / SIZE * SIZE;
        buffer.copy_within(whole..len, 0);
        len -= whole;
    }
}

fn serve(runtime: &Runtime, most: usize) -> std::net::SocketAddr {
    let listener = TcpListener::bind("127.0.0.1:0").unwrap();
    let at = listener.local_addr().unwrap();
    let limit = Limit::new(most);
    runtime.spawn(async move {
        while let Ok((stream, _)) = listener.accept().await {
            let limit = limit.clone();
            arachne::spawn_balanced(async move {
                let _ = connection(stream, limit).await;
            });
        }
    });
    at
}

/// The numbers of requests sent and refused, and the latencies of the others, each from when the request was due.
#[derive(Default)]
struct Answers {
    sent: u64,
    refused: u64,
    /// For each accepted request, its latency and the time at which it was due.
    times: Vec<(u64, u64)>,
}

impl Answers {
    fn at(&mut self, part: f64) -> f64 {
        self.times.sort_unstable();
        let last = self.times.len().saturating_sub(1);
        self.times
            .get((self.times.len() as f64 * part) as usize)
            .or(self.times.get(last))
            .map_or(0.0, |t| t.0 as f64 / 1e3)
    }

    fn line(&mut self, rate: f64, time: Duration) -> String {
        let accepted = self.times.len() as f64 / time.as_secs_f64();
        let points = [0.5, 0.99, 0.999].map(|part| self.at(part));
        format!(
            "{rate:8.0} a second: {accepted:8.0} accepted, {} of {} refused; 50 % {:.0}, 99 % {:.0}, 99.9 % {:.0} us",
            self.refused, self.sent, points[0], points[1], points[2]
        )
    }
}

struct Client {
    stream: std::net::TcpStream,
    back: Vec<u8>,
}

impl Client {
    fn new(at: std::net::SocketAddr) -> Client {
        let stream = std::net::TcpStream::connect(at).unwrap();
        stream.set_nodelay(true).unwrap();
        stream.set_nonblocking(true).unwrap();
        Client { stream, back: Vec::new() }
    }

    fn receive(&mut self, start: Instant, answers: &mut Answers) -> u64 {
        let mut bytes = [0; 4096];
        match self.stream.read(&mut bytes) {
            Ok(n) => self.back.extend(&bytes[..n]),
            Err(error) if error.kind() == ErrorKind::WouldBlock => return 0,
            Err(error) => panic!("{error}"),
        }
        let (now, whole) = (start.elapsed().as_nanos() as u64, self.back.len() / SIZE * SIZE);
        for answer in self.back[..whole].chunks_exact(SIZE) {
            let word = |at: usize| u64::from_le_bytes(answer[at..at + 8].try_into().unwrap());
            match word(8) {
                1 => answers.times.push((now.saturating_sub(word(0)), word(0))),
                _ => answers.refused += 1,
            }
        }
        self.back.drain(..whole);
        (whole / SIZE) as u64
    }
}

/// Sends `rate` requests a second, each when it is due, even if earlier requests aren't answered yet.
fn offer(at: std::net::SocketAddr, rate: f64, micros: u64, time: Duration) -> Answers {
    let mut clients: Vec<_> = (0..32).map(|_| Client::new(at)).collect();
    let (start, mut answers, mut back) = (Instant::now(), Answers::default(), 0);
    let total = (rate * time.as_secs_f64()) as u64;
    while back < total && start.elapsed() < time + Duration::from_secs(10) {
        let due = |n: u64| (n as f64 / rate * 1e9) as u64;
        while answers.sent < total && due(answers.sent) <= start.elapsed().as_nanos() as u64 {
            let mut bytes = [0; SIZE];
            bytes[..8].copy_from_slice(&due(answers.sent).to_le_bytes());
            bytes[8..].copy_from_slice(&micros.to_le_bytes());
            let client = answers.sent as usize % clients.len();
            match clients[client].stream.write(&bytes) {
                Ok(SIZE) => answers.sent += 1,
                Ok(n) => panic!("{n} bytes were written"),
                Err(_) => break,
            }
        }
        for client in &mut clients {
            back += client.receive(start, &mut answers);
        }
    }
    answers
}

fn resident() -> u64 {
    let text = std::fs::read_to_string("/proc/self/statm").unwrap();
    text.split(' ').nth(1).unwrap().parse::<u64>().unwrap() * 4
}

fn overload(cores: usize, limit: usize) {
    let runtime = Runtime::new(cores);
    let at = serve(&runtime, limit);
    let (time, able) = (Duration::from_secs(3), cores as f64 * 1e4);
    let mut best: f64 = 0.0;
    for part in [1.0, 1.2] {
        let mut answers = offer(at, able * part, 100, time);
        best = best.max(answers.times.len() as f64 / time.as_secs_f64());
        println!("{}", answers.line(able * part, time));
    }
    let mut most = offer(at, best * 0.8, 100, time);
    println!("{}", most.line(best * 0.8, time));
    let before = resident();
    let mut twice = offer(at, best * 2.0, 100, time);
    let (accepted, grown) = (twice.times.len() as f64 / time.as_secs_f64(), resident() - before);
    println!("{}", twice.line(best * 2.0, time));
    println!(
        "at twice the best rate: {:.3} of it answered, 99 % of the accepted within {:.2} times that at 80 %; memory grew by {grown} kB, of which {} are the client's figures",
        accepted / best, twice.at(0.99) / most.at(0.99), twice.times.capacity() * 16 / 1024
    );
}

fn blocking() {
    let runtime = Builder::new(4).watch_polls(Duration::from_millis(10), true).build().unwrap();
    let at = serve(&runtime, 1 << 20);
    let time = Duration::from_secs(3);
    let start = Instant::now();
    let client = thread::spawn(move || offer(at, 1e4, 5, time));
    thread::sleep(Duration::from_secs(1));
    let (begin, begun) = (start.elapsed(), Arc::new(AtomicU64::new(0)));
    let wait_for = |begun: &AtomicU64, count| {
        while begun.load(SeqCst) < count {
            thread::sleep(Duration::from_micros(50));
        }
    };
    let blocks = |i: u64| {
        let in_polls = begun.clone();
        let task = runtime.spawn_named(&format!("blocks-{i}"), async move {
            in_polls.fetch_add(1, SeqCst);
            // Waits until all four tasks are in their polls, so that each has a worker.
            wait_for(&in_polls, 4);
            thread::sleep(Duration::from_millis(100));
        });
        wait_for(&begun, i + 1);
        task
    };
    let tasks: Vec<_> = (0..4).map(blocks).collect();
    tasks.into_iter().for_each(|task| arachne::block_on(task).unwrap());
    let end = start.elapsed();
    let mut answers = client.join().unwrap();
    println!("{}", answers.line(1e4, time));
    answers.times.retain(|(_, due)| (begin.as_nanos()..end.as_nanos()).contains(&(*due as u128)));
    println!("those due in the {:?} of the blocking polls: {}", end - begin, answers.line(1e4, end - begin));
    let stats = runtime.stats();
    println!("slow polls {}, tasks that the watcher ran {}", stats.slow_polls, stats.rescued);
}

#[derive(Default)]
struct Mail(Mutex<(Option<u64>, Option<Waker>)>);
impl Mail {
    fn send(&self, n: u64) {
        let waker = {
            let mut at = self.0.lock().unwrap();
            at.0 = Some(n);
            at.1.take()
        };
        if let Some(waker) = waker {
            waker.wake();
        }
    }
    async fn receive(&self) -> u64 {
        arachne::poll_fn(|cx| {
            let mut at = self.0.lock().unwrap();
            match at.0.take() {
                Some(n) => Poll::Ready(n),
                None => {
                    at.1 = Some(cx.waker().clone());
                    Poll::Pending
                }
            }
        })
        .await
    }
}

fn ping_pong(runtime: &Runtime) -> f64 {
    let rounds = 200_000;
    let mut all: Vec<f64> = (0..5)
        .map(|_| {
            let start = Instant::now();
            let task = runtime.spawn(async move {
                let (there, back) = (Arc::new(Mail::default()), Arc::new(Mail::default()));
                let (from, to) = (there.clone(), back.clone());
                let other = arachne::spawn(async move {
                    for _ in 0..rounds {
                        to.send(from.receive().await + 1);
                    }
                });
                for i in 0..rounds {
                    there.send(i);
                    assert_eq!(back.receive().await, i + 1);
                }
                other.await.unwrap();
            });
            arachne::block_on(task).unwrap();
            start.elapsed().as_nanos() as f64 / rounds as f64
        })
        .collect();
    all.sort_by(|a, b| a.partial_cmp(b).unwrap());
    all[2]
}

fn waiting(cores: usize) {
    let first = resident();
    let runtime = Builder::new(cores).places(1 << 20).build().unwrap();
    let (before, alone) = (resident(), ping_pong(&runtime));
    let (go, waits) = (Arc::new(AtomicBool::new(false)), Arc::new(AtomicU64::new(0)));
    let wakers: Arc<Vec<Mutex<Option<Waker>>>> = Arc::new((0..1_000_000).map(|_| Mutex::new(None)).collect());
    let (from, start) = (resident(), Instant::now());
    let tasks: Vec<_> = (0..1_000_000)
        .map(|i| {
            let (go, waits, wakers) = (go.clone(), waits.clone(), wakers.clone());
            runtime.spawn(arachne::poll_fn(move |cx| {
                if go.load(SeqCst) {
                    return Poll::Ready(());
                }
                *wakers[i].lock().unwrap() = Some(cx.waker().clone());
                waits.fetch_add(1, SeqCst);
                Poll::Pending
            }))
        })
        .collect();
    while waits.load(SeqCst) < 1_000_000 {
        thread::sleep(Duration::from_millis(1));
    }
    println!(
        "a million tasks wait after {:?}: {} bytes each, by resident memory, and the table's {} kB",
        start.elapsed(),
        (resident() - from) * 1024 / 1_000_000,
        before - first
    );
    println!("ping-pong, medians of five: {alone:.0} ns without them, {:.0} ns among them", ping_pong(&runtime));
    go.store(true, SeqCst);
    let start = Instant::now();
    wakers.iter().for_each(|waker| waker.lock().unwrap().take().unwrap().wake());
    tasks.into_iter().for_each(|task| arachne::block_on(task).unwrap());
    println!("all were woken and have ended after {:?}", start.elapsed());
}

/// Returns the number of answers, and adds it to `all`.
fn ask(port: u16, all: &AtomicU64) -> u64 {
    let mut stream = std::net::TcpStream::connect(("127.0.0.1", port)).unwrap();
    stream.set_nodelay(true).unwrap();
    let (commands, mut answered, mut rest) = ("INCR n\r\n".repeat(64), 0, 0);
    let mut bytes = [0; 4096];
    loop {
        if rest == 0 {
            // If the server no longer reads, only its last answers and the connection's end are still to be read.
            rest = 64;
            let _ = stream.write_all(commands.as_bytes());
        }
        let len = stream.read(&mut bytes).expect("answers, or an end");
        if len == 0 {
            return answered;
        }
        let count = bytes[..len].iter().filter(|&&byte| byte == b'\n').count() as u64;
        (answered, rest) = (answered + count, rest - count);
        all.fetch_add(count, Relaxed);
    }
}

/// After a million answers, sends SIGTERM to a server that has 50 connections with 64 commands in flight each.
fn drain(cores: usize) {
    let program = std::env::current_exe().unwrap().with_file_name("redis");
    let port = std::net::TcpListener::bind("127.0.0.1:0").unwrap().local_addr().unwrap().port();
    let mut server = std::process::Command::new(program)
        .args([cores.to_string(), port.to_string()])
        .stdin(std::process::Stdio::piped())
        .stdout(std::process::Stdio::piped())
        .stderr(std::process::Stdio::null())
        .spawn()
        .unwrap();
    let mut told = std::io::BufReader::new(server.stdout.take().unwrap());
    let mut line = String::new();
    std::io::BufRead::read_line(&mut told, &mut line).unwrap();
    let all = Arc::new(AtomicU64::new(0));
    let clients: Vec<_> = (0..50)
        .map(|_| {
            let all = all.clone();
            thread::spawn(move || ask(port, &all))
        })
        .collect();
    while all.load(Relaxed) < 1_000_000 {
        thread::sleep(Duration::from_millis(1));
    }
    let start = Instant::now();
    std::process::Command::new("sh").args(["-c", &format!("kill -TERM {}", server.id())]).status().unwrap();
    server.wait().unwrap();
    let time = start.elapsed();
    let answered: u64 = clients.into_iter().map(|client| client.join().unwrap()).sum();
    line.clear();
    std::io::Read::read_to_string(&mut told, &mut line).unwrap();
    println!("the server says: {}; its clients got {answered} answers; it ended {time:?} after SIGTERM", line.trim());
    assert_eq!(line.trim(), format!("accepted {answered} answered {answered} aborted 0"));
}

async fn soaked(what: u64, lock: Arc<Lock<u64>>, done: Arc<AtomicU64>) {
    match what {
        0 => arachne::yield_now().await,
        1 => arachne::spawn(async { arachne::yield_now().await }).await.unwrap(),
        2 => arachne::sleep(Duration::from_millis(1)).await,
        3 => *lock.lock().await += 1,
        4 => assert!(arachne::timeout(Duration::from_millis(1), std::future::pending::<()>()).await.is_err()),
        5 => std::future::pending().await,
        _ => {}
    }
    done.fetch_add(1, Relaxed);
}

/// Runs tasks of eight kinds, and every 30 s prints how many have run, and the resident memory.
fn soak(cores: usize, seconds: u64) {
    let runtime = Runtime::new(cores);
    let (lock, done) = (Arc::new(Lock::new(0)), Arc::new(AtomicU64::new(0)));
    let (start, mut total, mut shown) = (Instant::now(), 0, 0);
    while start.elapsed() < Duration::from_secs(seconds) {
        let tasks: Vec<_> =
            (0..10_000).map(|i| (i, runtime.spawn(soaked(i % 8, lock.clone(), done.clone())))).collect();
        for (i, task) in tasks {
            if i % 8 == 5 {
                task.abort();
            }
            assert_eq!(arachne::block_on(task).is_err(), i % 8 == 5);
        }
        total += 10_000;
        assert_eq!(done.load(SeqCst), total / 8 * 7, "a task was lost");
        if start.elapsed().as_secs() / 30 != shown {
            shown = start.elapsed().as_secs() / 30;
            println!(
                "{:4} s: {} million tasks, {} kB",
                start.elapsed().as_secs(),
                total * 9 / 8 / 1_000_000,
                resident()
            );
        }
    }
    let time = start.elapsed();
    // A task's handle may be woken a moment before the task's slot is free.
    (0..1000).take_while(|_| runtime.live() != 0).for_each(|_| thread::sleep(Duration::from_millis(1)));
    println!("{} tasks in {time:?}, live at the end {}", total * 9 / 8, runtime.live());
}

fn main() {
    let words: Vec<String> = std::env::args().collect();
    let cores = words.get(2).map_or(2, |word| word.parse().unwrap());
    match words.get(1).map(|word| &**word) {
        Some("overload") => overload(cores, words.get(3).map_or(cores + 1, |word| word.parse().unwrap())),
        Some("blocking") => blocking(),
        Some("waiting") => waiting(cores),
        Some("drain") => drain(cores),
        Some("soak") => soak(cores, words.get(3).map_or(300, |word| word.parse().unwrap())),
        _ => eprintln!("trial soak|overload|blocking|waiting|drain [CORES]"),
    }
}
