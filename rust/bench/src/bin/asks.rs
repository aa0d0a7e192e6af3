//! `asks PORT CLIENTS IN-FLIGHT MILLISECONDS` is a client of a Redis server that measures how long connections wait.
//!
//! In each *round* of a connection, IN-FLIGHT SETs (requests) are sent at once, and all are answered. The program
//! prints how long a round takes (percentiles 50, 99 and 99.9), how many later rounds were answered before it, and how
//! many rounds each connection had. It also prints the periods in which the slowest rounds waited.
use std::thread;
use std::time::{Duration, Instant};
use tokio::io::{AsyncReadExt, AsyncWriteExt};

const THREADS: usize = 2;
const ANSWER: &[u8] = b"+OK\r\n";

/// One round (several requests sent at once), with its times in nanoseconds.
#[derive(Clone, Copy)]
struct Round {
    client: usize,
    sent: u64,
    answered: u64,
}

fn commands(client: usize, flight: usize) -> Vec<u8> {
    let set = |i| {
        let key = format!("key:{:012}", (client * 7919 + i * 104729) % 100_000);
        format!("*3\r\n$3\r\nSET\r\n${}\r\n{key}\r\n$64\r\n{}\r\n", key.len(), "x".repeat(64))
    };
    (0..flight).map(set).collect::<String>().into_bytes()
}

async fn ask(port: u16, client: usize, flight: usize, start: Instant, time: Duration) -> std::io::Result<Vec<Round>> {
    let mut stream = tokio::net::TcpStream::connect(("127.0.0.1", port)).await?;
    stream.set_nodelay(true)?;
    let (bytes, mut answers, mut rounds) = (commands(client, flight), vec![0; flight * ANSWER.len()], Vec::new());
    let now = || start.elapsed().as_nanos() as u64;
    while start.elapsed() < time {
        let sent = now();
        stream.write_all(&bytes).await?;
        stream.read_exact(&mut answers).await?;
        assert!(answers.chunks(ANSWER.len()).all(|answer| answer == ANSWER), "an answer is no OK");
        rounds.push(Round { client, sent, answered: now() });
    }
    Ok(rounds)
}

fn overtaken(rounds: &[Round]) -> Vec<u64> {
    let mut by_sent: Vec<usize> = (0..rounds.len()).collect();
    by_sent.sort_by_key(|&i| rounds[i].sent);
    let mut rank = vec![0; rounds.len()];
    by_sent.iter().enumerate().for_each(|(at, &i)| rank[i] = at + 1);
    let mut by_answer = by_sent;
    by_answer.sort_by_key(|&i| rounds[i].answered);
    // A Fenwick tree (of prefix sums) over the ranks of the rounds that were answered before.
    let (mut tree, mut out) = (vec![0u64; rounds.len() + 1], Vec::with_capacity(rounds.len()));
    for (before, &i) in by_answer.iter().enumerate() {
        let (mut at, mut earlier) = (rank[i], 0);
        while at > 0 {
            earlier += tree[at];
            at &= at - 1;
        }
        out.push(before as u64 - earlier);
        at = rank[i];
        while at < tree.len() {
            tree[at] += 1;
            at += at & at.wrapping_neg();
        }
    }
    out
}

fn points(mut numbers: Vec<u64>) -> [u64; 4] {
    numbers.sort_unstable();
    let last = numbers.len() - 1;
    [0.5, 0.99, 0.999, 1.0].map(|part| numbers[((numbers.len() as f64 * part) as usize).min(last)])
}

/// Prints the number and the length of the periods in which one of the slowest rounds (one in a thousand) waited.
fn stalls(rounds: &[Round]) {
    let times = points(rounds.iter().map(|r| r.answered - r.sent).collect());
    let mut slow: Vec<_> = rounds.iter().filter(|r| r.answered - r.sent >= times[2]).collect();
    slow.sort_by_key(|r| r.sent);
    let mut groups: Vec<(u64, u64, Vec<usize>)> = Vec::new();
    for round in slow {
        match groups.last_mut().filter(|group| round.sent < group.1) {
            Some(group) => {
                group.1 = group.1.max(round.answered);
                group.2.push(round.client);
            }
            None => groups.push((round.sent, round.answered, vec![round.client])),
        }
    }
    let connections = |group: &mut (u64, u64, Vec<usize>)| {
        group.2.sort_unstable();
        group.2.dedup();
        group.2.len() as u64
    };
    let long = points(groups.iter().map(|group| (group.1 - group.0) / 1000).collect());
    let wide = points(groups.iter_mut().map(connections).collect());
    println!(
        "slowest: {} stretches of {} us, {} connections in each (at most {})",
        groups.len(),
        long[0],
        wide[0],
        wide[3]
    );
}

fn report(rounds: &[Round], clients: usize, flight: usize, time: Duration) {
    let took =
        |rounds: &mut dyn Iterator<Item = &Round>| points(rounds.map(|r| (r.answered - r.sent) / 1000).collect());
    let rate = rounds.len() as f64 * flight as f64 / time.as_secs_f64();
    println!("{rate:.0} a second; rounds at 50, 99, 99.9, 100 % (us): {:?}", took(&mut rounds.iter()));
    println!("overtaken by, at 50, 99, 99.9, 100 %: {:?}", points(overtaken(rounds)));
    stalls(rounds);
    for client in 0..clients {
        let of: Vec<_> = rounds.iter().filter(|r| r.client == client).copied().collect();
        println!("client {client:3}: {:6} rounds, us {:?}", of.len(), took(&mut of.iter()));
    }
}

fn main() {
    let number = |at: usize| std::env::args().nth(at).and_then(|word| word.parse().ok());
    let numbers = (number(1), number(2), number(3), number(4));
    let (Some(port), Some(clients), Some(flight), Some(millis)) = numbers else {
        panic!("asks PORT CLIENTS IN-FLIGHT MILLISECONDS")
    };
    let (start, time) = (Instant::now(), Duration::from_millis(millis as u64));
    let half = move |thread: usize| {
        let runtime = tokio::runtime::Builder::new_current_thread().enable_all().build().unwrap();
        runtime.block_on(async move {
            let ask = |client| tokio::spawn(ask(port as u16, client, flight, start, time));
            let tasks: Vec<_> = (thread..clients).step_by(THREADS).map(ask).collect();
            let mut rounds = Vec::new();
            for task in tasks {
                rounds.extend(task.await.unwrap().unwrap());
            }
            rounds
        })
    };
    let threads: Vec<_> = (0..THREADS).map(|t| thread::spawn(move || half(t))).collect();
    let rounds: Vec<Round> = threads.into_iter().flat_map(|thread| thread.join().unwrap()).collect();
    report(&rounds, clients, flight, time);
}
