//! The jobs of `pool_bench` on rayon and on tokio: `jobs rayon|tokio tree|chain|spawn JOBS CORES [ROUNDS [WINDOW]]`.

use std::collections::VecDeque;
use std::future::Future;
use std::pin::Pin;
use std::sync::mpsc::{sync_channel, Receiver};
use std::time::Instant;

#[derive(Clone, Copy)]
struct Load {
    jobs: u64,
    rounds: u32,
    window: usize,
}

/// What so many rounds make of a number.
fn mix(rounds: u32, number: u64) -> u64 {
    let round = |value: u64| value.wrapping_mul(value.wrapping_add(value).wrapping_add(1)).wrapping_add(1442695040888963407);
    (0..rounds).fold(number, |value, _| round(value))
}

/// The work of a job that has counted so many.
fn work(rounds: u32, counted: u64) -> u64 {
    counted.wrapping_add(u64::from(mix(rounds, counted) == 0))
}

mod on_rayon {
    use super::*;

    fn tree(size: u64, rounds: u32) -> u64 {
        let rest = size - 1;
        let (first, second) = (rest - rest / 2, rest / 2);
        let below = match (first, second) {
            (0, _) => 0,
            (first, 0) => tree(first, rounds),
            _ => {
                let (a, b) = rayon::join(|| tree(first, rounds), || tree(second, rounds));
                a + b
            }
        };
        work(rounds, 1 + below)
    }

    fn chain(size: u64, rounds: u32) -> u64 {
        let below = if size > 1 { rayon::join(|| chain(size - 1, rounds), || ()).0 } else { 0 };
        work(rounds, 1 + below)
    }

    fn spawn_each(pool: &rayon::ThreadPool, Load { jobs, rounds, window }: Load) -> u64 {
        let (mut spawned, mut sum) = (0, 0);
        let mut waits: VecDeque<Receiver<u64>> = VecDeque::new();
        while spawned < jobs || !waits.is_empty() {
            while spawned < jobs && waits.len() < window {
                let (sender, receiver) = sync_channel(1);
                pool.spawn(move || sender.send(work(rounds, 1)).unwrap());
                waits.push_back(receiver);
                spawned += 1;
            }
            let mut any = false;
            while let Some(Ok(one)) = waits.front().map(|first| first.try_recv()) {
                sum += one;
                waits.pop_front();
                any = true;
            }
            if !any {
                std::thread::yield_now();
            }
        }
        sum
    }

    pub fn run(mode: &str, cores: usize, load: Load) -> (u64, u128) {
        let pool = rayon::ThreadPoolBuilder::new().num_threads(cores).stack_size(4 << 30).build().unwrap();
        let begin = Instant::now();
        let sum = match mode {
            "tree" => pool.install(|| tree(load.jobs, load.rounds)),
            "chain" => pool.install(|| chain(load.jobs, load.rounds)),
            _ => spawn_each(&pool, load),
        };
        (sum, begin.elapsed().as_nanos())
    }
}

mod on_tokio {
    use super::*;

    fn forks(is_chain: bool, size: u64, rounds: u32) -> Pin<Box<dyn Future<Output = u64> + Send>> {
        Box::pin(async move {
            let rest = size - 1;
            let (first, second) = if is_chain { (rest, 0) } else { (rest - rest / 2, rest / 2) };
            let first = (first > 0).then(|| tokio::spawn(forks(is_chain, first, rounds)));
            let second = (second > 0).then(|| tokio::spawn(forks(is_chain, second, rounds)));
            let mut counted = 1;
            for child in [second, first].into_iter().flatten() {
                counted += child.await.unwrap();
            }
            work(rounds, counted)
        })
    }

    async fn spawn_each(Load { jobs, rounds, window }: Load) -> u64 {
        let (mut spawned, mut sum) = (0, 0);
        let mut handles = VecDeque::new();
        while spawned < jobs || !handles.is_empty() {
            while spawned < jobs && handles.len() < window {
                handles.push_back(tokio::spawn(async move { work(rounds, 1) }));
                spawned += 1;
            }
            if let Some(first) = handles.pop_front() {
                sum += first.await.unwrap();
            }
        }
        sum
    }

    pub fn run(mode: &str, cores: usize, load: Load) -> (u64, u128) {
        let runtime = tokio::runtime::Builder::new_multi_thread().worker_threads(cores).build().unwrap();
        let begin = Instant::now();
        let sum = match mode {
            "spawn" => runtime.block_on(async { tokio::spawn(spawn_each(load)).await.unwrap() }),
            _ => runtime.block_on(async { tokio::spawn(forks(mode == "chain", load.jobs, load.rounds)).await.unwrap() }),
        };
        (sum, begin.elapsed().as_nanos())
    }
}

fn main() {
    let words: Vec<String> = std::env::args().collect();
    let number = |at: usize, otherwise: u64| words.get(at).map_or(otherwise, |word| word.parse().unwrap());
    let load = Load { jobs: number(3, 1000), rounds: number(5, 0) as u32, window: number(6, 40) as usize };
    let cores = number(4, 1) as usize;
    let (sum, nanos) = match words[1].as_str() {
        "rayon" => on_rayon::run(&words[2], cores, load),
        _ => on_tokio::run(&words[2], cores, load),
    };
    println!("{sum} jobs, {nanos} ns, {:.1} ns a job", nanos as f64 / load.jobs as f64);
}
