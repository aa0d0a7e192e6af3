//! Times the calls of `arachne_exec_c` beside the same steps by hand, and what locks and waiting jobs take of memory:
//! exec, exec row NUMBER library|hand (one sitting on one thread, for counts of instructions), exec locks HOLDS, exec
//! waiting JOBS.
#[path = "../../examples/rust/arachne_exec/declared.rs"]
mod declared;
mod hand;
use declared::*;
use hand::{Hand, Next, Seat};
use std::hint::black_box;
use std::sync::Barrier;
use std::time::Instant;

const SITTINGS: usize = 9;
const ROUNDS: u64 = 200_000;
/// Workers of a sitting with 1,000 blocks, since a worker looks after 256 at most.
const LOOKERS: usize = 4;

/// What a row does: a thread's rounds by the library, and by hand.
struct Row {
    name: &'static str,
    library: fn(&mut Library, usize),
    hand: fn(&Hand, &mut Seat, usize, usize),
    /// Blocks with a ready job, of each worker.
    ready: usize,
    shards: usize,
}

/// A thread's handles: one to work with, one to wake others, and which worker it is. A handle is written by each call,
/// so those of two threads stand on cache lines of their own.
#[repr(align(128))]
struct Library {
    exec: ArachneExec,
    other: ArachneExec,
    worker: usize,
}

// A handle may go to another thread; one thread at a time uses it.
unsafe impl Send for Library {}

fn expect(told: ArachneExecTold, code: u32) -> ArachneExecTold {
    if told.code != code {
        eprintln!("exec: the code {} where {code} was due", told.code);
        std::process::exit(1);
    }
    told
}

fn expect_done(code: u32) {
    expect(ArachneExecTold { name: 0, job: 0, code, unpark: NOBODY }, DONE);
}

fn spawn_to_finish(it: &mut Library, block: usize) {
    for job in 0..ROUNDS {
        unsafe {
            expect(arachne_exec_spawn(&mut it.exec, block, job), READY);
            expect(arachne_exec_take(&mut it.exec, block), RUN);
            arachne_exec_finish(&mut it.exec);
        }
    }
}

fn spawn_to_finish_by_hand(exec: &Hand, seat: &mut Seat, block: usize, _worker: usize) {
    for job in 0..ROUNDS {
        black_box(exec.spawn(block, job));
        let taken = exec.take(seat, block).unwrap();
        exec.finish(black_box(taken).place);
    }
}

fn here_to_finish(it: &mut Library, block: usize) {
    for job in 0..ROUNDS {
        unsafe {
            expect(arachne_exec_spawn_here(&mut it.exec, block, job), RUN);
            arachne_exec_finish(&mut it.exec);
        }
    }
}

fn here_to_finish_by_hand(exec: &Hand, _seat: &mut Seat, block: usize, _worker: usize) {
    for job in 0..ROUNDS {
        exec.finish(black_box(exec.spawn_here(block, job)).unwrap().place);
    }
}

/// Jobs of a round of `many_at_once`.
const MANY: u32 = 16;

/// Jobs that are taken in one step, start one by one and are ready again.
fn many_at_once(it: &mut Library, block: usize) {
    unsafe {
        for job in 0..MANY {
            expect(arachne_exec_spawn(&mut it.exec, block, job.into()), READY);
        }
        for _ in 0..ROUNDS {
            let mut bits = arachne_exec_take_many(&mut it.exec, block, MANY);
            while bits != 0 {
                expect(arachne_exec_start(&mut it.exec), RUN);
                expect(arachne_exec_rest_ready(&mut it.exec), READY);
                bits &= bits - 1;
            }
        }
    }
}

fn many_at_once_by_hand(exec: &Hand, _seat: &mut Seat, block: usize, _worker: usize) {
    for job in 0..MANY {
        exec.spawn(block, job.into());
    }
    for _ in 0..ROUNDS {
        let mut bits = exec.take_many(block, MANY);
        while bits != 0 {
            let job = exec.start(64 * block + bits.trailing_zeros() as usize);
            exec.rest_ready(black_box(job).place);
            bits &= bits - 1;
        }
    }
}

fn take_to_wake(it: &mut Library, block: usize) {
    unsafe {
        let name = expect(arachne_exec_spawn(&mut it.exec, block, 7), READY).name;
        for _ in 0..ROUNDS {
            expect(arachne_exec_take(&mut it.exec, block), RUN);
            expect(arachne_exec_rest_blocked(&mut it.exec), BLOCKED);
            expect(arachne_exec_wake(&mut it.exec, name), READY);
        }
        expect(arachne_exec_take(&mut it.exec, block), RUN);
        arachne_exec_finish(&mut it.exec);
    }
}

fn take_to_wake_by_hand(exec: &Hand, seat: &mut Seat, block: usize, _worker: usize) {
    let (name, _) = exec.spawn(block, 7).unwrap();
    for _ in 0..ROUNDS {
        let job = exec.take(seat, block).unwrap();
        assert!(exec.rest_blocked(black_box(job).place));
        black_box(exec.wake(name));
    }
    exec.finish(exec.take(seat, block).unwrap().place);
}

/// A worker that would sleep, is found idle by a wake, and runs the job, which waits again.
fn wake_of_a_sleeper(it: &mut Library, block: usize) {
    unsafe {
        let name = expect(arachne_exec_spawn(&mut it.exec, block, 7), READY).name;
        expect(arachne_exec_next(&mut it.exec), RUN);
        expect(arachne_exec_rest_blocked(&mut it.exec), BLOCKED);
        while arachne_exec_next(&mut it.exec).code != PARK {}
        for _ in 0..ROUNDS {
            let told = expect(arachne_exec_wake(&mut it.other, name), READY);
            assert!(told.unpark == it.worker as u32);
            expect(arachne_exec_next(&mut it.exec), RUN);
            expect(arachne_exec_rest_blocked(&mut it.exec), BLOCKED);
            while arachne_exec_next(&mut it.exec).code != PARK {}
        }
        arachne_exec_wake(&mut it.other, name);
        expect(arachne_exec_next(&mut it.exec), RUN);
        arachne_exec_finish(&mut it.exec);
    }
}

fn wake_of_a_sleeper_by_hand(exec: &Hand, seat: &mut Seat, block: usize, worker: usize) {
    let run = |seat: &mut Seat| match exec.next(seat, worker) {
        Next::Run(job) => job,
        _ => unreachable!(),
    };
    let (name, _) = exec.spawn(block, 7).unwrap();
    assert!(exec.rest_blocked(run(seat).place));
    while !matches!(exec.next(seat, worker), Next::Park) {}
    for _ in 0..ROUNDS {
        assert!(exec.wake(name));
        assert!(exec.rest_blocked(run(seat).place));
        while !matches!(exec.next(seat, worker), Next::Park) {}
    }
    exec.wake(name);
    exec.finish(run(seat).place);
}

fn park(it: &mut Library, _block: usize) {
    while unsafe { arachne_exec_next(&mut it.exec) }.code != PARK {}
    for _ in 0..ROUNDS {
        expect(unsafe { arachne_exec_next(&mut it.exec) }, PARK);
    }
}

fn park_by_hand(exec: &Hand, seat: &mut Seat, _block: usize, worker: usize) {
    while !matches!(exec.next(seat, worker), Next::Park) {}
    for _ in 0..ROUNDS {
        assert!(matches!(black_box(exec.next(seat, worker)), Next::Park));
    }
}

/// `next` and a rest: jobs that are ready again at once, one in each block.
fn next_and_rest(it: &mut Library, _block: usize) {
    for _ in 0..ROUNDS {
        unsafe {
            expect(arachne_exec_next(&mut it.exec), RUN);
            expect(arachne_exec_rest_ready(&mut it.exec), READY);
        }
    }
}

fn next_and_rest_by_hand(exec: &Hand, seat: &mut Seat, _block: usize, worker: usize) {
    for _ in 0..ROUNDS {
        let Next::Run(job) = exec.next(seat, worker) else { unreachable!() };
        exec.rest_ready(black_box(job).place);
    }
}

const ROWS: [Row; 8] = [
    Row { name: "spawn, take, finish", library: spawn_to_finish, hand: spawn_to_finish_by_hand, ready: 0, shards: 4 },
    Row { name: "spawn here, finish", library: here_to_finish, hand: here_to_finish_by_hand, ready: 0, shards: 4 },
    Row { name: "16 taken at once, start, rest", library: many_at_once, hand: many_at_once_by_hand, ready: 0, shards: 4 },
    Row { name: "take, block, wake", library: take_to_wake, hand: take_to_wake_by_hand, ready: 0, shards: 4 },
    Row { name: "a sleeper is woken, runs, sleeps", library: wake_of_a_sleeper, hand: wake_of_a_sleeper_by_hand, ready: 0, shards: 4 },
    Row { name: "next, 0 blocks: park", library: park, hand: park_by_hand, ready: 0, shards: 4 },
    Row { name: "next and rest, 1 block", library: next_and_rest, hand: next_and_rest_by_hand, ready: 1, shards: 4 },
    Row { name: "next and rest, 1,000 blocks", library: next_and_rest, hand: next_and_rest_by_hand, ready: 250, shards: 256 },
];

/// The block of a worker with this number among its own.
fn block_of(worker: usize, number: usize) -> usize {
    64 * (worker + 64 * (number / 64)) + number % 64
}

fn handle(root: &mut ArachneExec) -> ArachneExec {
    let mut other = ArachneExec::NULL;
    expect_done(unsafe { arachne_exec_split(root, &mut other) });
    other
}

/// Nanoseconds a round by the library, on so many threads at once.
fn by_library(row: &Row, threads: usize) -> f64 {
    let mut root = ArachneExec::NULL;
    expect_done(unsafe { arachne_exec_new(&mut root, row.shards) });
    let mut libraries: Vec<Library> = (0..threads).map(|_| Library { exec: handle(&mut root), other: handle(&mut root), worker: 0 }).collect();
    for (worker, it) in libraries.iter_mut().enumerate() {
        it.worker = worker;
        expect_done(unsafe { arachne_exec_register(&mut it.exec, worker as u32) });
        for number in 0..row.ready {
            expect(unsafe { arachne_exec_spawn(&mut it.exec, block_of(worker, number), 7) }, READY);
        }
    }
    let barrier = Barrier::new(threads);
    let nanos = at_once(libraries.iter_mut().map(|it| {
        let (barrier, call) = (&barrier, row.library);
        move || {
            let block = block_of(it.worker, 0);
            barrier.wait();
            let start = Instant::now();
            call(it, block);
            start.elapsed().as_nanos()
        }
    }));
    for it in &mut libraries {
        unsafe {
            arachne_exec_close(&mut it.exec);
            arachne_exec_close(&mut it.other);
        }
    }
    unsafe { arachne_exec_close(&mut root) };
    nanos / ROUNDS as f64
}

/// The same by hand.
fn by_hand(row: &Row, threads: usize) -> f64 {
    let exec = Hand::new(row.shards);
    for worker in 0..threads {
        for number in 0..row.ready {
            exec.spawn(block_of(worker, number), 7);
        }
    }
    let barrier = Barrier::new(threads);
    let nanos = at_once((0..threads).map(|worker| {
        let (barrier, call, exec) = (&barrier, row.hand, &exec);
        move || {
            let mut seat = Seat::default();
            barrier.wait();
            let start = Instant::now();
            call(exec, &mut seat, block_of(worker, 0), worker);
            start.elapsed().as_nanos()
        }
    }));
    nanos / ROUNDS as f64
}

/// The longest of what threads answer that run side by side.
fn at_once<F: FnOnce() -> u128 + Send>(calls: impl Iterator<Item = F>) -> f64 {
    let mut calls: Vec<F> = calls.collect();
    let Some(first) = calls.pop() else { return 0.0 };
    std::thread::scope(|scope| {
        let others: Vec<_> = calls.into_iter().map(|call| scope.spawn(call)).collect();
        let mine = first();
        others.into_iter().map(|it| it.join().unwrap()).fold(mine, u128::max)
    }) as f64
}

fn median(times: &mut [f64]) -> f64 {
    times.sort_by(f64::total_cmp);
    times[times.len() / 2]
}

fn times() {
    println!("{:<34} {:>7} {:>10} {:>10} {:>7}", "nanoseconds a round, medians of 9", "threads", "library", "by hand", "times");
    for threads in [1, 4] {
        for row in &ROWS {
            let (mut library, mut hand) = (vec![], vec![]);
            let threads = if row.ready > 1 { threads.max(LOOKERS) } else { threads };
            for _ in 0..SITTINGS {
                library.push(by_library(row, threads));
                hand.push(by_hand(row, threads));
            }
            let (library, hand) = (median(&mut library), median(&mut hand));
            println!("{:<34} {threads:>7} {library:>10.1} {hand:>10.1} {:>7.2}", row.name, library / hand);
        }
    }
}

/// How many kilobytes of memory the process has.
fn resident() -> u64 {
    let text = std::fs::read_to_string("/proc/self/status").unwrap();
    let line = text.lines().find(|line| line.starts_with("VmRSS")).unwrap();
    line.split_whitespace().nth(1).unwrap().parse().unwrap()
}

fn locks(holds: u64) {
    let mut locks = ArachneLocks::NULL;
    expect_done(unsafe { arachne_locks_new(&mut locks, 1) });
    let mut early = 0;
    for hold in 0..holds {
        unsafe {
            assert!(arachne_lock_ask(&mut locks, 0, 7).code == GRANTED);
            assert!(arachne_lock_free(&mut locks, 0, 7).code == FREED);
        }
        if hold + 1 == 1_000_000 {
            early = resident();
        }
    }
    println!("{early} kB after the first million holds of one lock, {} kB after {holds}", resident());
    unsafe { arachne_locks_close(&mut locks) };
}

/// Jobs that wait, each in a place of its own: what the process has more than before.
fn waiting(jobs: usize) {
    let before = resident();
    let mut exec = ArachneExec::NULL;
    expect_done(unsafe { arachne_exec_new(&mut exec, jobs.div_ceil(4096)) });
    for job in 0..jobs {
        unsafe {
            expect(arachne_exec_spawn_here(&mut exec, job / 64, job as u64 + 1), RUN);
            expect(arachne_exec_rest_blocked(&mut exec), BLOCKED);
        }
    }
    let more = resident() - before;
    println!("{jobs} jobs wait: {more} kB, {:.1} bytes each", more as f64 * 1024.0 / jobs as f64);
    let mut left = vec![0; 4096 * jobs.div_ceil(4096)];
    let told = unsafe { arachne_exec_end(&mut exec, left.as_mut_ptr(), left.len()) };
    assert!(told.code == DONE && told.count == jobs as u64);
    left.truncate(jobs);
    left.sort();
    assert!(left.iter().enumerate().all(|(at, job)| *job == at as u64 + 1));
    println!("{jobs} jobs were handed back, each once");
}

fn main() {
    let words: Vec<String> = std::env::args().skip(1).collect();
    let number = |default: u64| words.get(1).map_or(default, |word| word.parse().unwrap());
    match words.first().map(String::as_str) {
        None => times(),
        Some("row") => {
            let row = &ROWS[number(0) as usize];
            let by = if words[2] == "hand" { by_hand } else { by_library };
            println!("{}: {:.1} ns", row.name, by(row, 1));
        }
        Some("locks") => locks(number(100_000_000)),
        Some("waiting") => waiting(number(1_000_000) as usize),
        Some(word) => eprintln!("exec: no {word}"),
    }
}
