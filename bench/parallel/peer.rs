//! An evaluator of the task language over a boxed tree that forks by a pool of kernel threads with a deque each, or by
//! rayon, and keeps sums, holds and lines.
//! `peer FILE CORES` prints the first line of what `arachne run --cores CORES` prints.
#![allow(unexpected_cfgs)]

mod line;
#[cfg_attr(rayon, path = "rayon_pool.rs")]
mod pool;
#[path = "../tree.rs"]
mod tree;

use line::Line;
use pool::{Worker, on_cores};
use std::sync::Mutex;
use std::sync::atomic::{AtomicU64, Ordering::SeqCst};
use tree::{Expr, Operation, Program, program};

/// What all threads share.
struct Shared<'p> {
    program: &'p Program,
    sums: Vec<AtomicU64>,
    locks: Vec<Mutex<()>>,
}

/// A thread: its name, what it did, its environment, and the lines below its own.
struct Thread<'p, 's> {
    shared: &'s Shared<'p>,
    name: Vec<u64>,
    holds: Vec<u64>,
    forks: u64,
    environment: Vec<u64>,
    lines: Vec<Line>,
}

/// A sweep's parts that do not change.
#[derive(Clone, Copy)]
struct Sweep<'p> {
    operation: Operation,
    grain: u64,
    body: &'p Expr,
}

impl<'p, 's> Thread<'p, 's> {
    fn new(shared: &'s Shared<'p>, name: Vec<u64>, environment: Vec<u64>) -> Thread<'p, 's> {
        let holds = vec![0; shared.program.locks];
        Thread { shared, name, holds, forks: 0, environment, lines: Vec::new() }
    }

    /// The next child, with a copy of the environment.
    fn child(&mut self) -> Thread<'p, 's> {
        let mut name = Vec::with_capacity(self.name.len() + 1);
        name.extend_from_slice(&self.name);
        name.push(self.forks);
        self.forks += 1;
        Thread::new(self.shared, name, self.environment.clone())
    }

    fn into_line(self) -> Line {
        Line { name: self.name, holds: self.holds, below: self.lines }
    }

    fn value(&mut self, worker: &Worker, expr: &'p Expr) -> u64 {
        match expr {
            Expr::Num(n) => *n,
            Expr::Var(k) => self.environment[*k as usize],
            Expr::Len(array) => self.shared.program.arrays[*array as usize].len() as u64,
            Expr::Item(array, index) => {
                let index = self.value(worker, index);
                self.shared.program.arrays[*array as usize].get(index as usize).copied().unwrap_or(0)
            }
            Expr::Binary(operation, a, b) => {
                let a = self.value(worker, a);
                let b = self.value(worker, b);
                operation.apply(a, b)
            }
            Expr::If(condition, first, second) => {
                let chosen = if self.value(worker, condition) != 0 { first } else { second };
                self.value(worker, chosen)
            }
            Expr::Let(bound, body) => {
                let bound = self.value(worker, bound);
                self.environment.push(bound);
                let value = self.value(worker, body);
                self.environment.pop();
                value
            }
            Expr::Tally(ledger, amount, body) => {
                let amount = self.value(worker, amount);
                self.shared.sums[*ledger as usize].fetch_add(amount, SeqCst);
                self.value(worker, body)
            }
            Expr::Hold(lock, body) => {
                self.holds[*lock as usize] += 1;
                let _held = self.shared.locks[*lock as usize].lock().unwrap();
                self.value(worker, body)
            }
            Expr::Fork(_, child, during, after) => {
                let mut thread = self.child();
                let ((value, line), own) = worker.both(
                    move |worker| (thread.value(worker, child), thread.into_line()),
                    |worker| self.value(worker, during),
                );
                self.lines.push(line);
                self.environment.push(value);
                self.environment.push(own);
                let value = self.value(worker, after);
                self.environment.truncate(self.environment.len() - 2);
                value
            }
            Expr::Fold(from, to, first, body) => {
                let from = self.value(worker, from);
                let to = self.value(worker, to);
                let mut so_far = self.value(worker, first);
                let bound = self.environment.len();
                for i in from..to {
                    self.environment.push(i);
                    self.environment.push(so_far);
                    so_far = self.value(worker, body);
                    self.environment.truncate(bound);
                }
                so_far
            }
            Expr::Sweep(operation, grain, from, to, body) => {
                let from = self.value(worker, from);
                let to = self.value(worker, to);
                self.sweep(worker, Sweep { operation: *operation, grain: *grain, body }, from, to)
            }
        }
    }

    fn sweep(&mut self, worker: &Worker, sweep: Sweep<'p>, from: u64, to: u64) -> u64 {
        if to.saturating_sub(from) <= sweep.grain {
            let mut so_far = sweep.operation.unit();
            for i in from..to {
                self.environment.push(i);
                let value = self.value(worker, sweep.body);
                self.environment.pop();
                so_far = sweep.operation.apply(so_far, value);
            }
            return so_far;
        }
        let middle = from + (to - from) / 2;
        let mut thread = self.child();
        let ((left, line), right) = worker.both(
            move |worker| (thread.sweep(worker, sweep, from, middle), thread.into_line()),
            |worker| self.sweep(worker, sweep, middle, to),
        );
        self.lines.push(line);
        sweep.operation.apply(left, right)
    }
}

/// The value, and the lines of all threads in order.
fn run(program: &Program, cores: usize) -> (u64, Vec<Line>) {
    let shared = Shared {
        program,
        sums: (0..program.ledgers).map(|_| AtomicU64::new(0)).collect(),
        locks: (0..program.locks).map(|_| Mutex::new(())).collect(),
    };
    on_cores(cores, |worker| {
        let mut root = Thread::new(&shared, Vec::new(), Vec::new());
        let value = root.value(worker, &program.root);
        let mut lines = Vec::new();
        root.into_line().listed(&mut lines);
        (value, lines)
    })
}

fn main() {
    let words: Vec<String> = std::env::args().collect();
    let text = std::fs::read_to_string(&words[1]).unwrap();
    let cores: usize = words[2].parse().unwrap();
    let program = program(&text);
    let (value, _lines) = run(&program, cores);
    println!("value {value}");
}
