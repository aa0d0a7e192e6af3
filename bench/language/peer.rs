//! A plain recursive evaluator of the task language over a boxed tree, which keeps sums, holds and lines.
//! `peer FILE ROUNDS` prints what `language_bench eval FILE ROUNDS` does.
#[path = "../tree.rs"]
mod tree;

use std::time::Instant;
use tree::{Expr, Operation, Program, peak, program};

/// A thread's name and how often it held each lock.
#[allow(dead_code)]
struct Line {
    name: Vec<u64>,
    holds: Vec<u64>,
}

/// What the thread that is being evaluated did itself.
struct Own {
    name: Vec<u64>,
    holds: Vec<u64>,
    forks: u64,
}

impl Own {
    fn fork(&mut self) -> Vec<u64> {
        let mut name = Vec::with_capacity(self.name.len() + 1);
        name.extend_from_slice(&self.name);
        name.push(self.forks);
        self.forks += 1;
        name
    }
}

struct Evaluator<'p> {
    program: &'p Program,
    environment: Vec<u64>,
    sums: Vec<u64>,
    lines: Vec<Line>,
}

/// A sweep's parts that do not change.
struct Sweep<'p> {
    operation: Operation,
    grain: u64,
    body: &'p Expr,
}

impl<'p> Evaluator<'p> {
    /// Evaluates in a thread of its own, whose line goes before those of the threads below it.
    fn run(&mut self, name: Vec<u64>, evaluate: impl FnOnce(&mut Self, &mut Own) -> u64) -> u64 {
        let place = self.lines.len();
        self.lines.push(Line { name: Vec::new(), holds: Vec::new() });
        let mut own = Own { name, holds: vec![0; self.program.locks], forks: 0 };
        let value = evaluate(self, &mut own);
        self.lines[place] = Line { name: own.name, holds: own.holds };
        value
    }

    fn value(&mut self, own: &mut Own, expr: &'p Expr) -> u64 {
        match expr {
            Expr::Num(n) => *n,
            Expr::Var(k) => self.environment[*k as usize],
            Expr::Len(array) => self.program.arrays[*array as usize].len() as u64,
            Expr::Item(array, index) => {
                let index = self.value(own, index);
                self.program.arrays[*array as usize].get(index as usize).copied().unwrap_or(0)
            }
            Expr::Binary(operation, a, b) => {
                let a = self.value(own, a);
                let b = self.value(own, b);
                operation.apply(a, b)
            }
            Expr::If(condition, first, second) => {
                if self.value(own, condition) != 0 {
                    self.value(own, first)
                } else {
                    self.value(own, second)
                }
            }
            Expr::Let(bound, body) => {
                let bound = self.value(own, bound);
                self.environment.push(bound);
                let value = self.value(own, body);
                self.environment.pop();
                value
            }
            Expr::Tally(ledger, amount, body) => {
                let amount = self.value(own, amount);
                let sum = &mut self.sums[*ledger as usize];
                *sum = sum.wrapping_add(amount);
                self.value(own, body)
            }
            Expr::Hold(lock, body) => {
                let holds = &mut own.holds[*lock as usize];
                *holds = holds.wrapping_add(1);
                self.value(own, body)
            }
            Expr::Fork(_, child, during, after) => self.fork(own, child, during, after),
            Expr::Fold(from, to, first, body) => self.fold(own, from, to, first, body),
            Expr::Sweep(operation, grain, from, to, body) => {
                let from = self.value(own, from);
                let to = self.value(own, to);
                let sweep = Sweep { operation: *operation, grain: *grain, body };
                self.sweep(own, &sweep, from, to)
            }
        }
    }

    fn fork(&mut self, own: &mut Own, child: &'p Expr, during: &'p Expr, after: &'p Expr) -> u64 {
        let name = own.fork();
        let own_value = self.value(own, during);
        let child_value = self.run(name, |evaluator, own| evaluator.value(own, child));
        self.environment.push(child_value);
        self.environment.push(own_value);
        let value = self.value(own, after);
        self.environment.truncate(self.environment.len() - 2);
        value
    }

    fn fold(&mut self, own: &mut Own, from: &'p Expr, to: &'p Expr, first: &'p Expr, body: &'p Expr) -> u64 {
        let from = self.value(own, from);
        let to = self.value(own, to);
        let mut so_far = self.value(own, first);
        let bound = self.environment.len();
        for i in from..to {
            self.environment.push(i);
            self.environment.push(so_far);
            so_far = self.value(own, body);
            self.environment.truncate(bound);
        }
        so_far
    }

    fn sweep(&mut self, own: &mut Own, sweep: &Sweep<'p>, from: u64, to: u64) -> u64 {
        if to.saturating_sub(from) <= sweep.grain {
            let mut so_far = sweep.operation.unit();
            for i in from..to {
                self.environment.push(i);
                let value = self.value(own, sweep.body);
                self.environment.pop();
                so_far = sweep.operation.apply(so_far, value);
            }
            return so_far;
        }
        let middle = from + (to - from) / 2;
        let name = own.fork();
        let right = self.sweep(own, sweep, middle, to);
        let left = self.run(name, |evaluator, own| evaluator.sweep(own, sweep, from, middle));
        sweep.operation.apply(left, right)
    }
}

/// The value and how many threads there were.
fn eval(program: &Program) -> (u64, Vec<Line>) {
    let sums = vec![0; program.ledgers];
    let mut evaluator = Evaluator { program, environment: Vec::new(), sums, lines: Vec::new() };
    let value = evaluator.run(Vec::new(), |evaluator, own| evaluator.value(own, &program.root));
    (value, evaluator.lines)
}

fn main() {
    let words: Vec<String> = std::env::args().collect();
    let text = std::fs::read_to_string(&words[1]).unwrap();
    let rounds: u32 = words[2].parse().unwrap();
    let program = program(&text);
    let (mut values, mut threads) = (0u64, 0);
    let start = Instant::now();
    for _ in 0..rounds {
        let (value, lines) = eval(&program);
        values = values.wrapping_add(value);
        threads += lines.len();
    }
    println!("{} {values} {threads} {}", start.elapsed().as_nanos(), peak());
}
