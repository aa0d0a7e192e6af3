//! An evaluator of the task language over a boxed tree whose threads are tasks of tokio's runtime of many kernel
//! threads, and which keeps sums, holds and lines. A hold takes tokio's mutex, so that it blocks a task and no kernel
//! thread. `peer FILE CORES` prints the first line of what `arachne run --cores CORES` prints.

mod line;
#[path = "../tree.rs"]
mod tree;

use line::Line;
use std::future::Future;
use std::pin::Pin;
use std::sync::atomic::{AtomicU64, Ordering::SeqCst};
use tokio::sync::Mutex;
use tokio::task::JoinHandle;
use tree::{Expr, Operation, Program, program};

/// An expression, whether a fork, a sweep or a hold is in it, and its parts. What has none of them is evaluated without
/// a future.
struct Node {
    expr: &'static Expr,
    waits: bool,
    parts: Vec<Node>,
}

impl Node {
    fn new(expr: &'static Expr) -> Node {
        let parts: Vec<&'static Expr> = match expr {
            Expr::Num(_) | Expr::Var(_) | Expr::Len(_) => vec![],
            Expr::Item(_, a) | Expr::Hold(_, a) => vec![a],
            Expr::Binary(_, a, b) | Expr::Let(a, b) | Expr::Tally(_, a, b) => vec![a, b],
            Expr::If(a, b, c) | Expr::Fork(_, a, b, c) | Expr::Sweep(_, _, a, b, c) => vec![a, b, c],
            Expr::Fold(a, b, c, d) => vec![a, b, c, d],
        };
        let parts: Vec<Node> = parts.into_iter().map(Node::new).collect();
        let itself = matches!(expr, Expr::Hold(..) | Expr::Fork(..) | Expr::Sweep(..));
        Node { expr, waits: itself || parts.iter().any(|part| part.waits), parts }
    }
}

/// What all threads share. It is never freed, since a task may not borrow from what is.
struct Shared {
    program: &'static Program,
    sums: Vec<AtomicU64>,
    locks: Vec<Mutex<()>>,
}

/// A thread: its name, what it did, its environment, and the lines below its own.
struct Thread {
    shared: &'static Shared,
    name: Vec<u64>,
    holds: Vec<u64>,
    forks: u64,
    environment: Vec<u64>,
    lines: Vec<Line>,
}

/// A sweep's parts that do not change.
#[derive(Clone, Copy)]
struct Sweep {
    operation: Operation,
    grain: u64,
    body: &'static Node,
}

/// Starts a thread that evaluates an expression.
fn start(mut thread: Thread, node: &'static Node) -> JoinHandle<(u64, Line)> {
    tokio::spawn(async move { (thread.value(node).await, thread.into_line()) })
}

/// Starts a thread that evaluates a part of a sweep.
fn start_sweep(mut thread: Thread, sweep: Sweep, from: u64, to: u64) -> JoinHandle<(u64, Line)> {
    tokio::spawn(async move { (thread.sweep(sweep, from, to).await, thread.into_line()) })
}

impl Thread {
    fn new(shared: &'static Shared, name: Vec<u64>, environment: Vec<u64>) -> Thread {
        let holds = vec![0; shared.program.locks];
        Thread { shared, name, holds, forks: 0, environment, lines: Vec::new() }
    }

    /// The next child, with a copy of the environment.
    fn child(&mut self) -> Thread {
        let mut name = Vec::with_capacity(self.name.len() + 1);
        name.extend_from_slice(&self.name);
        name.push(self.forks);
        self.forks += 1;
        Thread::new(self.shared, name, self.environment.clone())
    }

    fn into_line(self) -> Line {
        Line { name: self.name, holds: self.holds, below: self.lines }
    }

    fn item(&self, array: u64, index: u64) -> u64 {
        self.shared.program.arrays[array as usize].get(index as usize).copied().unwrap_or(0)
    }

    fn tally(&self, ledger: u64, amount: u64) {
        self.shared.sums[ledger as usize].fetch_add(amount, SeqCst);
    }

    /// The value of an expression in which nothing waits.
    fn plain(&mut self, expr: &Expr) -> u64 {
        match expr {
            Expr::Num(n) => *n,
            Expr::Var(k) => self.environment[*k as usize],
            Expr::Len(array) => self.shared.program.arrays[*array as usize].len() as u64,
            Expr::Item(array, index) => {
                let index = self.plain(index);
                self.item(*array, index)
            }
            Expr::Binary(operation, a, b) => operation.apply(self.plain(a), self.plain(b)),
            Expr::If(condition, first, second) => {
                let chosen = if self.plain(condition) != 0 { first } else { second };
                self.plain(chosen)
            }
            Expr::Let(bound, body) => {
                let bound = self.plain(bound);
                self.environment.push(bound);
                let value = self.plain(body);
                self.environment.pop();
                value
            }
            Expr::Tally(ledger, amount, body) => {
                let amount = self.plain(amount);
                self.tally(*ledger, amount);
                self.plain(body)
            }
            Expr::Fold(from, to, first, body) => self.plain_fold(from, to, first, body),
            Expr::Hold(..) | Expr::Fork(..) | Expr::Sweep(..) => unreachable!(),
        }
    }

    fn plain_fold(&mut self, from: &Expr, to: &Expr, first: &Expr, body: &Expr) -> u64 {
        let from = self.plain(from);
        let to = self.plain(to);
        let mut so_far = self.plain(first);
        let bound = self.environment.len();
        for i in from..to {
            self.environment.push(i);
            self.environment.push(so_far);
            so_far = self.plain(body);
            self.environment.truncate(bound);
        }
        so_far
    }

    async fn value(&mut self, node: &'static Node) -> u64 {
        let parts = &node.parts;
        match node.expr {
            _ if !node.waits => self.plain(node.expr),
            Expr::Num(_) | Expr::Var(_) | Expr::Len(_) => unreachable!(),
            Expr::Item(array, _) => {
                let index = self.part(&parts[0]).await;
                self.item(*array, index)
            }
            Expr::Binary(operation, ..) => operation.apply(self.part(&parts[0]).await, self.part(&parts[1]).await),
            Expr::If(..) => {
                let chosen = if self.part(&parts[0]).await != 0 { 1 } else { 2 };
                self.part(&parts[chosen]).await
            }
            Expr::Let(..) => {
                let bound = self.part(&parts[0]).await;
                self.environment.push(bound);
                let value = self.part(&parts[1]).await;
                self.environment.pop();
                value
            }
            Expr::Tally(ledger, ..) => {
                let amount = self.part(&parts[0]).await;
                self.tally(*ledger, amount);
                self.part(&parts[1]).await
            }
            Expr::Hold(lock, body) => self.hold(*lock, body).await,
            Expr::Fork(..) => self.fork(parts).await,
            Expr::Fold(..) => self.fold(parts).await,
            Expr::Sweep(operation, grain, ..) => {
                let from = self.part(&parts[0]).await;
                let to = self.part(&parts[1]).await;
                self.sweep(Sweep { operation: *operation, grain: *grain, body: &parts[2] }, from, to).await
            }
        }
    }

    /// The value of a part. A future of its own is made only where it forks or has to wait for a lock.
    async fn part(&mut self, node: &'static Node) -> u64 {
        if !node.waits {
            return self.plain(node.expr);
        }
        if let Expr::Hold(lock, body) = node.expr {
            if let Ok(_held) = self.shared.locks[*lock as usize].try_lock() {
                self.holds[*lock as usize] += 1;
                return self.plain(body);
            }
        }
        self.boxed(node).await
    }

    fn boxed(&mut self, node: &'static Node) -> Pin<Box<dyn Future<Output = u64> + Send + '_>> {
        Box::pin(self.value(node))
    }

    /// The language has neither a fork nor a sweep nor a hold within a hold.
    async fn hold(&mut self, lock: u64, body: &'static Expr) -> u64 {
        self.holds[lock as usize] += 1;
        let _held = self.shared.locks[lock as usize].lock().await;
        self.plain(body)
    }

    async fn fork(&mut self, parts: &'static [Node]) -> u64 {
        let child = start(self.child(), &parts[0]);
        let own = self.part(&parts[1]).await;
        let (value, line) = child.await.unwrap();
        self.lines.push(line);
        self.environment.push(value);
        self.environment.push(own);
        let value = self.part(&parts[2]).await;
        self.environment.truncate(self.environment.len() - 2);
        value
    }

    async fn fold(&mut self, parts: &'static [Node]) -> u64 {
        let from = self.part(&parts[0]).await;
        let to = self.part(&parts[1]).await;
        let mut so_far = self.part(&parts[2]).await;
        let bound = self.environment.len();
        for i in from..to {
            self.environment.push(i);
            self.environment.push(so_far);
            so_far = self.part(&parts[3]).await;
            self.environment.truncate(bound);
        }
        so_far
    }

    /// A thread forks all its left halves one after another and joins them backwards: what the other peers do by a call
    /// in each fork, without a box for each.
    async fn sweep(&mut self, sweep: Sweep, mut from: u64, to: u64) -> u64 {
        let mut children = Vec::new();
        while to.saturating_sub(from) > sweep.grain {
            let middle = from + (to - from) / 2;
            children.push(start_sweep(self.child(), sweep, from, middle));
            from = middle;
        }
        let mut so_far = sweep.operation.unit();
        for i in from..to {
            self.environment.push(i);
            let value = self.part(sweep.body).await;
            self.environment.pop();
            so_far = sweep.operation.apply(so_far, value);
        }
        while let Some(child) = children.pop() {
            let (left, line) = child.await.unwrap();
            self.lines.push(line);
            so_far = sweep.operation.apply(left, so_far);
        }
        so_far
    }
}

/// The value, and the lines of all threads in order. The root is a task too, so that a kernel thread of the runtime
/// evaluates it and not the one that waits here.
async fn run(program: &'static Program) -> (u64, Vec<Line>) {
    let shared = Box::leak(Box::new(Shared {
        program,
        sums: (0..program.ledgers).map(|_| AtomicU64::new(0)).collect(),
        locks: (0..program.locks).map(|_| Mutex::new(())).collect(),
    }));
    let root = Box::leak(Box::new(Node::new(&program.root)));
    let (value, line) = start(Thread::new(shared, Vec::new(), Vec::new()), root).await.unwrap();
    let mut lines = Vec::new();
    line.listed(&mut lines);
    (value, lines)
}

fn main() {
    let words: Vec<String> = std::env::args().collect();
    let text = std::fs::read_to_string(&words[1]).unwrap();
    let cores: usize = words[2].parse().unwrap();
    let program = Box::leak(Box::new(program(&text)));
    let runtime = tokio::runtime::Builder::new_multi_thread().worker_threads(cores).build().unwrap();
    let (value, _lines) = runtime.block_on(run(program));
    println!("value {value}");
}
