//! A boxed tree of the task language, read from its text, for the peers in Rust.

pub enum Class {
    Normal,
    Exclusive,
}

#[derive(Clone, Copy)]
pub enum Operation {
    Add,
    Sub,
    Mul,
    Min,
    Max,
    Xor,
    Lt,
    Eq,
}

pub enum Expr {
    Num(u64),
    Var(u64),
    Len(u64),
    Item(u64, Box<Expr>),
    Binary(Operation, Box<Expr>, Box<Expr>),
    If(Box<Expr>, Box<Expr>, Box<Expr>),
    Let(Box<Expr>, Box<Expr>),
    Tally(u64, Box<Expr>, Box<Expr>),
    Hold(u64, Box<Expr>),
    #[allow(dead_code)]
    Fork(Class, Box<Expr>, Box<Expr>, Box<Expr>),
    Fold(Box<Expr>, Box<Expr>, Box<Expr>, Box<Expr>),
    Sweep(Operation, u64, Box<Expr>, Box<Expr>, Box<Expr>),
}

pub struct Program {
    pub arrays: Vec<Vec<u64>>,
    pub ledgers: usize,
    pub locks: usize,
    pub root: Expr,
}

impl Operation {
    pub fn apply(self, a: u64, b: u64) -> u64 {
        match self {
            Operation::Add => a.wrapping_add(b),
            Operation::Sub => a.wrapping_sub(b),
            Operation::Mul => a.wrapping_mul(b),
            Operation::Min => a.min(b),
            Operation::Max => a.max(b),
            Operation::Xor => a ^ b,
            Operation::Lt => (a < b) as u64,
            Operation::Eq => (a == b) as u64,
        }
    }

    pub fn unit(self) -> u64 {
        match self {
            Operation::Mul => 1,
            Operation::Min => u64::MAX,
            _ => 0,
        }
    }

    fn named(word: &str) -> Option<Operation> {
        Some(match word {
            "add" => Operation::Add,
            "sub" => Operation::Sub,
            "mul" => Operation::Mul,
            "min" => Operation::Min,
            "max" => Operation::Max,
            "xor" => Operation::Xor,
            "lt" => Operation::Lt,
            "eq" => Operation::Eq,
            _ => return None,
        })
    }
}

/// The words of a text; what brackets say is left out, since each form has so many parts.
type Words<'t> = std::str::SplitAsciiWhitespace<'t>;

fn number(words: &mut Words) -> u64 {
    words.next().unwrap().trim_end_matches(')').parse().unwrap()
}

fn part(words: &mut Words) -> Box<Expr> {
    Box::new(expression(words))
}

fn expression(words: &mut Words) -> Expr {
    let word = &words.next().unwrap()[1..];
    if let Some(operation) = Operation::named(word) {
        return Expr::Binary(operation, part(words), part(words));
    }
    match word {
        "num" => Expr::Num(number(words)),
        "var" => Expr::Var(number(words)),
        "len" => Expr::Len(number(words)),
        "item" => Expr::Item(number(words), part(words)),
        "if" => Expr::If(part(words), part(words), part(words)),
        "let" => Expr::Let(part(words), part(words)),
        "tally" => Expr::Tally(number(words), part(words), part(words)),
        "hold" => Expr::Hold(number(words), part(words)),
        "fork" => {
            let class = if words.next() == Some("n") { Class::Normal } else { Class::Exclusive };
            Expr::Fork(class, part(words), part(words), part(words))
        }
        "fold" => Expr::Fold(part(words), part(words), part(words), part(words)),
        "sweep" => {
            let operation = Operation::named(words.next().unwrap()).unwrap();
            Expr::Sweep(operation, number(words), part(words), part(words), part(words))
        }
        _ => panic!("an unknown form: {word}"),
    }
}

pub fn program(text: &str) -> Program {
    let mut arrays = Vec::new();
    let (mut ledgers, mut locks) = (0, 0);
    for line in text.lines() {
        let mut words = line.split_ascii_whitespace();
        match words.next().unwrap() {
            "arachne" => {}
            "array" => arrays.push(words.map(|word| word.parse().unwrap()).collect()),
            "ledgers" => ledgers = number(&mut words) as usize,
            "locks" => locks = number(&mut words) as usize,
            _ => {
                let root = expression(&mut line.split_ascii_whitespace());
                return Program { arrays, ledgers, locks, root };
            }
        }
    }
    panic!("no expression")
}

/// The most memory that the process had, in kilobytes.
#[allow(dead_code)]
pub fn peak() -> u64 {
    let status = std::fs::read_to_string("/proc/self/status").unwrap();
    let line = status.lines().find(|line| line.starts_with("VmHWM:")).unwrap();
    line.split_ascii_whitespace().nth(1).unwrap().parse().unwrap()
}
