//! Finds out which processors the host of this virtual machine takes for itself, by the stolen time that Linux reports.

use std::fs;
use std::path::PathBuf;
use std::time::{Duration, Instant};

/// The time between two reads of the stolen time.
pub const WINDOW: Duration = Duration::from_millis(200);
/// The host counts as taking a processor (or the machine) once it has stolen at least `MUCH` per cent of the time
/// between two reads, until it has stolen at most `LITTLE` per cent for the time `CALM` (or `CALM_MACHINE`).
const MUCH: u64 = 15;
const LITTLE: u64 = 5;
const CALM: Duration = Duration::from_secs(1);
const CALM_MACHINE: Duration = Duration::from_secs(5);

struct Account {
    stolen: u64,
    all: u64,
    is_taken: bool,
    /// The time of the last read that found more than `LITTLE` per cent stolen.
    busy: Instant,
}

pub struct Host {
    file: PathBuf,
    looked: Instant,
    cpus: Vec<usize>,
    all_cpus: Vec<usize>,
    processors: Vec<Account>,
    machine: Account,
}

impl Host {
    /// Watches the processors `cpus`, and the machine, which has the processors `all_cpus`. In tests, the environment
    /// variable ARBITER_STAT names a file that is read instead of the kernel's.
    pub fn new(cpus: Vec<usize>, all_cpus: Vec<usize>) -> Host {
        let file = std::env::var_os("ARBITER_STAT").unwrap_or_else(|| "/proc/stat".into()).into();
        let processors = cpus.iter().map(|_| Account::new()).collect();
        let mut host = Host { file, looked: Instant::now(), cpus, all_cpus, processors, machine: Account::new() };
        host.read();
        host
    }

    pub fn takes(&self, nth: usize) -> bool {
        self.processors[nth].is_taken
    }

    /// Returns true if the host takes the machine, that is, all the daemon's processors together.
    pub fn takes_machine(&self) -> bool {
        self.machine.is_taken
    }

    /// If `WINDOW` has passed since the last read, reads the stolen time. Returns the indexes of the processors that
    /// the host has taken or returned since then.
    pub fn look(&mut self) -> Vec<usize> {
        if self.looked.elapsed() < WINDOW {
            return Vec::new();
        }
        self.looked = Instant::now();
        self.read()
    }

    fn read(&mut self) -> Vec<usize> {
        let text = fs::read_to_string(&self.file).unwrap_or_default();
        // A processor that is offline has no line.
        let times = self.all_cpus.iter().filter_map(|&cpu| account(&text, cpu));
        let sum = times.fold((0, 0), |sum, it| (sum.0 + it.0, sum.1 + it.1));
        self.machine.reads(sum, CALM_MACHINE);
        let mut changed = Vec::new();
        for (nth, processor) in self.processors.iter_mut().enumerate() {
            if account(&text, self.cpus[nth]).map_or(false, |times| processor.reads(times, CALM)) {
                changed.push(nth);
            }
        }
        changed
    }
}

impl Account {
    fn new() -> Account {
        Account { stolen: 0, all: 0, is_taken: false, busy: Instant::now() }
    }

    /// Compares a processor's stolen and total time with those of the last read. Returns true if `is_taken` changes.
    fn reads(&mut self, (stolen, all): (u64, u64), calm: Duration) -> bool {
        let (took, time) = (stolen.saturating_sub(self.stolen), all.saturating_sub(self.all));
        let is_first = self.all == 0;
        (self.stolen, self.all) = (stolen, all);
        if is_first || time == 0 {
            return false;
        }
        if took * 100 > LITTLE * time {
            self.busy = Instant::now();
        }
        let is_taken = took * 100 >= MUCH * time || self.is_taken && self.busy.elapsed() < calm;
        std::mem::replace(&mut self.is_taken, is_taken) != is_taken
    }
}

/// Returns the stolen time and the total time of a processor, in hundredths of a second.
fn account(text: &str, cpu: usize) -> Option<(u64, u64)> {
    let name = format!("cpu{cpu}");
    let line = text.lines().map(str::split_whitespace).find(|words| words.clone().next() == Some(&*name))?;
    let fields: Vec<u64> = line.skip(1).take(8).filter_map(|word| word.parse().ok()).collect();
    Some((*fields.get(7)?, fields.iter().sum()))
}
