//! Keeps a core for one kernel thread, and other threads off the core, by cpusets or by affinity.

use crate::sys;
use crate::threads::{family, threads_of, Threads};
use std::fs;
use std::io;
use std::path::{Path, PathBuf};

/// The most cpusets that the daemon removes before it decides again which thread gets which core.
const REMOVED: usize = 8;

pub enum Means {
    /// Each thread of a client has its own cpuset (version 1). The set `rest` is for other threads.
    Cpusets(Sets),
    /// Each thread of a client is kept on its core by its affinity. These control groups (version 2) keep other
    /// processes off granted cores. Without a group, other processes run on any processor.
    Affinity(Vec<PathBuf>),
}

/// The folder of the daemon's cpusets. Each thread of a client has its own set.
///
/// Linux takes some 10 ms to move a thread to another set, but changes the processors of a set at once. So a thread is
/// moved only when it joins its client and after it has left, and no decision waits for a move.
pub struct Sets {
    top: PathBuf,
    mems: String,
    /// The numbers of all processors for which an affinity mask has a bit. Threads get this affinity, so that only
    /// their cpusets restrict them.
    all: Vec<usize>,
    /// The threads that have left their clients, and whose sets must still be removed.
    left: Vec<u32>,
    again: Vec<u32>,
}

impl Sets {
    fn set_of(&self, thread: u32) -> PathBuf {
        self.top.join(format!("thread{thread}"))
    }

    fn run_on(&self, thread: u32, cpus: &[usize]) -> io::Result<()> {
        write(self.set_of(thread).join("cpuset.cpus"), list(cpus))
    }

    fn make(&self, set: &Path, cpus: &[usize]) -> io::Result<()> {
        fs::create_dir(set)?;
        write(set.join("cpuset.cpus"), list(cpus))?;
        write(set.join("cpuset.mems"), &self.mems)
    }

    fn enter(&mut self, thread: u32, cpus: &[usize]) -> io::Result<()> {
        for threads in [&mut self.left, &mut self.again] {
            threads.retain(|it| *it != thread);
        }
        let set = self.set_of(thread);
        match set.exists() {
            true => self.run_on(thread, cpus)?,
            false => self.make(&set, cpus)?,
        }
        write(set.join("tasks"), thread)?;
        let _ = sys::set_affinity(thread, &self.all);
        Ok(())
    }
}

fn write(file: PathBuf, text: impl ToString) -> io::Result<()> {
    fs::OpenOptions::new()
        .write(true)
        .truncate(true)
        .open(file)
        .and_then(|mut f| io::Write::write_all(&mut f, text.to_string().as_bytes()))
}

pub fn list(cpus: &[usize]) -> String {
    cpus.iter().map(|cpu| cpu.to_string()).collect::<Vec<_>>().join(",")
}

fn numbers(file: PathBuf) -> Vec<u32> {
    fs::read_to_string(file).unwrap_or_default().lines().filter_map(|line| line.parse().ok()).collect()
}

impl Means {
    /// Without `parent`, restricts the processes of each control group in `groups` to `cpus`.
    ///
    /// With `parent`, makes cpusets of the processors `cpus` below it. If an earlier daemon has left cpusets there,
    /// moves their threads to `parent` and removes them first.
    pub fn new(parent: Option<&Path>, groups: &[PathBuf], cpus: &[usize]) -> io::Result<Means> {
        let parent = match parent {
            Some(parent) => parent,
            None => {
                for group in groups {
                    // If this write fails, the next line fails too, unless the file was written before.
                    let _ = write(group.join("../cgroup.subtree_control"), "+cpuset");
                    write(group.join("cpuset.cpus"), list(cpus))?;
                }
                return Ok(Means::Affinity(groups.to_vec()));
            }
        };
        restore(parent);
        let top = parent.join("arbiter");
        let mems = fs::read_to_string(parent.join("cpuset.mems"))?;
        let all = (0..sys::PROCESSORS).collect();
        let sets = Sets { top, mems: mems.trim().into(), all, left: Vec::new(), again: Vec::new() };
        sets.make(&sets.top, cpus)?;
        sets.make(&sets.top.join("rest"), cpus)?;
        Ok(Means::Cpusets(sets))
    }

    /// Moves the processes in the cpuset above the daemon's to the set `rest` (for threads without a core). Returns how
    /// many.
    pub fn sweep(&self) -> usize {
        match self {
            Means::Cpusets(Sets { top, .. }) => {
                let all = numbers(top.parent().unwrap().join("cgroup.procs"));
                all.iter().filter(|process| write(top.join("rest/cgroup.procs"), process).is_ok()).count()
            }
            Means::Affinity(_) => 0,
        }
    }

    /// Returns true if a move to the set `rest` would take the process out of a cpuset that is neither above nor below
    /// the daemon's own.
    pub fn frees(&self, process: u32) -> bool {
        let set_of = |process| fs::read_to_string(format!("/proc/{process}/cpuset")).unwrap_or_default();
        // This process is in the set `rest`.
        let (own, other) = (set_of(std::process::id()), set_of(process));
        let (top, other) = (Path::new(own.trim_end()).parent(), Path::new(other.trim_end()));
        let is_near = top.map_or(false, |top| top.starts_with(other) || other.starts_with(top));
        matches!(self, Means::Cpusets(_)) && !is_near
    }

    /// Returns the threads of a new client's process that must be moved to the cpuset `rest`, of threads without a
    /// core.
    pub fn arrivals(&self, process: u32) -> Threads {
        match self {
            Means::Cpusets(_) => threads_of(process),
            Means::Affinity(_) => Box::new(std::iter::empty()),
        }
    }

    /// Moves one thread to the cpuset `rest`, of threads without a core. (To move a process, Linux waits for all
    /// processors.)
    pub fn admit(&self, thread: u32) {
        if let Means::Cpusets(Sets { top, .. }) = self {
            let _ = write(top.join("rest/tasks"), thread);
        }
    }

    /// Lets a thread that a client has just registered run on the processors `rest` until it gets a core.
    pub fn enter(&mut self, thread: u32, rest: &[usize]) -> io::Result<()> {
        match self {
            Means::Cpusets(sets) => sets.enter(thread, rest),
            Means::Affinity(_) => {
                // The thread's own cpuset may have none of these processors. The thread may still get a core.
                let _ = sys::set_affinity(thread, rest);
                Ok(())
            }
        }
    }

    pub fn run_on(&self, thread: u32, cpus: &[usize]) -> io::Result<()> {
        match self {
            Means::Cpusets(sets) => sets.run_on(thread, cpus),
            Means::Affinity(_) => sys::set_affinity(thread, cpus),
        }
    }

    /// Lets a thread that has left its client run on all processors `all`. With cpusets, the thread first runs on the
    /// processors `free`, until `next_left` finds it. `lives` is false if the thread has ended.
    pub fn leave(&mut self, thread: u32, lives: bool, free: &[usize], all: &[usize]) {
        match self {
            Means::Cpusets(sets) => {
                let _ = sets.run_on(thread, free);
                sets.left.push(thread);
            }
            Means::Affinity(_) if lives => drop(sys::set_affinity(thread, all)),
            Means::Affinity(_) => {}
        }
    }

    /// Removes the empty sets of threads that have left their clients, and returns the threads in the first set that
    /// isn't empty. The caller must move these threads to the set `rest`.
    pub fn next_left(&mut self) -> Option<Threads> {
        let sets = match self {
            Means::Cpusets(sets) => sets,
            Means::Affinity(_) => return None,
        };
        for _ in 0..REMOVED {
            let thread = sets.left.pop()?;
            let set = sets.set_of(thread);
            if fs::remove_dir(&set).is_err() && set.exists() {
                sets.again.push(thread);
                return Some(Box::new(numbers(set.join("tasks")).into_iter()));
            }
        }
        None
    }

    pub fn try_again(&mut self) {
        if let Means::Cpusets(sets) = self {
            sets.left.append(&mut sets.again);
        }
    }

    /// Makes `rest` the processors of all threads without a core. `others` are the clients' threads without a core.
    pub fn set_rest(&self, rest: &[usize], others: impl Iterator<Item = u32>) {
        match self {
            Means::Cpusets(Sets { top, .. }) => drop(write(top.join("rest/cpuset.cpus"), list(rest))),
            Means::Affinity(groups) => {
                groups.iter().for_each(|group| drop(write(group.join("cpuset.cpus"), list(rest))))
            }
        }
        others.for_each(|thread| drop(self.run_on(thread, rest)));
    }

    /// Returns the threads that may run on granted cores though no client has registered them, since a new thread
    /// begins on the processors of the thread that starts it. `known` are the clients' registered threads.
    pub fn strangers(&self, known: Vec<u32>, processes: Vec<u32>) -> Threads {
        let begun = processes.into_iter().flat_map(family);
        match self {
            Means::Cpusets(sets) => {
                let files: Vec<_> = known.into_iter().map(|thread| sets.set_of(thread).join("tasks")).collect();
                Box::new(files.into_iter().flat_map(numbers).chain(begun))
            }
            Means::Affinity(_) => Box::new(begun),
        }
    }

    pub fn free(&self, thread: u32, all: &[usize]) {
        match self {
            Means::Cpusets(sets) => {
                self.admit(thread);
                let _ = sys::set_affinity(thread, &sets.all);
            }
            Means::Affinity(_) => drop(sys::set_affinity(thread, all)),
        }
    }
}

/// Lets the processes of these control groups (of version 2) run on all processors again.
pub fn release_groups(groups: &[PathBuf]) {
    groups.iter().for_each(|group| drop(write(group.join("cpuset.cpus"), "\n")));
}

/// Locks a folder of cpusets until the returned file is closed. Fails if another daemon has locked it.
pub fn lock(folder: &Path) -> io::Result<fs::File> {
    let file = fs::File::open(folder)?;
    match sys::lock(&file) {
        true => Ok(file),
        false => Err(io::Error::new(io::ErrorKind::AddrInUse, format!("another daemon has {}", folder.display()))),
    }
}

/// Moves the threads in the daemon's cpusets below `parent` to `parent`, and removes the cpusets.
///
/// Linux frees a cpuset only some time after its last thread has ended, so this function retries for five seconds.
pub fn restore(parent: &Path) {
    let top = parent.join("arbiter");
    for _ in 0..500 {
        let below = fs::read_dir(&top).into_iter().flatten().flatten().map(|entry| entry.path());
        let below: Vec<_> = below.filter(|path| path.is_dir()).chain(Some(top.clone())).collect();
        for set in &below {
            numbers(set.join("tasks")).into_iter().for_each(|thread| drop(write(parent.join("tasks"), thread)));
        }
        if below.iter().all(|set| fs::remove_dir(set).is_ok()) || !top.exists() {
            return;
        }
        std::thread::sleep(std::time::Duration::from_millis(10));
    }
    eprintln!("arbiter: {} could not be removed", top.display());
}
