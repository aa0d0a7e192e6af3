//! Reads from /proc which threads other processes have.

use std::fs;
use std::io::Read;

/// If a process is in a PID namespace of its own, `thread_of` searches at most this many of its threads.
const IN_A_NAMESPACE: usize = 128;
/// The most processes that `family` returns threads of.
const FAMILY: usize = 256;
/// The most bytes to read from the kernel's list of the processes that a thread has started.
const CHILDREN: usize = 4096;
/// More bytes than a thread's `stat` file has, so that one read takes all.
const STAT: usize = 2048;

/// An iterator over thread ids. It reads /proc step by step, so a step takes no longer if there are more threads.
pub type Threads = Box<dyn Iterator<Item = u32>>;

pub fn threads_of(process: u32) -> Threads {
    let entries = fs::read_dir(format!("/proc/{process}/task")).into_iter().flatten().flatten();
    Box::new(entries.filter_map(|entry| entry.file_name().to_str()?.parse().ok()))
}

/// Returns the threads of a process and of its descendants, `FAMILY` processes at most.
pub fn family(process: u32) -> Threads {
    let (mut others, mut room) = (Vec::new(), FAMILY - 1);
    let (mut process, mut threads) = (process, threads_of(process));
    let next = move || loop {
        if let Some(thread) = threads.next() {
            let before = others.len();
            others.extend(begun_by(process, thread).into_iter().take(room));
            room -= others.len() - before;
            return Some(thread);
        }
        process = others.pop()?;
        threads = threads_of(process);
    };
    Box::new(std::iter::from_fn(next))
}

fn begun_by(process: u32, thread: u32) -> Vec<u32> {
    let mut text = [0; CHILDREN];
    let file = fs::File::open(format!("/proc/{process}/task/{thread}/children"));
    let len = file.and_then(|mut file| file.read(&mut text)).unwrap_or(0);
    // Each complete number is followed by a space; the last number may have been cut off.
    let text = String::from_utf8_lossy(&text[..len]);
    text.split_inclusive(' ').filter_map(|word| word.strip_suffix(' ')?.parse().ok()).collect()
}

/// Returns when a thread began, in hundredths of a second since the machine started, or None if it has ended.
pub fn began(process: u32, thread: u32) -> Option<u64> {
    let mut text = [0; STAT];
    let len = fs::File::open(format!("/proc/{process}/task/{thread}/stat")).ok()?.read(&mut text).ok()?;
    // The thread's name is in brackets, and may have any letters.
    let text = String::from_utf8_lossy(&text[..len]);
    text.rsplit_once(')')?.1.split_whitespace().nth(19)?.parse().ok()
}

/// Returns this process's id for the thread that the process `process` knows as `thread`. The two ids differ if that
/// process is in a PID namespace of its own. Returns None if there is no such thread, or if the process isn't in a
/// namespace below this process's.
pub fn thread_of(process: u32, thread: u32) -> Option<u32> {
    if numbers_of(process, process, "NSpid:")?.len() <= 1 {
        return Some(thread);
    }
    // A thread's ids in the PID namespaces that it is in, beginning with this process's namespace.
    let is_it = |it: u32| numbers_of(process, it, "NSpid:").and_then(|ids| ids.last().copied()) == Some(thread);
    threads_of(process).take(IN_A_NAMESPACE).find(|&it| is_it(it))
}

pub fn is_user(process: u32, user: u32) -> bool {
    numbers_of(process, process, "Uid:").and_then(|users| users.get(1).copied()) == Some(user)
}

/// Returns the numbers in a line of a thread's `status` file.
fn numbers_of(process: u32, thread: u32, name: &str) -> Option<Vec<u32>> {
    let text = fs::read_to_string(format!("/proc/{process}/task/{thread}/status")).ok()?;
    let line = text.lines().find_map(|line| line.strip_prefix(name)).unwrap_or("");
    Some(line.split_whitespace().filter_map(|word| word.parse().ok()).collect())
}
