//! Reads from the kernel's files which processors are hyperthreads of one core.

use std::fs;
use std::path::PathBuf;

/// Groups processors by core, in the order of each core's first processor. A processor whose siblings the kernel
/// doesn't list is a core by itself. In tests, the environment variable ARBITER_TOPOLOGY names the folder to read.
pub fn by_core(cpus: &[usize]) -> Vec<Vec<usize>> {
    let folder = std::env::var_os("ARBITER_TOPOLOGY").unwrap_or_else(|| "/sys/devices/system/cpu".into());
    let mut cores: Vec<Vec<usize>> = Vec::new();
    for &cpu in cpus {
        let file = PathBuf::from(&folder).join(format!("cpu{cpu}/topology/thread_siblings_list"));
        let siblings = read_list(fs::read_to_string(file).unwrap_or_default().trim()).unwrap_or_default();
        match cores.iter_mut().find(|core| core.iter().any(|it| siblings.contains(it))) {
            Some(core) => core.push(cpu),
            None => cores.push(vec![cpu]),
        }
    }
    cores
}

pub fn are_there(cpus: &[usize]) -> bool {
    let online = fs::read_to_string("/sys/devices/system/cpu/online").unwrap_or_default();
    let is_online = |cpu| read_list(online.trim()).map_or(true, |online| online.contains(cpu));
    cpus.iter().all(is_online) && (1..cpus.len()).all(|nth| !cpus[..nth].contains(&cpus[nth]))
}

/// Parses a list of processors, such as `0,2-5`.
pub fn read_list(text: &str) -> Option<Vec<usize>> {
    let mut cpus = Vec::new();
    for part in text.split(',') {
        let mut ends = part.splitn(2, '-').map(|end| end.parse::<usize>().ok());
        let first = ends.next()??;
        cpus.extend(first..=ends.next().unwrap_or(Some(first))?);
    }
    Some(cpus)
}
