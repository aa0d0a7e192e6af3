//! Parses the arguments of the command `run`.

use crate::{sys, topology};
use std::fs;
use std::path::PathBuf;

pub struct Options {
    pub socket: PathBuf,
    pub cpuset: Option<PathBuf>,
    pub groups: Vec<PathBuf>,
    pub sweep: bool,
    /// The processors of the daemon, which never grants the first `keep` of their cores.
    pub cpus: Vec<usize>,
    /// All processors that this process may use.
    pub all: Vec<usize>,
    pub keep: usize,
    pub hyperthreads: bool,
    pub turn: u64,
    pub open: bool,
    pub log: bool,
}

impl Options {
    /// Returns None if the arguments that follow `run` are wrong.
    pub fn read(mut words: impl Iterator<Item = String>) -> Option<Options> {
        let (socket, mut listed) = (words.next()?.into(), false);
        let mut options = Options {
            socket,
            cpuset: None,
            groups: Vec::new(),
            sweep: false,
            cpus: sys::affinity_of(0),
            all: sys::affinity_of(0),
            keep: 1,
            hyperthreads: false,
            turn: 100,
            open: false,
            log: false,
        };
        while let Some(word) = words.next() {
            match &*word {
                "--cpuset" => options.cpuset = Some(words.next()?.into()),
                "--rest" => options.groups.push(words.next()?.into()),
                "--sweep" => options.sweep = true,
                "--cores" => (options.cpus, listed) = (topology::read_list(&words.next()?)?, true),
                "--keep" => options.keep = words.next()?.parse().ok()?,
                "--hyperthreads" => options.hyperthreads = true,
                "--turn" => options.turn = words.next()?.parse().ok()?,
                "--open" => options.open = true,
                "--log" => options.log = true,
                _ => return None,
            }
        }
        // Without `--cores`, the daemon takes the cpuset's processors, and not its own affinity. An earlier daemon may
        // have left this process in its cpuset `rest`.
        if let (Some(folder), false) = (&options.cpuset, listed) {
            options.cpus = topology::read_list(fs::read_to_string(folder.join("cpuset.cpus")).ok()?.trim())?;
        }
        let one = options.cpuset.is_none() || options.groups.is_empty();
        let kept = options.keep >= 1 && options.keep < options.cores().len();
        (one && kept && topology::are_there(&options.cpus)).then_some(options)
    }

    pub fn cores(&self) -> Vec<Vec<usize>> {
        match self.hyperthreads {
            true => self.cpus.iter().map(|&cpu| vec![cpu]).collect(),
            false => topology::by_core(&self.cpus),
        }
    }
}
