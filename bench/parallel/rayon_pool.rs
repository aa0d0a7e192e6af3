//! What `pool.rs` gives, by rayon's `join`, where Debian's package of rayon is installed.

/// Stands for whoever runs a side of a fork.
pub struct Worker;

impl Worker {
    /// Runs both, maybe at once, and answers both.
    pub fn both<F: FnOnce(&Worker) -> A + Send, A: Send, B: Send>(
        &self,
        child: F,
        during: impl FnOnce(&Worker) -> B + Send,
    ) -> (A, B) {
        let (own, answer) = rayon::join(|| during(&Worker), || child(&Worker));
        (answer, own)
    }
}

/// Runs work on so many kernel threads of a pool of their own.
pub fn on_cores<A: Send>(cores: usize, work: impl FnOnce(&Worker) -> A + Send) -> A {
    let pool = rayon::ThreadPoolBuilder::new().num_threads(cores).build().unwrap();
    pool.install(|| work(&Worker))
}
