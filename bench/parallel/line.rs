//! What the peers in Rust keep of each thread, as the lines of `arachne run` tell it.

/// A thread's name, how often it held each lock, and the threads below it.
#[allow(dead_code)]
pub struct Line {
    pub name: Vec<u64>,
    pub holds: Vec<u64>,
    pub below: Vec<Line>,
}

impl Line {
    /// Puts the line and those below it at the end of a list.
    pub fn listed(mut self, lines: &mut Vec<Line>) {
        let below = std::mem::take(&mut self.below);
        lines.push(self);
        for line in below {
            line.listed(lines);
        }
    }
}
