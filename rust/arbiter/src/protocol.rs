//! The messages of the protocol. A message has 16 bytes, which are four numbers of 32 bits, the lowest byte first.

pub const VERSION: u32 = 1;
pub const SIZE: usize = 16;

/// A client's first message on its control connection: version, priority, least and most cores (`least << 16 | most`).
pub const HELLO: u32 = 1;
/// The first message on the connection of a kernel thread: the client's number, the thread's id, and the thread's
/// number among the client's threads (`place << 1 | floats`). A thread that floats never waits: the daemon moves it to
/// a core and off the core while it runs.
pub const JOIN: u32 = 2;
/// A message on a thread's connection. The thread gives its core back, if it has one, and waits for another.
pub const WAIT: u32 = 3;
/// A message on the control connection, with the number of cores that the client wants in all.
pub const ASK: u32 = 4;

/// The daemon's answer to HELLO, with the descriptor of the page that it writes for the client. The numbers are the
/// client's number, the number of cores that the daemon can grant in all, and 1 if the daemon uses cpusets.
pub const WELCOME: u32 = 5;
/// A message to a thread that waited for a core: the processor that the thread has now.
pub const GRANT: u32 = 6;
/// A message on the control connection, if the client is now allowed fewer cores: the number that it may have.
pub const ALLOWED: u32 = 7;
/// The last message on a connection if the daemon closes it because it refuses a message.
pub const REFUSED: u32 = 8;

pub fn bytes_of(words: [u32; 4]) -> [u8; SIZE] {
    let mut bytes = [0; SIZE];
    for (chunk, word) in bytes.chunks_exact_mut(4).zip(words) {
        chunk.copy_from_slice(&word.to_le_bytes());
    }
    bytes
}

pub fn words_of(bytes: &[u8; SIZE]) -> [u32; 4] {
    let word = |at: usize| u32::from_le_bytes([bytes[at], bytes[at + 1], bytes[at + 2], bytes[at + 3]]);
    [word(0), word(4), word(8), word(12)]
}
