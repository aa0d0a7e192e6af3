//! The static library arachne_grants_c as Rust declares it.
//! Made by scripts/declarations: don't edit it.
//!
//! The caller must:
//!   - start each handle as null, leave its pointer to the library, and never copy it;
//!   - use each handle from one thread at a time. It may go to another thread if the two synchronize, such as by the
//!     start or join of a thread, or by a lock;
//!   - pass pointers that are not null, to memory that no other thread uses meanwhile, or only reads if it is const;
//!   - link `malloc`, `realloc` and `free` of one allocator, and liblibc_c.a of the kit.
//! No call may be made from a signal handler. Nothing is proved of a program that breaks one of these rules.
#![allow(dead_code)]

/// Raised if a code, a type or a call changes.
pub const API_VERSION: u32 = 1;

/// The call succeeded.
pub const DONE: u32 = 0;

/// The call was refused, and has changed nothing. The comment of each call lists the possible reasons.
pub const REFUSED: u32 = 1;

/// The allocator refused memory. Nothing has changed.
pub const NO_MEMORY: u32 = 2;

/// The message by which a client introduces itself.
pub const HELLO: u32 = 3;

/// The message by which a kernel thread joins its client.
pub const JOIN: u32 = 4;

/// The message by which a thread gives its core back, if it has one, and waits for another core.
pub const WAIT: u32 = 5;

/// The message by which a client asks for a number of cores in all.
pub const ASK: u32 = 6;

/// There are fewer bytes than a message has, which is 16.
pub const SHORT: u32 = 7;

/// The message is of an unknown kind.
pub const KIND: u32 = 8;

/// The client speaks another version of the protocol.
pub const VERSION: u32 = 9;

/// The priority is out of range.
pub const PRIORITY: u32 = 10;

/// The thread's number within its client, `place`, is greater than 63.
pub const PLACE: u32 = 11;

/// A field that this kind of message does not use is greater than 0.
pub const UNUSED: u32 = 12;

/// No core was taken or given.
pub const NOTHING: u32 = 13;

/// The core was taken from the thread, which the caller must move away from the core.
pub const TAKEN: u32 = 14;

/// The core was given to a thread that floats (never waits for a core). The caller must move the thread to the
/// core.
pub const PLACED: u32 = 15;

/// The core was given to a thread that waited. The caller must move the thread to the core, and notify the thread.
pub const GRANTED: u32 = 16;

/// A message from a client. Fields that this kind of message does not use are 0.
#[repr(C)]
#[derive(Clone, Copy, Debug, PartialEq, Eq)]
pub struct ArachneMessage {
    /// HELLO, JOIN, WAIT or ASK if the bytes begin with such a message, and otherwise the code of the fault.
    pub code: u32,
    pub priority: u32,
    pub reserved: u32,
    pub most: u32,
    pub client: u32,
    pub thread: u32,
    pub place: u32,
    pub cores: u32,
    pub floats: bool,
}

/// C's handle on an arbiter: one pointer, which is null if the handle is empty.
#[repr(C)]
pub struct ArachneArbiter {
    opaque: *mut u8,
}

impl ArachneArbiter {
    pub const NULL: ArachneArbiter = ArachneArbiter { opaque: std::ptr::null_mut() };
}

/// The action that the caller must take on a client's thread. Fields that this action does not use are 0.
#[repr(C)]
#[derive(Clone, Copy, Debug, PartialEq, Eq)]
pub struct ArachneAction {
    /// TAKEN, PLACED, GRANTED or NOTHING, or REFUSED if the handle has no arbiter.
    pub code: u32,
    pub core: u32,
    pub client: usize,
    pub place: usize,
}

/// The numbers of a client's cores.
#[repr(C)]
#[derive(Clone, Copy, Debug, PartialEq, Eq)]
pub struct ArachneShare {
    /// The number of cores that the client may have.
    pub allowed: u32,
    /// The number of cores that the client's threads have.
    pub held: u32,
}

unsafe extern "C" {
    /// Reads the message at the beginning of `bytes`.
    ///
    /// Returns HELLO, JOIN, WAIT or ASK; SHORT if there are fewer than 16 bytes; otherwise KIND, VERSION, PRIORITY,
    /// PLACE or UNUSED, for the first of the message's four numbers that is not valid.
    ///
    /// Threads: safe beside any call, if nobody writes to `bytes` meanwhile.
    pub fn arachne_message_read(bytes: *const u8, bytes_count: usize) -> ArachneMessage;

    /// Creates an arbiter (the state of a daemon that grants cores) of the cores 0 to `cores` - 1, without clients.
    /// Puts the arbiter into the handle `arbiter`, which must have none.
    ///
    /// Returns DONE; REFUSED if the handle already has an arbiter, or if `cores` is greater than 1,024; NO_MEMORY
    /// if memory is refused.
    ///
    /// Threads: safe beside calls with other handles; two at once with `arbiter` are undefined behaviour.
    pub fn arachne_arbiter_new(arbiter: *mut ArachneArbiter, cores: u32) -> u32;

    /// Empties a handle, and frees its arbiter, if it has one.
    ///
    /// Threads: safe beside calls with other handles; two at once with `arbiter` are undefined behaviour.
    pub fn arachne_arbiter_close(arbiter: *mut ArachneArbiter);

    /// Adds a client (a program) with its priority, of which 0 is the highest. The client gets `reserved` cores
    /// before others get more than they have reserved, and may ask for at most `most` cores.
    ///
    /// Returns DONE, or REFUSED if the handle has no arbiter, or if the client's number `client` is greater than 63
    /// or in use. The caller must check that the client is entitled to this priority and these cores.
    ///
    /// Threads: safe beside calls with other handles; two at once with `arbiter` are undefined behaviour.
    pub fn arachne_arbiter_hello(arbiter: *mut ArachneArbiter, client: usize, priority: u8, reserved: u32, most: u32) -> u32;

    /// Sets the number of cores for which a client asks in all, in place of its last request.
    ///
    /// Returns DONE, or REFUSED if the handle has no arbiter or there is no such client.
    ///
    /// Threads: safe beside calls with other handles; two at once with `arbiter` are undefined behaviour.
    pub fn arachne_arbiter_ask(arbiter: *mut ArachneArbiter, client: usize, cores: u32) -> u32;

    /// Removes a client, with all of its threads.
    ///
    /// Returns DONE, or REFUSED if the handle has no arbiter or the client's number is greater than 63.
    ///
    /// Threads: safe beside calls with other handles; two at once with `arbiter` are undefined behaviour.
    pub fn arachne_arbiter_leave(arbiter: *mut ArachneArbiter, client: usize) -> u32;

    /// Adds a thread with the number `place` to a client. If `floats` is true, the thread never waits for a core.
    ///
    /// Returns DONE, or REFUSED if the handle has no arbiter, if there is no such client, or if `place` is in use
    /// or greater than 63.
    ///
    /// Threads: safe beside calls with other handles; two at once with `arbiter` are undefined behaviour.
    pub fn arachne_arbiter_join(arbiter: *mut ArachneArbiter, client: usize, place: usize, floats: bool) -> u32;

    /// Takes the core from a thread, if it has one, and makes the thread wait until a core is granted to it.
    ///
    /// Returns DONE, or REFUSED if the handle has no arbiter, or if the thread floats (never waits for a core),
    /// already waits, or does not exist.
    ///
    /// Threads: safe beside calls with other handles; two at once with `arbiter` are undefined behaviour.
    pub fn arachne_arbiter_wait(arbiter: *mut ArachneArbiter, client: usize, place: usize) -> u32;

    /// Removes a thread of a client, because the thread has ended.
    ///
    /// Returns DONE, or REFUSED if the handle has no arbiter or the number of the client or of the thread is
    /// greater than 63.
    ///
    /// Threads: safe beside calls with other handles; two at once with `arbiter` are undefined behaviour.
    pub fn arachne_arbiter_end(arbiter: *mut ArachneArbiter, client: usize, place: usize) -> u32;

    /// Computes how many cores each client may have, from the numbers of cores for which all clients ask now.
    ///
    /// Returns DONE, or REFUSED if the handle has no arbiter.
    ///
    /// Threads: safe beside calls with other handles; two at once with `arbiter` are undefined behaviour.
    pub fn arachne_arbiter_decide(arbiter: *mut ArachneArbiter) -> u32;

    /// Takes a core from a client that has more cores than it may have. Of the client's threads with a core, the
    /// one with the greatest number loses its core.
    ///
    /// If that thread floats (never waits for a core), takes the core at once. Otherwise takes the core only if
    /// `late` is true, which means that the client hasn't given a core back in time. Returns TAKEN; NOTHING if no
    /// core was taken; REFUSED if the handle has no arbiter.
    ///
    /// Threads: safe beside calls with other handles; two at once with `arbiter` are undefined behaviour.
    pub fn arachne_arbiter_take_back(arbiter: *mut ArachneArbiter, client: usize, late: bool) -> ArachneAction;

    /// Gives a free core to a thread that can take one, of a client that has fewer cores than it may have.
    ///
    /// Clients of higher priority go first. Returns GRANTED if the thread waited for a core; PLACED if the thread
    /// floats (never waits for a core); NOTHING if no core was given; REFUSED if the handle has no arbiter.
    ///
    /// Threads: safe beside calls with other handles; two at once with `arbiter` are undefined behaviour.
    pub fn arachne_arbiter_give(arbiter: *mut ArachneArbiter) -> ArachneAction;

    /// Returns how many cores a client may have, and how many its threads have now. Both are 0 if the handle has no
    /// arbiter.
    ///
    /// Threads: safe beside calls with other handles; two at once with `arbiter` are undefined behaviour.
    pub fn arachne_arbiter_share(arbiter: *mut ArachneArbiter, client: usize) -> ArachneShare;
}
