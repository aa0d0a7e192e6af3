//! Calls the proved library `arachne_grants_c`, which parses messages and decides which thread gets which core. The
//! declarations are those of `examples/c/arachne_grants.h`.

#[repr(C)]
struct Handle {
    opaque: *mut u8,
}

#[repr(C)]
struct RawMessage {
    code: u32,
    priority: u32,
    reserved: u32,
    most: u32,
    client: u32,
    thread: u32,
    place: u32,
    cores: u32,
    floats: bool,
}

#[repr(C)]
struct RawAction {
    code: u32,
    core: u32,
    client: usize,
    place: usize,
}

#[repr(C)]
#[derive(Clone, Copy, Debug)]
pub struct Share {
    pub allowed: u32,
    pub held: u32,
}

const DONE: u32 = 0;
const HELLO: u32 = 3;
const JOIN: u32 = 4;
const WAIT: u32 = 5;
const ASK: u32 = 6;
const SHORT: u32 = 7;
const TAKEN: u32 = 14;
const PLACED: u32 = 15;
const GRANTED: u32 = 16;

extern "C" {
    fn arachne_message_read(bytes: *const u8, bytes_count: usize) -> RawMessage;
    fn arachne_arbiter_new(arbiter: *mut Handle, cores: u32) -> u32;
    fn arachne_arbiter_close(arbiter: *mut Handle);
    fn arachne_arbiter_hello(arbiter: *mut Handle, client: usize, priority: u8, reserved: u32, most: u32) -> u32;
    fn arachne_arbiter_ask(arbiter: *mut Handle, client: usize, cores: u32) -> u32;
    fn arachne_arbiter_leave(arbiter: *mut Handle, client: usize) -> u32;
    fn arachne_arbiter_join(arbiter: *mut Handle, client: usize, place: usize, floats: bool) -> u32;
    fn arachne_arbiter_wait(arbiter: *mut Handle, client: usize, place: usize) -> u32;
    fn arachne_arbiter_end(arbiter: *mut Handle, client: usize, place: usize) -> u32;
    fn arachne_arbiter_decide(arbiter: *mut Handle) -> u32;
    fn arachne_arbiter_take_back(arbiter: *mut Handle, client: usize, late: bool) -> RawAction;
    fn arachne_arbiter_give(arbiter: *mut Handle) -> RawAction;
    fn arachne_arbiter_share(arbiter: *mut Handle, client: usize) -> Share;
}

/// A client's message. It registers the client or a thread, asks for a number of cores, or says that a thread waits.
#[derive(Clone, Copy, PartialEq, Eq, Debug)]
pub enum Message {
    Hello { priority: u32, reserved: u32, most: u32 },
    Join { client: u32, thread: u32, place: u32, floats: bool },
    Wait,
    Ask { cores: u32 },
}

/// Reads a client's message. The error says why the bytes are no message.
pub fn read(bytes: &[u8]) -> Result<Message, &'static str> {
    // SAFETY: the length is the slice's, which lives through the call.
    let it = unsafe { arachne_message_read(bytes.as_ptr(), bytes.len()) };
    match it.code {
        HELLO => Ok(Message::Hello { priority: it.priority, reserved: it.reserved, most: it.most }),
        JOIN => Ok(Message::Join { client: it.client, thread: it.thread, place: it.place, floats: it.floats }),
        WAIT => Ok(Message::Wait),
        ASK => Ok(Message::Ask { cores: it.cores }),
        code => {
            let faults = ["half a message", "no such message", "another version", "no such priority", "no such place"];
            Err(faults.get((code - SHORT) as usize).unwrap_or(&"a number that isn't 0"))
        }
    }
}

/// A core, and the thread that must be moved to it or off it.
#[derive(Clone, Copy, PartialEq, Eq, Debug)]
pub struct Move {
    pub client: usize,
    pub place: usize,
    pub core: usize,
    /// True if the thread waits for the core. The caller must then send it a message.
    pub waited: bool,
}

impl Move {
    fn of(action: RawAction) -> Option<Move> {
        let RawAction { code, core, client, place } = action;
        let moves = [TAKEN, PLACED, GRANTED].contains(&code);
        moves.then_some(Move { client, place, core: core as usize, waited: code == GRANTED })
    }
}

/// The proved library's record of the clients, of their threads, and of which thread has which core. Clients are
/// numbered 0 to 63, and so are a client's threads.
pub struct State(Handle);

impl State {
    /// Returns None if `cores` is greater than 1,024, or if memory is refused.
    pub fn new(cores: usize) -> Option<State> {
        let mut state = State(Handle { opaque: std::ptr::null_mut() });
        // SAFETY: the handle is empty, and lives through the call.
        let code = unsafe { arachne_arbiter_new(&mut state.0, u32::try_from(cores).ok()?) };
        (code == DONE).then_some(state)
    }

    /// Adds a client. Returns false, and changes nothing, if the library refuses the call, for example because the
    /// number is in use. The other methods that return a `bool` also return false, and change nothing, if the library
    /// refuses the call.
    pub fn hello(&mut self, client: usize, priority: u8, reserved: u32, most: u32) -> bool {
        // SAFETY: nobody else uses the handle, as `&mut` says.
        unsafe { arachne_arbiter_hello(&mut self.0, client, priority, reserved, most) == DONE }
    }

    pub fn ask(&mut self, client: usize, cores: u32) -> bool {
        // SAFETY: nobody else uses the handle, as `&mut` says.
        unsafe { arachne_arbiter_ask(&mut self.0, client, cores) == DONE }
    }

    pub fn leave(&mut self, client: usize) -> bool {
        // SAFETY: nobody else uses the handle, as `&mut` says.
        unsafe { arachne_arbiter_leave(&mut self.0, client) == DONE }
    }

    pub fn join(&mut self, client: usize, place: usize, floats: bool) -> bool {
        // SAFETY: nobody else uses the handle, as `&mut` says.
        unsafe { arachne_arbiter_join(&mut self.0, client, place, floats) == DONE }
    }

    pub fn wait(&mut self, client: usize, place: usize) -> bool {
        // SAFETY: nobody else uses the handle, as `&mut` says.
        unsafe { arachne_arbiter_wait(&mut self.0, client, place) == DONE }
    }

    pub fn end(&mut self, client: usize, place: usize) -> bool {
        // SAFETY: nobody else uses the handle, as `&mut` says.
        unsafe { arachne_arbiter_end(&mut self.0, client, place) == DONE }
    }

    /// Decides how many cores each client is allowed.
    pub fn decide(&mut self) {
        // SAFETY: nobody else uses the handle, as `&mut` says.
        let _ = unsafe { arachne_arbiter_decide(&mut self.0) };
    }

    /// Takes a core from a client that has more cores than it is allowed. Unless `late` is true, takes a core only from
    /// a thread that floats (never waits for a core).
    pub fn take_back(&mut self, client: usize, late: bool) -> Option<Move> {
        // SAFETY: nobody else uses the handle, as `&mut` says.
        Move::of(unsafe { arachne_arbiter_take_back(&mut self.0, client, late) })
    }

    /// Gives a free core to a thread of a client that has fewer cores than it is allowed.
    pub fn give(&mut self) -> Option<Move> {
        // SAFETY: nobody else uses the handle, as `&mut` says.
        Move::of(unsafe { arachne_arbiter_give(&mut self.0) })
    }

    pub fn share(&mut self, client: usize) -> Share {
        // SAFETY: nobody else uses the handle, as `&mut` says.
        unsafe { arachne_arbiter_share(&mut self.0, client) }
    }
}

impl Drop for State {
    fn drop(&mut self) {
        // SAFETY: this is the state's own handle, which isn't used again.
        unsafe { arachne_arbiter_close(&mut self.0) };
    }
}
