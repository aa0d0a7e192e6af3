//! The calls of Linux that the daemon needs, declared as in Linux's C library on 64 bits, behind safe functions.

use std::fs::File;
use std::io::{self, Write};
use std::os::unix::io::{AsRawFd, FromRawFd, RawFd};
use std::os::unix::net::UnixStream;
use std::sync::atomic::{AtomicBool, AtomicU32, Ordering};

#[repr(C)]
pub struct Polled {
    pub fd: RawFd,
    pub events: i16,
    pub seen: i16,
}

#[repr(C)]
struct Piece {
    base: *const u8,
    len: usize,
}

#[repr(C)]
struct Header {
    name: *const u8,
    name_len: u32,
    pieces: *const Piece,
    count: usize,
    control: *const u8,
    control_len: usize,
    flags: i32,
}

/// A control message that carries a descriptor: its length, SOL_SOCKET, SCM_RIGHTS, and the descriptor.
#[repr(C)]
struct Rights {
    len: usize,
    level: i32,
    kind: i32,
    fd: i32,
    _pad: i32,
}

extern "C" {
    fn poll(fds: *mut Polled, count: u64, timeout: i32) -> i32;
    fn sendmsg(fd: i32, header: *const Header, flags: i32) -> isize;
    fn getsockopt(fd: i32, level: i32, name: i32, value: *mut u32, len: *mut u32) -> i32;
    fn memfd_create(name: *const u8, flags: u32) -> i32;
    fn fcntl(fd: i32, command: i32, value: i32) -> i32;
    fn mmap(at: *mut u8, len: usize, protection: i32, flags: i32, fd: i32, offset: i64) -> *mut u8;
    fn munmap(at: *mut u8, len: usize) -> i32;
    fn sched_setaffinity(thread: i32, len: usize, mask: *const u64) -> i32;
    fn sched_getaffinity(thread: i32, len: usize, mask: *mut u64) -> i32;
    fn sched_setscheduler(process: i32, policy: i32, priority: *const i32) -> i32;
    fn signal(number: i32, handler: usize) -> usize;
    fn getuid() -> u32;
    fn kill(process: i32, signal: i32) -> i32;
    fn flock(fd: i32, operation: i32) -> i32;
    fn syscall(number: i64, ...) -> i64;
    fn prctl(option: i32, value: u64, a: u64, b: u64, c: u64) -> i32;
}

const PAGE: usize = 4096;

/// The most processors that an affinity can name.
pub const PROCESSORS: usize = 1024;

pub fn wait(fds: &mut [Polled], timeout: i32) {
    // SAFETY: the length is the slice's, which lives through the call.
    unsafe { poll(fds.as_mut_ptr(), fds.len() as u64, timeout) };
}

/// Returns the process id and the user id of the process at the other end, as they were when it connected.
pub fn peer(stream: &UnixStream) -> io::Result<(u32, u32)> {
    let (mut peer, mut len) = ([0u32; 3], 12u32);
    // SAFETY: the length is that of three numbers of 32 bits, which live through the call.
    match unsafe { getsockopt(stream.as_raw_fd(), 1, 17, peer.as_mut_ptr(), &mut len) } {
        0 => Ok((peer[0], peer[1])),
        _ => Err(io::Error::last_os_error()),
    }
}

/// Sends bytes and a descriptor without waiting. Fails unless all bytes could be sent.
pub fn send_with(stream: &UnixStream, bytes: &[u8], fd: RawFd) -> io::Result<()> {
    let piece = Piece { base: bytes.as_ptr(), len: bytes.len() };
    let rights = Rights { len: 20, level: 1, kind: 1, fd, _pad: 0 };
    let control = &rights as *const Rights as *const u8;
    let header =
        Header { name: std::ptr::null(), name_len: 0, pieces: &piece, count: 1, control, control_len: 24, flags: 0 };
    // SAFETY: the header, and the buffers that it names with their lengths, live through the call.
    match unsafe { sendmsg(stream.as_raw_fd(), &header, 0x4000 | 0x40) } {
        n if n == bytes.len() as isize => Ok(()),
        _ => Err(io::Error::last_os_error()),
    }
}

/// A page of memory that the daemon writes and never reads, and that a client reads.
pub struct Page {
    file: File,
    at: *mut u8,
}

impl Page {
    pub fn new() -> io::Result<Page> {
        // SAFETY: the name ends with a zero, and lives through the call.
        let fd = unsafe { memfd_create(b"arbiter\0".as_ptr(), 3) };
        if fd < 0 {
            return Err(io::Error::last_os_error());
        }
        // SAFETY: the descriptor was made by the call above, and nobody else has it.
        let file = unsafe { File::from_raw_fd(fd) };
        file.set_len(PAGE as u64)?;
        // SAFETY: a new mapping, where the kernel chooses.
        let at = unsafe { mmap(std::ptr::null_mut(), PAGE, 3, 1, fd, 0) };
        if at as isize == -1 {
            return Err(io::Error::last_os_error());
        }
        // From now on nobody can change the file's length, or write to it other than by the mapping above. The numbers
        // are F_ADD_SEALS, and F_SEAL_SEAL, F_SEAL_SHRINK, F_SEAL_GROW and F_SEAL_FUTURE_WRITE.
        // SAFETY: all arguments are numbers.
        if unsafe { fcntl(fd, 1033, 1 | 2 | 4 | 16) } != 0 {
            return Err(io::Error::last_os_error());
        }
        Ok(Page { file, at })
    }

    pub fn allowed(&self) -> &AtomicU32 {
        // SAFETY: the page is mapped while this lives, and accessed only as an atomic number.
        unsafe { &*(self.at as *const AtomicU32) }
    }

    pub fn fd(&self) -> RawFd {
        self.file.as_raw_fd()
    }
}

impl Drop for Page {
    fn drop(&mut self) {
        // SAFETY: the mapping belongs to this page, to which there is no reference any more.
        unsafe { munmap(self.at, PAGE) };
    }
}

pub fn set_affinity(thread: u32, cpus: &[usize]) -> io::Result<()> {
    let mut mask = [0u64; 16];
    cpus.iter().for_each(|cpu| mask[cpu / 64 % 16] |= 1 << (cpu % 64));
    // SAFETY: the mask has 128 bytes, and lives through the call.
    match unsafe { sched_setaffinity(thread as i32, 128, mask.as_ptr()) } {
        0 => Ok(()),
        _ => Err(io::Error::last_os_error()),
    }
}

/// Returns the processors that a thread may run on, or none if the thread has ended. Thread 0 is the calling thread.
pub fn affinity_of(thread: u32) -> Vec<usize> {
    let mut mask = [0u64; 16];
    // SAFETY: the mask has 128 bytes, and lives through the call.
    unsafe { sched_getaffinity(thread as i32, 128, mask.as_mut_ptr()) };
    (0..PROCESSORS).filter(|cpu| mask[cpu / 64] >> (cpu % 64) & 1 == 1).collect()
}

/// Gives this process the lowest real-time priority, if the system lets it, because clients wait for its decisions.
pub fn go_first() {
    // SAFETY: the priority lives through the call.
    unsafe { sched_setscheduler(0, 1 | 0x4000_0000, &1) };
}

pub fn user() -> u32 {
    // SAFETY: a call without arguments.
    unsafe { getuid() }
}

pub static ENDS: AtomicBool = AtomicBool::new(false);

extern "C" fn heard(_: i32) {
    ENDS.store(true, Ordering::SeqCst);
}

/// Lets SIGINT and SIGTERM set `ENDS` instead of ending this process.
pub fn hear_ends() {
    for number in [2, 15] {
        // SAFETY: the handler has C's convention, and makes only one store.
        unsafe { signal(number, heard as extern "C" fn(i32) as usize) };
    }
}

/// Asks Linux to send SIGTERM to this process when its parent ends.
pub fn end_with_parent() {
    // SAFETY: all arguments are numbers.
    unsafe { prctl(1, 15, 0, 0, 0) };
}

/// Returns a descriptor that is readable once the process has ended, even if another process keeps its sockets open.
pub fn watch_process(process: u32) -> io::Result<File> {
    // SAFETY: all arguments of `pidfd_open` are numbers.
    match unsafe { syscall(434, process as i32, 0u32) } {
        // SAFETY: the descriptor was made by the call above, and nobody else has it.
        fd if fd >= 0 => Ok(unsafe { File::from_raw_fd(fd as i32) }),
        _ => Err(io::Error::last_os_error()),
    }
}

/// Locks a file for this process. Returns false if another process has locked it.
pub fn lock(file: &File) -> bool {
    // SAFETY: all arguments are numbers; they are LOCK_EX and LOCK_NB.
    unsafe { flock(file.as_raw_fd(), 2 | 4) == 0 }
}

/// Prints a line. Unlike `println!`, it ignores an error, such as that nobody reads the output any more.
pub fn print(line: std::fmt::Arguments) {
    let _ = writeln!(io::stdout(), "{line}");
}

pub fn terminate(process: u32) {
    // SAFETY: all arguments are numbers.
    unsafe { kill(process as i32, 15) };
}
