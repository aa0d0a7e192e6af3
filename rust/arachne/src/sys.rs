//! The system calls that the crate needs: epoll, eventfd, sockets, affinity, time slices, a shared page.
//!
//! The calls are declared by hand, with the types of Linux's C library on 64 bits, and wrapped in safe functions.

use crate::sync::atomic::{AtomicI32, AtomicU32, Ordering::*};
use crate::sync::{clock, told, wait as wait_in};
use std::fs::File;
use std::io;
use std::os::unix::ffi::OsStrExt;
use std::os::unix::io::{AsRawFd, FromRawFd, RawFd};
use std::path::Path;

#[derive(Clone, Copy)]
#[cfg_attr(target_arch = "x86_64", repr(C, packed))]
#[cfg_attr(not(target_arch = "x86_64"), repr(C))]
pub(crate) struct Event {
    pub(crate) events: u32,
    pub(crate) data: u64,
}

extern "C" {
    fn epoll_create1(flags: i32) -> i32;
    fn epoll_ctl(epoll: i32, operation: i32, fd: i32, event: *mut Event) -> i32;
    fn epoll_wait(epoll: i32, events: *mut Event, most: i32, timeout: i32) -> i32;
    fn eventfd(count: u32, flags: i32) -> i32;
    fn poll(descriptors: *mut Polled, count: u64, timeout: i32) -> i32;
    fn ppoll(descriptors: *mut Polled, count: u64, timeout: *const [i64; 2], mask: *const u64) -> i32;
    fn close(fd: i32) -> i32;
    fn read(fd: i32, bytes: *mut u8, count: usize) -> isize;
    fn write(fd: i32, bytes: *const u8, count: usize) -> isize;
    fn socket(domain: i32, kind: i32, protocol: i32) -> i32;
    fn fcntl(fd: i32, command: i32, ...) -> i32;
    #[link_name = "listen"]
    fn listen_call(fd: i32, backlog: i32) -> i32;
    fn connect(fd: i32, address: *const u8, len: u32) -> i32;
    fn sched_getaffinity(thread: i32, len: usize, mask: *mut u64) -> i32;
    fn sched_setaffinity(thread: i32, len: usize, mask: *const u64) -> i32;
    fn clock_gettime(clock: i32, time: *mut [i64; 2]) -> i32;
    fn signal(number: i32, handler: usize) -> usize;
    fn syscall(number: i64, ...) -> i64;
    fn recvmsg(fd: i32, header: *mut Header, flags: i32) -> isize;
    fn mmap(at: *mut u8, len: usize, protection: i32, flags: i32, fd: i32, offset: i64) -> *mut u8;
}

#[repr(C)]
struct Polled {
    fd: i32,
    wanted: i16,
    found: i16,
}

#[repr(C)]
struct Piece {
    base: *mut u8,
    len: usize,
}

#[repr(C)]
struct Header {
    name: *mut u8,
    name_len: u32,
    pieces: *mut Piece,
    count: usize,
    control: *mut u8,
    control_len: usize,
    flags: i32,
}

/// A control message that carries a descriptor over a socket: length, SOL_SOCKET, SCM_RIGHTS, and the descriptor.
#[derive(Default)]
#[repr(C)]
struct Rights {
    len: usize,
    level: i32,
    kind: i32,
    fd: i32,
    _pad: i32,
}

pub(crate) const IN: u32 = 1;
pub(crate) const OUT: u32 = 4;
pub(crate) const ERR: u32 = 8;
pub(crate) const HUP: u32 = 16;
pub(crate) const RDHUP: u32 = 0x2000;
pub(crate) const EDGE: u32 = 1 << 31;
const ADD: i32 = 1;
const DELETE: i32 = 2;
const CLOSE_ON_EXEC: i32 = 0o2000000;
const NON_BLOCKING: i32 = 0o4000;
const IN_PROGRESS: i32 = 115;

fn checked(result: i32) -> io::Result<i32> {
    if result < 0 {
        Err(io::Error::last_os_error())
    } else {
        Ok(result)
    }
}

pub(crate) fn new_epoll() -> io::Result<RawFd> {
    // SAFETY: all arguments are numbers.
    checked(unsafe { epoll_create1(CLOSE_ON_EXEC) })
}

pub(crate) fn new_event() -> io::Result<RawFd> {
    // SAFETY: all arguments are numbers.
    checked(unsafe { eventfd(0, CLOSE_ON_EXEC | NON_BLOCKING) })
}

pub(crate) fn new_event_file() -> io::Result<File> {
    // SAFETY: the descriptor is new, and nobody else has it.
    Ok(unsafe { File::from_raw_fd(new_event()?) })
}

pub(crate) fn close_fd(fd: RawFd) {
    // SAFETY: the argument is a number. Only the caller has this descriptor, and doesn't use it again.
    unsafe { close(fd) };
}

pub(crate) fn watch(epoll: RawFd, fd: RawFd, events: u32, data: u64) -> io::Result<()> {
    // SAFETY: the event lives through the call, and the kernel keeps a copy.
    checked(unsafe { epoll_ctl(epoll, ADD, fd, &mut Event { events, data }) }).map(drop)
}

pub(crate) fn unwatch(epoll: RawFd, fd: RawFd) {
    // SAFETY: the event lives through the call, and the kernel doesn't read it.
    unsafe { epoll_ctl(epoll, DELETE, fd, &mut Event { events: 0, data: 0 }) };
}

/// Waits for events, for at most `timeout` milliseconds (-1: for ever). Returns how many events came: 0 if interrupted.
pub(crate) fn wait(epoll: RawFd, events: &mut [Event], timeout: i32) -> usize {
    wait_in(epoll, timeout, |timeout| {
        // SAFETY: the kernel writes at most as many events as the slice has, and any bytes are a valid event.
        unsafe { epoll_wait(epoll, events.as_mut_ptr(), events.len() as i32, timeout) }.max(0) as usize
    })
}

pub(crate) fn raise(event: RawFd) {
    let one = 1u64.to_ne_bytes();
    // SAFETY: there are eight bytes for the kernel to read.
    unsafe { write(event, one.as_ptr(), 8) };
    told();
}

/// Resets an eventfd to 0, so that the epoll no longer reports it.
pub(crate) fn lower(event: RawFd) {
    let mut count = [0; 8];
    // SAFETY: there is room for eight bytes.
    unsafe { read(event, count.as_mut_ptr(), 8) };
}

pub(crate) fn set_nonblocking(fd: RawFd) -> io::Result<()> {
    const GET_FLAGS: i32 = 3;
    const SET_FLAGS: i32 = 4;
    // SAFETY: all arguments are numbers.
    let flags = checked(unsafe { fcntl(fd, GET_FLAGS) })?;
    // SAFETY: as above.
    checked(unsafe { fcntl(fd, SET_FLAGS, flags | NON_BLOCKING) }).map(drop)
}

/// Changes the backlog (the most connections that wait to be accepted) of a socket that listens.
pub(crate) fn listen(fd: RawFd, backlog: i32) -> io::Result<()> {
    // SAFETY: all arguments are numbers.
    checked(unsafe { listen_call(fd, backlog) }).map(drop)
}

/// Returns a non-blocking socket, which may not be connected yet.
pub(crate) fn start_connect(to: &std::net::SocketAddr) -> io::Result<RawFd> {
    let mut bytes = [0u8; 28];
    bytes[2..4].copy_from_slice(&to.port().to_be_bytes());
    let (family, len) = match to {
        std::net::SocketAddr::V4(to) => {
            bytes[4..8].copy_from_slice(&to.ip().octets());
            (2u16, 16)
        }
        std::net::SocketAddr::V6(to) => {
            bytes[4..8].copy_from_slice(&to.flowinfo().to_be_bytes());
            bytes[8..24].copy_from_slice(&to.ip().octets());
            bytes[24..28].copy_from_slice(&to.scope_id().to_ne_bytes());
            (10, 28)
        }
    };
    begin_connect(family, &mut bytes[..len])
}

/// Fails with `WouldBlock` if the listener's backlog is full.
pub(crate) fn connect_unix(path: &Path) -> io::Result<RawFd> {
    let (path, mut bytes) = (path.as_os_str().as_bytes(), [0u8; 110]);
    // The path must be followed by a zero byte.
    if path.is_empty() || path.len() > 107 || path.contains(&0) {
        return Err(io::ErrorKind::InvalidInput.into());
    }
    bytes[2..2 + path.len()].copy_from_slice(path);
    begin_connect(1, &mut bytes[..3 + path.len()])
}

fn begin_connect(family: u16, address: &mut [u8]) -> io::Result<RawFd> {
    address[..2].copy_from_slice(&family.to_ne_bytes());
    // SAFETY: all arguments are numbers.
    let fd = checked(unsafe { socket(family as i32, 1 | CLOSE_ON_EXEC | NON_BLOCKING, 0) })?;
    // SAFETY: the address has as many bytes as its length says.
    match checked(unsafe { connect(fd, address.as_ptr(), address.len() as u32) }) {
        Err(error) if error.raw_os_error() != Some(IN_PROGRESS) => {
            close_fd(fd);
            Err(error)
        }
        _ => Ok(fd),
    }
}

/// Returns the nanoseconds of the system's monotonic clock.
#[inline]
pub(crate) fn now() -> u64 {
    clock(|| {
        let mut time = [0i64; 2];
        // SAFETY: there is room for a time: two words of 64 bits.
        unsafe { clock_gettime(1, &mut time) };
        time[0] as u64 * 1_000_000_000 + time[1] as u64
    })
}

/// Returns the processors that the calling thread may run on; none if the call fails.
pub(crate) fn affinity() -> Vec<usize> {
    let mut mask = [0u64; 16];
    // SAFETY: the mask has 128 bytes.
    let len = unsafe { sched_getaffinity(0, 128, mask.as_mut_ptr()) };
    if len < 0 {
        return Vec::new();
    }
    (0..1024).filter(|cpu| mask[cpu / 64] >> (cpu % 64) & 1 == 1).collect()
}

pub(crate) fn pin(cpu: usize) -> bool {
    set_affinity(0, &[cpu])
}

/// Keeps a thread of this process (0: the calling one) on the processors `cpus`.
pub(crate) fn set_affinity(thread: u32, cpus: &[usize]) -> bool {
    let mut mask = [0u64; 16];
    cpus.iter().for_each(|cpu| mask[cpu / 64 % 16] |= 1 << (cpu % 64));
    // SAFETY: the mask has 128 bytes.
    unsafe { sched_setaffinity(thread as i32, 128, mask.as_ptr()) == 0 }
}

pub(crate) fn thread_number() -> Option<u32> {
    std::fs::read_link("/proc/thread-self").ok()?.file_name()?.to_str()?.parse().ok()
}

pub(crate) fn receive_with(socket: RawFd) -> io::Result<([u8; 16], Option<File>)> {
    const ALL: i32 = 0x100;
    const CLOSE_FD_ON_EXEC: i32 = 0x4000_0000;
    let (mut bytes, mut rights) = ([0u8; 16], Rights::default());
    let mut piece = Piece { base: bytes.as_mut_ptr(), len: 16 };
    let mut header = Header {
        name: std::ptr::null_mut(),
        name_len: 0,
        pieces: &mut piece,
        count: 1,
        control: &mut rights as *mut Rights as *mut u8,
        control_len: 24,
        flags: 0,
    };
    // SAFETY: the header, and the buffers that it names with their lengths, live through the call, which writes them.
    if unsafe { recvmsg(socket, &mut header, ALL | CLOSE_FD_ON_EXEC) } != 16 {
        return Err(io::ErrorKind::UnexpectedEof.into());
    }
    let has_fd = header.control_len >= 20 && (rights.len, rights.level, rights.kind) == (20, 1, 1);
    // SAFETY: the kernel has made this descriptor for this call, and nobody else has it.
    Ok((bytes, has_fd.then(|| unsafe { File::from_raw_fd(rights.fd) })))
}

/// The new page replaces the page at `at`, which an earlier call has mapped, unless `at` is null.
pub(crate) fn map_page(file: &File, at: *mut AtomicU32) -> io::Result<*mut AtomicU32> {
    const PAGE: usize = 4096;
    const READ: i32 = 1;
    const SHARED: i32 = 1;
    const FIXED: i32 = 0x10;
    let flags = if at.is_null() { SHARED } else { SHARED | FIXED };
    // SAFETY: only an earlier page is mapped at that address. A thread that reads the number there finds one both
    // before and after the call.
    let mapped = unsafe { mmap(at as *mut u8, PAGE, READ, flags, file.as_raw_fd(), 0) };
    if mapped as isize == -1 {
        return Err(io::Error::last_os_error());
    }
    Ok(mapped as *mut AtomicU32)
}

/// A value for the array below; rustc 1.63 doesn't accept the expression there.
#[allow(clippy::declare_interior_mutable_const)]
const NO_EVENT: AtomicI32 = AtomicI32::new(-1);
/// For each signal, the eventfd that its handler raises, or -1.
static SIGNALLED: [AtomicI32; 65] = [NO_EVENT; 65];

extern "C" fn handler(number: i32) {
    // A signal handler may do nothing here but raise an event.
    if let Some(event) = SIGNALLED.get(number as usize) {
        raise(event.load(SeqCst));
    }
}

/// The signals of faults (SIGILL, SIGBUS, SIGFPE, SIGSEGV). If a handler returned, the fault would occur again.
const FAULTS: [i32; 4] = [4, 7, 8, 11];

/// Fails for a signal of a fault.
pub(crate) fn raise_at(number: i32, event: RawFd) -> io::Result<()> {
    const INVALID: i32 = 22;
    if FAULTS.contains(&number) {
        return Err(io::Error::from_raw_os_error(INVALID));
    }
    let kept = SIGNALLED.get(number as usize).ok_or(io::ErrorKind::InvalidInput)?;
    kept.store(event, SeqCst);
    // SAFETY: the handler is a function of C's convention that lives for ever, and its only call is one that a handler
    // may make.
    match unsafe { signal(number, handler as extern "C" fn(i32) as usize) } {
        usize::MAX => Err(io::Error::last_os_error()),
        _ => Ok(()),
    }
}

/// Clears an eventfd. Returns false if the eventfd isn't raised.
pub(crate) fn take_event(event: RawFd) -> bool {
    let mut count = [0; 8];
    // SAFETY: there is room for eight bytes.
    unsafe { read(event, count.as_mut_ptr(), 8) == 8 }
}

/// Blocks the calling thread until the eventfd is raised, and clears it. Returns false if the wait fails.
pub(crate) fn await_event(event: RawFd) -> bool {
    let mut polled = Polled { fd: event, wanted: 1, found: 0 };
    loop {
        // SAFETY: there is one descriptor, which lives through the call.
        if let Err(error) = checked(unsafe { poll(&mut polled, 1, -1) }) {
            if error.kind() != io::ErrorKind::Interrupted {
                return false;
            }
        } else if take_event(event) {
            return true;
        }
    }
}

/// Waits for at most `nanos` nanoseconds until one of two descriptors is readable or has failed.
pub(crate) fn readable(fds: [RawFd; 2], nanos: u64) -> [bool; 2] {
    let mut polled = fds.map(|fd| Polled { fd, wanted: 1, found: 0 });
    let time = [nanos as i64 / 1_000_000_000, nanos as i64 % 1_000_000_000];
    // SAFETY: there are two descriptors and a time, which live through the call, and no mask.
    unsafe { ppoll(polled.as_mut_ptr(), 2, &time, std::ptr::null()) };
    polled.map(|it| it.found != 0)
}

/// The system calls `sched_setattr` and `sched_getattr`; None if their numbers aren't known for this architecture.
#[cfg(target_arch = "x86_64")]
const SCHEDULING: Option<(i64, i64)> = Some((314, 315));
#[cfg(any(target_arch = "aarch64", target_arch = "riscv64"))]
const SCHEDULING: Option<(i64, i64)> = Some((274, 275));
#[cfg(not(any(target_arch = "x86_64", target_arch = "aarch64", target_arch = "riscv64")))]
const SCHEDULING: Option<(i64, i64)> = None;

/// Requests a time slice of `nanos` for the calling thread, if its scheduling policy is the default one. Returns None
/// if the system (before Linux 6.12) doesn't grant it.
pub(crate) fn ask_for_slices(nanos: u64) -> Option<()> {
    let (set, get) = SCHEDULING?;
    // The words of `struct sched_attr`: size and policy, flags, priorities, the slice, and three for other policies.
    let mut attributes = [0u64; 7];
    // SAFETY: the attributes have 56 bytes.
    let got = unsafe { syscall(get, 0i32, attributes.as_mut_ptr(), 56u32, 0u32) };
    if got != 0 || attributes[0] >> 32 != 0 {
        return None;
    }
    attributes[3] = nanos;
    // SAFETY: the attributes have as many bytes as their first word says, which the call above has written.
    let was_set = unsafe { syscall(set, 0i32, attributes.as_ptr(), 0u32) };
    (was_set == 0).then_some(())
}
