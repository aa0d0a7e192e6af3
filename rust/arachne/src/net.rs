//! Sockets and other descriptors. A task that can't read or write yet waits for an event of the runtime's epoll.
//!
//! A socket belongs to the runtime in which it first had to wait. Once that runtime has ended, each wait for the socket
//! fails, in every runtime; `from_std(socket.into_std()?)` makes a new socket from it.
//!
//! The names are std's. `bind` and `from_std` don't wait, so they aren't `async`. Reads and writes take `&self`, so
//! tasks may share a socket, by an `Arc` for example. Any number of tasks may wait for one socket, and an event wakes
//! all these tasks. But of several tasks that read (or write) by `poll_` functions, or by the traits of tokio or
//! futures-io, an event wakes only the last.
//!
//! If a future of one operation (such as `read`, `write`, `accept` or `recv_from`) is dropped, no data is lost. If
//! `read_exact` or `write_all` is dropped, a part of the bytes may have been read or written.
//!
//! ```
//! use arachne::net::{TcpListener, TcpStream};
//! # fn main() -> std::io::Result<()> {
//! let runtime = arachne::Runtime::new(2);
//! let listener = TcpListener::bind("127.0.0.1:0")?;
//! let at = listener.local_addr()?;
//! let server = runtime.spawn(async move { listener.accept().await?.0.write_all(b"hello").await });
//! let mut buffer = [0; 5];
//! runtime.block_on(async { TcpStream::connect(at).await?.read_exact(&mut buffer).await })?;
//! assert_eq!(&buffer, b"hello");
//! runtime.block_on(server)?
//! # }
//! ```

use crate::block_on::poll_fn;
use crate::drain::is_stopping;
use crate::reactor::{Io, Key, READ, READ_CLOSED, WRITE, WRITE_CLOSED};
use crate::shared::{here, Context as Worker, Shared};
use crate::sync::atomic::Ordering::*;
use crate::sync::{Arc, Mutex};
use crate::sys;
use crate::waker::{in_own_poll, is_of_running};
use std::fmt;
use std::future::Future;
use std::io::{self, ErrorKind::WouldBlock, IoSlice, Read, Write};
use std::net::{Shutdown, SocketAddr, ToSocketAddrs};
use std::os::unix::io::{AsFd, AsRawFd, BorrowedFd, RawFd};
use std::pin::Pin;
use std::task::{Context, Poll, Waker};

mod tcp;
mod udp;
mod unix;
pub use tcp::{TcpListener, TcpStream};
pub use udp::UdpSocket;
pub use unix::{UnixListener, UnixStream};

#[derive(Clone)]
struct Registered {
    shared: &'static Shared,
    /// The count `Door::turns` of the runtime (handle.rs) when this was made. The count changes when the runtime ends.
    turns: u64,
    io: Arc<Io>,
    key: Key,
}

/// A descriptor with its entry in a runtime's epoll, which is made when a task first has to wait.
struct Registration {
    fd: RawFd,
    at: once::Once<Registered>,
    registering: Mutex<()>,
}

/// The part of a future that waits until a socket can be read or, if `READS` is false, written.
struct Waiting<'a, const READS: bool> {
    of: &'a Registration,
    key: u64,
}

impl<const READS: bool> Waiting<'_, READS> {
    #[inline]
    fn join(&mut self, io: &Io, waker: &Waker) {
        if READS { &io.readers } else { &io.writers }.join(&mut self.key, waker);
    }

    #[inline(never)]
    fn leave(&self) {
        if let Some(at) = self.of.at.get() {
            if READS { &at.io.readers } else { &at.io.writers }.leave(self.key);
        }
    }
}

impl<const READS: bool> Drop for Waiting<'_, READS> {
    #[inline]
    fn drop(&mut self) {
        if self.key != 0 {
            self.leave();
        }
    }
}

impl Drop for Registration {
    fn drop(&mut self) {
        if let Some(at) = self.at.get() {
            at.shared.reactor.remove(self.fd, at.key);
        }
    }
}

/// A socket with its entry in the epoll, which is dropped before the socket is closed.
struct Source<S: AsRawFd> {
    of: Registration,
    socket: S,
}

mod once {
    use crate::sync::atomic::{AtomicPtr, Ordering::*};
    use std::ptr;

    pub(super) struct Once<T>(AtomicPtr<T>);

    // SAFETY: as for a `Box<T>` that is shared once it has been written.
    unsafe impl<T: Send + Sync> Sync for Once<T> {}
    // SAFETY: the same.
    unsafe impl<T: Send> Send for Once<T> {}

    impl<T> Once<T> {
        pub(super) fn new() -> Once<T> {
            Once(AtomicPtr::new(ptr::null_mut()))
        }

        #[inline]
        pub(super) fn get(&self) -> Option<&T> {
            // SAFETY: the value that was written stays until the drop.
            unsafe { self.0.load(Acquire).as_ref() }
        }

        pub(super) fn set(&self, value: T) {
            let value = Box::into_raw(Box::new(value));
            if self.0.compare_exchange(ptr::null_mut(), value, AcqRel, Acquire).is_err() {
                // SAFETY: the pointer is from `into_raw` above, and was not stored.
                drop(unsafe { Box::from_raw(value) });
            }
        }
    }

    impl<T> Drop for Once<T> {
        fn drop(&mut self) {
            let value = *self.0.get_mut();
            if !value.is_null() {
                // SAFETY: the pointer is from `into_raw` in `set`, and is only freed here.
                drop(unsafe { Box::from_raw(value) });
            }
        }
    }
}

/// Returns true if the task that is polled now may read its socket. A task may read once per poll, and more often until
/// its worker must check for events. If `waker` isn't the task's own, as in a `block_on`, returns true, because such a
/// poll doesn't return to the worker.
#[inline]
fn may_read(waker: &Waker) -> bool {
    Worker::with(|worker| match worker {
        Some(worker) if is_of_running(waker, worker) => worker.may_read(),
        _ => true,
    })
}

impl<S: AsRawFd> Source<S> {
    fn new(socket: S) -> Source<S> {
        let of = Registration { fd: socket.as_raw_fd(), at: once::Once::new(), registering: Mutex::new(()) };
        Source { of, socket }
    }

    fn into_inner(self) -> S {
        self.socket
    }

    /// Returns the socket's entry in the epoll. The first call makes the entry, in the current runtime.
    fn registered(&self) -> io::Result<&Registered> {
        let Registration { at, registering, .. } = &self.of;
        if let Some(at) = at.get() {
            return Ok(at);
        }
        let _one = registering.lock().unwrap_or_else(|e| e.into_inner());
        if at.get().is_none() {
            let outside = || io::Error::new(io::ErrorKind::Other, "a socket outside of a runtime");
            let shared = here().ok_or_else(outside)?;
            let turns = shared.door.turns();
            let (io, key) = shared.reactor.add(self.of.fd, shared.table)?;
            at.set(Registered { shared, turns, io, key });
        }
        Ok(at.get().expect("registered"))
    }

    #[inline]
    fn waiting<const READS: bool>(&self) -> Waiting<'_, READS> {
        Waiting { of: &self.of, key: 0 }
    }

    /// Attempts an operation now and whenever the socket is ready, until it returns anything but `WouldBlock`.
    #[inline]
    fn wait<'a, const READS: bool, T>(
        &'a self,
        len: usize,
        mut attempt: impl FnMut(&S) -> io::Result<T> + 'a,
        moved: impl Fn(&T) -> usize + 'a,
    ) -> impl Future<Output = io::Result<T>> + 'a
    where
        T: 'a,
    {
        let mut waiting = self.waiting::<READS>();
        poll_fn(move |cx: &mut Context<'_>| {
            self.attempt(cx, READS, len, &mut attempt, &moved, |io, waker| waiting.join(io, waker))
        })
    }

    /// An event wakes only the task that last polled to read (or to write).
    #[inline]
    fn poll<T>(
        &self,
        cx: &mut Context<'_>,
        reads: bool,
        len: usize,
        attempt: impl FnMut(&S) -> io::Result<T>,
        moved: impl Fn(&T) -> usize,
    ) -> Poll<io::Result<T>> {
        self.attempt(cx, reads, len, attempt, moved, |io, waker| if reads { &io.reader } else { &io.writer }.set(waker))
    }

    /// Attempts an operation as long as the descriptor is ready; otherwise calls `register` and returns `Pending`.
    /// `len` is the size of the buffer, and `moved` returns the number of bytes that an attempt has moved. If that is
    /// less than `len`, the socket is empty (or full), so the descriptor is no longer ready (see epoll(7)).
    #[inline]
    fn attempt<T>(
        &self,
        cx: &mut Context<'_>,
        reads: bool,
        len: usize,
        mut attempt: impl FnMut(&S) -> io::Result<T>,
        moved: impl Fn(&T) -> usize,
        mut register: impl FnMut(&Io, &Waker),
    ) -> Poll<io::Result<T>> {
        let may_read = || !reads || may_read(cx.waker());
        let at = match self.of.at.get() {
            Some(at) => at,
            None if !may_read() => self.registered()?,
            None => match attempt(&self.socket) {
                Err(error) if error.kind() == WouldBlock => self.registered()?,
                Err(error) if error.kind() == io::ErrorKind::Interrupted => {
                    cx.waker().wake_by_ref();
                    return Poll::Pending;
                }
                done => return Poll::Ready(done),
            },
        };
        let io = &at.io;
        let (ready, closed) = if reads { (READ, READ_CLOSED) } else { (WRITE, WRITE_CLOSED) };
        let mut state = io.state.load(Acquire);
        let mut untold = false;
        loop {
            if state & (ready | closed) == 0 {
                // Read again after the waker is registered, because an event changes the state before it wakes.
                register(io, cx.waker());
                state = io.state.load(SeqCst);
                if state & (ready | closed) == 0 {
                    if at.shared.has_ended(at.turns) {
                        let ended = io::Error::new(io::ErrorKind::Other, "the runtime of this socket has ended");
                        return Poll::Ready(Err(ended));
                    }
                    // After `shutdown_within` was called, makes one more attempt, for data without an event as yet.
                    if untold || !reads || !at.shared.draining.has_begun() {
                        return Poll::Pending;
                    }
                    untold = true;
                }
            }
            if !may_read() {
                cx.waker().wake_by_ref();
                return Poll::Pending;
            }
            match attempt(&self.socket) {
                Ok(done) => {
                    let moved = moved(&done);
                    if moved != 0 && moved < len && state & closed == 0 {
                        io.clear(state, ready);
                    }
                    return Poll::Ready(Ok(done));
                }
                Err(error) if error.kind() == WouldBlock => state = io.clear(state, ready | closed),
                Err(error) if error.kind() == io::ErrorKind::Interrupted => {}
                Err(error) => return Poll::Ready(Err(error)),
            }
        }
    }
}

/// Looks up the addresses of a host, on the blocking pool.
///
/// ```
/// # fn main() -> std::io::Result<()> {
/// let lookup = arachne::net::lookup_host("localhost:80");
/// let found = arachne::Runtime::new(1).block_on(lookup)?;
/// assert!(found.into_iter().all(|address| address.ip().is_loopback() && address.port() == 80));
/// # Ok(())
/// # }
/// ```
///
/// # Panics
/// Panics outside of a runtime.
pub async fn lookup_host(host: impl ToSocketAddrs + Send + 'static) -> io::Result<Vec<SocketAddr>> {
    crate::spawn_blocking(move || host.to_socket_addrs().map(Iterator::collect)).await?
}

/// The most connections that may wait to be accepted. (In std 128; a client beyond that number tries again after a
/// second.)
const BACKLOG: i32 = 4096;

/// After `shutdown_within`, fails once all connections that had arrived are accepted.
fn poll_accept<S: AsRawFd, T>(
    listener: &Source<S>,
    cx: &mut Context<'_>,
    waiting: &mut Waiting<'_, true>,
    accept: impl Fn(&S) -> io::Result<T>,
) -> Poll<io::Result<T>> {
    loop {
        let was_stopping = is_stopping();
        let register = |io: &Io, waker: &Waker| waiting.join(io, waker);
        let polled = listener.attempt(cx, true, usize::MAX, &accept, |_| usize::MAX, register);
        if polled.is_ready() || !is_stopping() {
            return polled;
        }
        if in_own_poll(cx.waker(), |worker| worker.put_off.get()) {
            // The attempt was delayed to the task's next poll, for which the task is woken here.
            cx.waker().wake_by_ref();
            return Poll::Pending;
        }
        if was_stopping {
            // No connection is left of those that had arrived before `shutdown_within` was called.
            return Poll::Ready(Err(io::Error::new(io::ErrorKind::Other, "the runtime is about to end")));
        }
        // `shutdown_within` was called during the attempt, so one more attempt is made.
    }
}

/// Waits for a new connection, or until `shutdown_within` is called.
async fn accept<S: AsRawFd, T>(listener: &Source<S>, accept: impl Fn(&S) -> io::Result<T>) -> io::Result<T> {
    let (mut stopping, mut waiting) = (crate::drain::stopping(), listener.waiting());
    poll_fn(|cx: &mut Context<'_>| {
        let polled = poll_accept(listener, cx, &mut waiting, &accept);
        if polled.is_pending() && Pin::new(&mut stopping).poll(cx).is_ready() {
            return poll_accept(listener, cx, &mut waiting, &accept);
        }
        polled
    })
    .await
}

/// Any descriptor that epoll can watch: a pipe, an eventfd, or a kind of socket that has no type in this crate.
///
/// A read or a write is a call of `S` that returns `WouldBlock` instead of waiting.
///
/// ```
/// use std::{io::{Read, Write}, os::unix::net::UnixStream};
/// # fn main() -> std::io::Result<()> {
/// let (mut near, far) = UnixStream::pair()?;
/// near.write_all(b"hello")?;
/// let (far, mut buffer) = (arachne::net::Async::new(far)?, [0; 5]);
/// let len = arachne::Runtime::new(1).block_on(far.read_with(|mut far| far.read(&mut buffer)))?;
/// assert_eq!(&buffer[..len], b"hello");
/// # Ok(())
/// # }
/// ```
pub struct Async<S: AsRawFd>(Source<S>);

impl<S: AsRawFd> Async<S> {
    /// Takes `source`, and makes its descriptor non-blocking. `source` must not change its descriptor afterwards.
    ///
    /// If epoll can't watch the descriptor, the first read or write that has to wait fails, with `PermissionDenied`.
    ///
    /// ```
    /// # fn main() -> std::io::Result<()> {
    /// let (near, _far) = std::os::unix::net::UnixStream::pair()?;
    /// let near = arachne::net::Async::new(near)?;
    /// let now = std::io::Read::read(&mut near.get_ref(), &mut [0; 5]);
    /// assert_eq!(now.unwrap_err().kind(), std::io::ErrorKind::WouldBlock);
    /// # Ok(())
    /// # }
    /// ```
    pub fn new(source: S) -> io::Result<Async<S>> {
        sys::set_nonblocking(source.as_raw_fd())?;
        Ok(Async(Source::new(source)))
    }

    /// Returns the wrapped value, for calls that don't wait; see the example at `new`.
    pub fn get_ref(&self) -> &S {
        &self.0.socket
    }

    /// Returns the inner value, which stays non-blocking.
    ///
    /// ```
    /// # fn main() -> std::io::Result<()> {
    /// let (near, _far) = std::os::unix::net::UnixStream::pair()?;
    /// let near = arachne::net::Async::new(near)?.into_inner();
    /// near.set_nonblocking(false)?;
    /// # Ok(())
    /// # }
    /// ```
    pub fn into_inner(self) -> S {
        self.0.into_inner()
    }

    /// Calls `attempt` now and whenever the descriptor may be readable, until it returns anything but `WouldBlock`.
    pub async fn read_with<T>(&self, attempt: impl FnMut(&S) -> io::Result<T>) -> io::Result<T> {
        // Without a number of bytes, the descriptor counts as ready until a call returns `WouldBlock`.
        self.0.wait::<true, _>(0, attempt, |_| 0).await
    }

    /// Calls `attempt` now and whenever the descriptor may be writable, until it returns anything but `WouldBlock`.
    ///
    /// ```
    /// use std::{io::{Read, Write}, os::unix::net::UnixStream};
    /// # fn main() -> std::io::Result<()> {
    /// let (near, mut far) = UnixStream::pair()?;
    /// let near = arachne::net::Async::new(near)?;
    /// let mut buffer = [0; 5];
    /// arachne::Runtime::new(1).block_on(near.write_with(|mut near| near.write(b"hello")))?;
    /// far.read_exact(&mut buffer)?;
    /// assert_eq!(&buffer, b"hello");
    /// # Ok(())
    /// # }
    /// ```
    pub async fn write_with<T>(&self, attempt: impl FnMut(&S) -> io::Result<T>) -> io::Result<T> {
        self.0.wait::<false, _>(0, attempt, |_| 0).await
    }

    /// Polls a read; see `read_with`. An event wakes only the task that last polled to read.
    ///
    /// ```
    /// use std::{io::{Read, Write}, os::unix::net::UnixStream};
    /// # fn main() -> std::io::Result<()> {
    /// let (mut near, far) = UnixStream::pair()?;
    /// near.write_all(b"hello")?;
    /// let (far, mut buffer) = (arachne::net::Async::new(far)?, [0; 5]);
    /// let reads = arachne::poll_fn(|cx| far.poll_read_with(cx, |mut far| far.read(&mut buffer)));
    /// assert_eq!(arachne::Runtime::new(1).block_on(reads)?, 5);
    /// # Ok(())
    /// # }
    /// ```
    pub fn poll_read_with<T>(
        &self,
        cx: &mut Context<'_>,
        attempt: impl FnMut(&S) -> io::Result<T>,
    ) -> Poll<io::Result<T>> {
        self.0.poll(cx, true, 0, attempt, |_| 0)
    }

    /// Polls a write; see `write_with` and `poll_read_with`. An event wakes only the task that last polled to write.
    pub fn poll_write_with<T>(
        &self,
        cx: &mut Context<'_>,
        attempt: impl FnMut(&S) -> io::Result<T>,
    ) -> Poll<io::Result<T>> {
        self.0.poll(cx, false, 0, attempt, |_| 0)
    }
}

impl<S: AsRawFd + fmt::Debug> fmt::Debug for Async<S> {
    fn fmt(&self, f: &mut fmt::Formatter<'_>) -> fmt::Result {
        f.debug_tuple("Async").field(&self.0.socket).finish()
    }
}

/// Implements conversions and access to the descriptor for a socket type. `$make` is an expression for a socket of std.
macro_rules! socket {
    ($name:ident, $std:ty, $make:literal) => {
        impl $name {
            /// Takes a socket of std, and makes it non-blocking. The socket's other options stay as they are.
            ///
            /// ```
            /// # fn main() -> std::io::Result<()> {
            #[doc = concat!("let socket = ", $make, ";")]
            #[doc = concat!("let socket = arachne::net::", stringify!($name), "::from_std(socket)?;")]
            /// let socket = socket.into_std()?;
            /// socket.set_nonblocking(false)?;
            /// # Ok(())
            /// # }
            /// ```
            pub fn from_std(socket: $std) -> io::Result<$name> {
                socket.set_nonblocking(true)?;
                Ok($name(Source::new(socket)))
            }

            /// Returns the socket as std's type. The socket stays non-blocking; see the example at `from_std`.
            pub fn into_std(self) -> io::Result<$std> {
                Ok(self.0.into_inner())
            }
        }

        impl fmt::Debug for $name {
            fn fmt(&self, f: &mut fmt::Formatter<'_>) -> fmt::Result {
                self.0.socket.fmt(f)
            }
        }

        /// Gives access to socket options without a method here. Reads and writes by the descriptor bypass the runtime.
        impl AsRawFd for $name {
            fn as_raw_fd(&self) -> RawFd {
                self.0.socket.as_raw_fd()
            }
        }

        /// Gives access to socket options, as `AsRawFd` does.
        impl AsFd for $name {
            fn as_fd(&self) -> BorrowedFd<'_> {
                self.0.socket.as_fd()
            }
        }
    };
}

/// Implements reads and writes for a connection type. `$pair` makes two connected sockets, for the examples.
macro_rules! stream {
    ($name:ident, $pair:literal) => {
        impl $name {
            /// Shuts down reading, writing or both.
            ///
            /// ```
            /// # fn main() -> std::io::Result<()> {
            #[doc = $pair]
            /// near.shutdown(std::net::Shutdown::Write)?;
            /// assert_eq!(runtime.block_on(far.read(&mut [0; 5]))?, 0);        // the end
            /// # Ok(())
            /// # }
            /// ```
            pub fn shutdown(&self, how: Shutdown) -> io::Result<()> {
                self.0.socket.shutdown(how)
            }

            /// Polls a read; see `read`. An event wakes only the task that last polled to read.
            ///
            /// ```
            /// # fn main() -> std::io::Result<()> {
            #[doc = $pair]
            /// runtime.block_on(near.write_all(b"hello"))?;
            /// let mut buffer = [0; 5];
            /// assert_eq!(runtime.block_on(arachne::poll_fn(|cx| far.poll_read(cx, &mut buffer)))?, 5);
            /// # Ok(())
            /// # }
            /// ```
            pub fn poll_read(&self, cx: &mut Context<'_>, buffer: &mut [u8]) -> Poll<io::Result<usize>> {
                let len = buffer.len();
                self.0.poll(cx, true, len, |mut socket| socket.read(buffer), |&n| n)
            }

            /// Polls a write; see `write`. An event wakes only the task that last polled to write.
            ///
            /// ```
            /// # fn main() -> std::io::Result<()> {
            #[doc = $pair]
            /// assert_eq!(runtime.block_on(arachne::poll_fn(|cx| near.poll_write(cx, b"hello")))?, 5);
            /// runtime.block_on(far.read_exact(&mut [0; 5]))
            /// # }
            /// ```
            pub fn poll_write(&self, cx: &mut Context<'_>, bytes: &[u8]) -> Poll<io::Result<usize>> {
                self.0.poll(cx, false, bytes.len(), |mut socket| socket.write(bytes), |&n| n)
            }

            /// Polls a write of several buffers, one after the other; see `poll_write`.
            ///
            /// ```
            /// # fn main() -> std::io::Result<()> {
            #[doc = $pair]
            /// let pieces = [std::io::IoSlice::new(b"he"), std::io::IoSlice::new(b"llo")];
            /// assert_eq!(runtime.block_on(arachne::poll_fn(|cx| near.poll_write_vectored(cx, &pieces)))?, 5);
            /// runtime.block_on(far.read_exact(&mut [0; 5]))
            /// # }
            /// ```
            pub fn poll_write_vectored(&self, cx: &mut Context<'_>, bytes: &[IoSlice<'_>]) -> Poll<io::Result<usize>> {
                let len = bytes.iter().map(|slice| slice.len()).sum();
                self.0.poll(cx, false, len, |mut socket| socket.write_vectored(bytes), |&n| n)
            }

            /// Waits until there are bytes to read, and reads at most `buffer.len()` of them. Returns the number of
            /// bytes read, which is 0 if the other side has ended the connection.
            ///
            /// ```
            /// # fn main() -> std::io::Result<()> {
            #[doc = $pair]
            /// let mut buffer = [0; 16];
            /// runtime.block_on(near.write_all(b"hello"))?;
            /// let len = runtime.block_on(far.read(&mut buffer))?;
            /// assert_eq!(&buffer[..len], b"hello");
            /// # Ok(())
            /// # }
            /// ```
            pub async fn read(&self, buffer: &mut [u8]) -> io::Result<usize> {
                let len = buffer.len();
                self.0.wait::<true, _>(len, |mut socket| socket.read(buffer), |&n| n).await
            }

            /// Reads until the buffer is full. Fails with `UnexpectedEof` if the connection ends before that.
            ///
            /// ```
            /// # fn main() -> std::io::Result<()> {
            #[doc = $pair]
            /// let mut buffer = [0; 5];
            /// runtime.block_on(near.write_all(b"hello"))?;
            /// runtime.block_on(far.read_exact(&mut buffer))?;
            /// assert_eq!(&buffer, b"hello");
            /// # Ok(())
            /// # }
            /// ```
            pub async fn read_exact(&self, mut buffer: &mut [u8]) -> io::Result<()> {
                while !buffer.is_empty() {
                    match self.read(buffer).await? {
                        0 => return Err(io::ErrorKind::UnexpectedEof.into()),
                        n => buffer = &mut buffer[n..],
                    }
                }
                Ok(())
            }

            /// Waits until bytes can be written, and writes at least one of them. Returns the number of bytes written.
            ///
            /// ```
            /// # fn main() -> std::io::Result<()> {
            #[doc = $pair]
            /// assert_eq!(runtime.block_on(near.write(b"hello"))?, 5);
            /// runtime.block_on(far.read_exact(&mut [0; 5]))
            /// # }
            /// ```
            pub async fn write(&self, bytes: &[u8]) -> io::Result<usize> {
                self.0.wait::<false, _>(bytes.len(), |mut socket| socket.write(bytes), |&n| n).await
            }

            /// Writes all of the bytes; see the example at `read_exact`.
            pub async fn write_all(&self, mut bytes: &[u8]) -> io::Result<()> {
                while !bytes.is_empty() {
                    match self.write(bytes).await? {
                        0 => return Err(io::ErrorKind::WriteZero.into()),
                        n => bytes = &bytes[n..],
                    }
                }
                Ok(())
            }
        }

        #[cfg(feature = "futures-io")]
        impl futures_io::AsyncRead for $name {
            fn poll_read(self: Pin<&mut Self>, cx: &mut Context<'_>, buffer: &mut [u8]) -> Poll<io::Result<usize>> {
                $name::poll_read(&self, cx, buffer)
            }
        }
        #[cfg(feature = "futures-io")]
        impl futures_io::AsyncWrite for $name {
            fn poll_write(self: Pin<&mut Self>, cx: &mut Context<'_>, bytes: &[u8]) -> Poll<io::Result<usize>> {
                $name::poll_write(&self, cx, bytes)
            }
            fn poll_flush(self: Pin<&mut Self>, _: &mut Context<'_>) -> Poll<io::Result<()>> {
                Poll::Ready(Ok(()))
            }
            fn poll_close(self: Pin<&mut Self>, _: &mut Context<'_>) -> Poll<io::Result<()>> {
                Poll::Ready(self.shutdown(Shutdown::Write))
            }
        }

        #[cfg(feature = "tokio-io")]
        impl tokio::io::AsyncRead for $name {
            fn poll_read(
                self: Pin<&mut Self>,
                cx: &mut Context<'_>,
                buffer: &mut tokio::io::ReadBuf<'_>,
            ) -> Poll<io::Result<()>> {
                // Not `initialize_unfilled`, which writes zeros to the whole buffer before each read. SAFETY: the read
                // only writes to these bytes, and never reads them.
                let room = unsafe { &mut *(buffer.unfilled_mut() as *mut [std::mem::MaybeUninit<u8>] as *mut [u8]) };
                match $name::poll_read(&self, cx, room) {
                    Poll::Ready(Ok(n)) => {
                        // SAFETY: the read has written `n` bytes.
                        unsafe { buffer.assume_init(n) };
                        buffer.advance(n);
                        Poll::Ready(Ok(()))
                    }
                    Poll::Ready(Err(error)) => Poll::Ready(Err(error)),
                    Poll::Pending => Poll::Pending,
                }
            }
        }
        #[cfg(feature = "tokio-io")]
        impl tokio::io::AsyncWrite for $name {
            fn poll_write(self: Pin<&mut Self>, cx: &mut Context<'_>, bytes: &[u8]) -> Poll<io::Result<usize>> {
                $name::poll_write(&self, cx, bytes)
            }
            fn poll_write_vectored(
                self: Pin<&mut Self>,
                cx: &mut Context<'_>,
                bytes: &[IoSlice<'_>],
            ) -> Poll<io::Result<usize>> {
                $name::poll_write_vectored(&self, cx, bytes)
            }
            fn is_write_vectored(&self) -> bool {
                true
            }
            fn poll_flush(self: Pin<&mut Self>, _: &mut Context<'_>) -> Poll<io::Result<()>> {
                Poll::Ready(Ok(()))
            }
            fn poll_shutdown(self: Pin<&mut Self>, _: &mut Context<'_>) -> Poll<io::Result<()>> {
                Poll::Ready(self.shutdown(Shutdown::Write))
            }
        }
    };
}
socket!(TcpListener, std::net::TcpListener, "std::net::TcpListener::bind(\"127.0.0.1:0\")?");
socket!(
    TcpStream,
    std::net::TcpStream,
    "std::net::TcpStream::connect(std::net::TcpListener::bind(\"127.0.0.1:0\")?.local_addr()?)?"
);
stream!(
    TcpStream,
    "use arachne::net::{TcpListener, TcpStream};
let runtime = arachne::Runtime::new(1);
let listener = TcpListener::bind(\"127.0.0.1:0\")?;
let near = runtime.block_on(TcpStream::connect(listener.local_addr()?))?;
let (far, _) = runtime.block_on(listener.accept())?;"
);
socket!(UdpSocket, std::net::UdpSocket, "std::net::UdpSocket::bind(\"127.0.0.1:0\")?");
socket!(
    UnixListener,
    std::os::unix::net::UnixListener,
    "{
    let path = std::env::temp_dir().join(format!(\"arachne-std-{}\", std::process::id()));
    let listener = std::os::unix::net::UnixListener::bind(&path)?;
    std::fs::remove_file(path)?;
    listener
}"
);
socket!(UnixStream, std::os::unix::net::UnixStream, "std::os::unix::net::UnixStream::pair()?.0");
stream!(
    UnixStream,
    "let runtime = arachne::Runtime::new(1);
let (near, far) = arachne::net::UnixStream::pair()?;"
);
