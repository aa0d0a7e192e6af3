//! Listeners and connections on Unix stream sockets, whose calls wait in the runtime's epoll.

use super::{accept, Source, BACKLOG};
use crate::sys;
use crate::timer::sleep;
use std::io;
use std::os::unix::io::{AsRawFd, FromRawFd};
use std::os::unix::net::{self, SocketAddr};
use std::path::Path;
use std::time::Duration;

/// A Unix socket that listens at a path.
///
/// ```
/// use arachne::net::{UnixListener, UnixStream};
/// # fn main() -> std::io::Result<()> {
/// let path = std::env::temp_dir().join(format!("arachne-doc-{}", std::process::id()));
/// let (runtime, listener) = (arachne::Runtime::new(2), UnixListener::bind(&path)?);
/// let server = runtime.spawn(async move { listener.accept().await?.0.write_all(b"hello").await });
/// runtime.block_on(async {
///     let (stream, mut buffer) = (UnixStream::connect(&path).await?, [0; 5]);
///     stream.read_exact(&mut buffer).await?;
///     assert_eq!(&buffer, b"hello");
///     server.await?
/// })?;
/// std::fs::remove_file(path)
/// # }
/// ```
pub struct UnixListener(pub(super) Source<net::UnixListener>);

impl UnixListener {
    /// Listens at `path`, which must not exist, and which stays when the listener is dropped. `bind` isn't `async`.
    ///
    /// At most 4,096 connections (or the system's `somaxconn`, if that is less) wait to be accepted.
    ///
    /// ```
    /// # fn main() -> std::io::Result<()> {
    /// let path = std::env::temp_dir().join(format!("arachne-bind-{}", std::process::id()));
    /// let listener = arachne::net::UnixListener::bind(&path)?;
    /// assert_eq!(listener.local_addr()?.as_pathname(), Some(&*path));
    /// std::fs::remove_file(path)
    /// # }
    /// ```
    pub fn bind(path: impl AsRef<Path>) -> io::Result<UnixListener> {
        let listener = net::UnixListener::bind(path)?;
        sys::listen(listener.as_raw_fd(), BACKLOG)?;
        UnixListener::from_std(listener)
    }

    /// Returns the address at which the socket listens; see the example at `bind`.
    pub fn local_addr(&self) -> io::Result<SocketAddr> {
        self.0.socket.local_addr()
    }

    /// Waits for a new connection. Returns the connection with the other side's address.
    ///
    /// After `Runtime::shutdown_within` was called, which `is_stopping` shows, `accept` fails once all connections that
    /// had arrived are accepted. See the example at `UnixListener`.
    pub async fn accept(&self) -> io::Result<(UnixStream, SocketAddr)> {
        let (stream, from) = accept(&self.0, |listener| listener.accept()).await?;
        Ok((UnixStream::from_std(stream)?, from))
    }
}

/// A Unix stream connection, between processes of one machine. Reads and writes take `&self`.
///
/// ```
/// # fn main() -> std::io::Result<()> {
/// let (near, far) = arachne::net::UnixStream::pair()?;
/// let mut buffer = [0; 5];
/// arachne::Runtime::new(1).block_on(async {
///     near.write_all(b"hello").await?;
///     far.read_exact(&mut buffer).await
/// })?;
/// assert_eq!(&buffer, b"hello");
/// # Ok(())
/// # }
/// ```
pub struct UnixStream(pub(super) Source<net::UnixStream>);

impl UnixStream {
    /// Connects to the listener at `path`. While the listener's queue is full, `connect` tries again each millisecond.
    ///
    /// ```
    /// # fn main() -> std::io::Result<()> {
    /// let path = std::env::temp_dir().join(format!("arachne-connect-{}", std::process::id()));
    /// let listener = arachne::net::UnixListener::bind(&path)?;
    /// let stream = arachne::Runtime::new(1).block_on(arachne::net::UnixStream::connect(&path))?;
    /// assert_eq!(stream.peer_addr()?.as_pathname(), Some(&*path));
    /// assert!(stream.local_addr()?.is_unnamed());
    /// # drop(listener);
    /// std::fs::remove_file(path)
    /// # }
    /// ```
    pub async fn connect(path: impl AsRef<Path>) -> io::Result<UnixStream> {
        loop {
            match sys::connect_unix(path.as_ref()) {
                // SAFETY: a descriptor of a stream socket, which nobody else has.
                Ok(fd) => return Ok(UnixStream(Source::new(unsafe { net::UnixStream::from_raw_fd(fd) }))),
                Err(error) if error.kind() == io::ErrorKind::WouldBlock => sleep(Duration::from_millis(1)).await,
                Err(error) => return Err(error),
            }
        }
    }

    /// Returns two streams that are connected to each other; see the example at `UnixStream`.
    pub fn pair() -> io::Result<(UnixStream, UnixStream)> {
        let (near, far) = net::UnixStream::pair()?;
        Ok((UnixStream::from_std(near)?, UnixStream::from_std(far)?))
    }

    /// Returns the other side's address; see the example at `connect`.
    pub fn peer_addr(&self) -> io::Result<SocketAddr> {
        self.0.socket.peer_addr()
    }

    /// Returns this side's address; see the example at `connect`.
    pub fn local_addr(&self) -> io::Result<SocketAddr> {
        self.0.socket.local_addr()
    }
}
