//! TCP listeners and connections, whose calls wait in the runtime's epoll.

use super::{accept, Source, BACKLOG};
use crate::sys;
use std::io::{self, ErrorKind::WouldBlock};
use std::net::{SocketAddr, ToSocketAddrs};
use std::os::unix::io::{AsRawFd, FromRawFd};

/// A socket that listens for connections.
///
/// ```
/// use arachne::net::{TcpListener, TcpStream};
/// # fn main() -> std::io::Result<()> {
/// let runtime = arachne::Runtime::new(2);
/// let listener = TcpListener::bind("127.0.0.1:0")?;
/// let at = listener.local_addr()?;
/// let server = runtime.spawn(async move { listener.accept().await?.0.write_all(b"hello").await });
/// runtime.block_on(async {
///     let (stream, mut buffer) = (TcpStream::connect(at).await?, [0; 5]);
///     stream.read_exact(&mut buffer).await?;
///     assert_eq!(&buffer, b"hello");
///     server.await?
/// })
/// # }
/// ```
pub struct TcpListener(pub(super) Source<std::net::TcpListener>);

impl TcpListener {
    /// Listens at the first of these addresses that is free. Unlike tokio's `bind`, this isn't `async`.
    ///
    /// At most 4,096 connections (or `somaxconn`, if less) wait to be accepted. `from_std` doesn't change that limit.
    ///
    /// ```
    /// let listener = arachne::net::TcpListener::bind("127.0.0.1:0").unwrap();
    /// assert!(listener.local_addr().unwrap().port() != 0);
    /// ```
    pub fn bind(at: impl ToSocketAddrs) -> io::Result<TcpListener> {
        let listener = std::net::TcpListener::bind(at)?;
        sys::listen(listener.as_raw_fd(), BACKLOG)?;
        TcpListener::from_std(listener)
    }

    /// Returns the address at which the socket listens; see the example at `bind`.
    pub fn local_addr(&self) -> io::Result<SocketAddr> {
        self.0.socket.local_addr()
    }

    /// Waits for a new connection. Returns the connection with the other side's address.
    ///
    /// After `Runtime::shutdown_within` was called, which [`crate::is_stopping`] shows, `accept` fails once all
    /// connections that had arrived are accepted. See the example at `TcpListener`.
    pub async fn accept(&self) -> io::Result<(TcpStream, SocketAddr)> {
        let (stream, from) = accept(&self.0, |listener| listener.accept()).await?;
        Ok((TcpStream::from_std(stream)?, from))
    }
}

/// A TCP connection. Reads and writes take `&self`, so one task may read while another writes.
///
/// ```no_run
/// use std::sync::Arc;
/// # async fn both() -> std::io::Result<()> {
/// let stream = Arc::new(arachne::net::TcpStream::connect("127.0.0.1:7000").await?);
/// let (writes, mut buffer) = (stream.clone(), [0; 4096]);
/// arachne::spawn(async move { writes.write_all(b"hello").await });
/// let len = stream.read(&mut buffer).await?;
/// # Ok(())
/// # }
/// ```
pub struct TcpStream(pub(super) Source<std::net::TcpStream>);

impl TcpStream {
    /// Connects to the first of these addresses that accepts the connection.
    ///
    /// A host name is looked up on the calling thread, which blocks for that time. In a task, call `lookup_host` first.
    ///
    /// ```
    /// # fn main() -> std::io::Result<()> {
    /// let listener = std::net::TcpListener::bind("127.0.0.1:0")?;
    /// let stream = arachne::Runtime::new(1).block_on(arachne::net::TcpStream::connect(listener.local_addr()?))?;
    /// assert_eq!(stream.peer_addr()?, listener.local_addr()?);
    /// assert_eq!(stream.local_addr()?, listener.accept()?.1);
    /// # Ok(())
    /// # }
    /// ```
    pub async fn connect(to: impl ToSocketAddrs) -> io::Result<TcpStream> {
        let mut last = io::Error::new(io::ErrorKind::InvalidInput, "no address");
        for to in to.to_socket_addrs()? {
            match TcpStream::connect_to(&to).await {
                Ok(stream) => return Ok(stream),
                Err(error) => last = error,
            }
        }
        Err(last)
    }

    async fn connect_to(to: &SocketAddr) -> io::Result<TcpStream> {
        let fd = sys::start_connect(to)?;
        // SAFETY: a descriptor of a stream socket, which nobody else has.
        let stream = TcpStream(Source::new(unsafe { std::net::TcpStream::from_raw_fd(fd) }));
        let connected = |socket: &std::net::TcpStream| match socket.take_error()? {
            Some(error) => Err(error),
            None => match socket.peer_addr() {
                Err(error) if error.kind() == io::ErrorKind::NotConnected => Err(WouldBlock.into()),
                other => other.map(drop),
            },
        };
        stream.0.wait::<false, _>(0, connected, |_| 0).await?;
        Ok(stream)
    }

    /// Returns the other side's address; see the example at `connect`.
    pub fn peer_addr(&self) -> io::Result<SocketAddr> {
        self.0.socket.peer_addr()
    }

    /// Returns this side's address; see the example at `connect`.
    pub fn local_addr(&self) -> io::Result<SocketAddr> {
        self.0.socket.local_addr()
    }

    /// Returns true if small writes are sent at once (`TCP_NODELAY`); see the example at `set_nodelay`.
    pub fn nodelay(&self) -> io::Result<bool> {
        self.0.socket.nodelay()
    }

    /// Sets `TCP_NODELAY`: if true, small writes are sent at once, without waiting for earlier ones to be confirmed.
    ///
    /// ```
    /// # fn main() -> std::io::Result<()> {
    /// let listener = std::net::TcpListener::bind("127.0.0.1:0")?;
    /// let stream = arachne::Runtime::new(1).block_on(arachne::net::TcpStream::connect(listener.local_addr()?))?;
    /// stream.set_nodelay(true)?;
    /// assert!(stream.nodelay()?);
    /// # Ok(())
    /// # }
    /// ```
    pub fn set_nodelay(&self, nodelay: bool) -> io::Result<()> {
        self.0.socket.set_nodelay(nodelay)
    }

    /// Like `read`, but leaves the bytes in the socket: the next read returns them again.
    ///
    /// ```
    /// # fn main() -> std::io::Result<()> {
    /// let listener = std::net::TcpListener::bind("127.0.0.1:0")?;
    /// let (runtime, mut buffer) = (arachne::Runtime::new(1), [0; 5]);
    /// let stream = runtime.block_on(arachne::net::TcpStream::connect(listener.local_addr()?))?;
    /// std::io::Write::write_all(&mut listener.accept()?.0, b"hello")?;
    /// let seen = runtime.block_on(stream.peek(&mut [0; 5]))?;
    /// runtime.block_on(stream.read_exact(&mut buffer[..seen]))?;
    /// assert_eq!(buffer[0], b'h');
    /// # Ok(())
    /// # }
    /// ```
    pub async fn peek(&self, buffer: &mut [u8]) -> io::Result<usize> {
        // A short peek doesn't mean that the socket is empty, so it counts as ready until a call returns `WouldBlock`.
        self.0.wait::<true, _>(0, |socket| socket.peek(buffer), |_| 0).await
    }
}
