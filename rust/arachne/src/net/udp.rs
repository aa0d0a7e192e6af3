//! UDP sockets, whose sends and receives wait in the runtime's epoll.

use super::Source;
use std::io;
use std::net::{SocketAddr, ToSocketAddrs};

/// A socket that sends and receives datagrams. Each call takes `&self`.
///
/// Only a few of std's options have methods here. Set other options before `from_std`.
///
/// ```
/// use arachne::net::UdpSocket;
/// # fn main() -> std::io::Result<()> {
/// let (near, far) = (UdpSocket::bind("127.0.0.1:0")?, UdpSocket::bind("127.0.0.1:0")?);
/// arachne::Runtime::new(1).block_on(async {
///     let mut buffer = [0; 16];
///     near.send_to(b"hello", far.local_addr()?).await?;
///     let (len, from) = far.recv_from(&mut buffer).await?;
///     assert_eq!((&buffer[..len], from), (&b"hello"[..], near.local_addr()?));
///     Ok(())
/// })
/// # }
/// ```
pub struct UdpSocket(pub(super) Source<std::net::UdpSocket>);

impl UdpSocket {
    /// Returns a socket bound to the first of these addresses that is free. Unlike in tokio, this isn't `async`.
    ///
    /// ```
    /// let socket = arachne::net::UdpSocket::bind("127.0.0.1:0").unwrap();
    /// assert!(socket.local_addr().unwrap().port() != 0);
    /// ```
    pub fn bind(at: impl ToSocketAddrs) -> io::Result<UdpSocket> {
        UdpSocket::from_std(std::net::UdpSocket::bind(at)?)
    }

    /// Sets the address to which `send` sends, and from which `recv` receives. `connect` isn't `async`.
    ///
    /// A host name is looked up on the calling thread, which blocks for that time.
    ///
    /// ```
    /// use arachne::net::UdpSocket;
    /// # fn main() -> std::io::Result<()> {
    /// let (near, far) = (UdpSocket::bind("127.0.0.1:0")?, UdpSocket::bind("127.0.0.1:0")?);
    /// near.connect(far.local_addr()?)?;
    /// far.connect(near.local_addr()?)?;
    /// assert_eq!(near.peer_addr()?, far.local_addr()?);
    /// let mut buffer = [0; 16];
    /// let len = arachne::Runtime::new(1).block_on(async {
    ///     near.send(b"hello").await?;
    ///     far.recv(&mut buffer).await
    /// })?;
    /// assert_eq!(&buffer[..len], b"hello");
    /// # Ok(())
    /// # }
    /// ```
    pub fn connect(&self, to: impl ToSocketAddrs) -> io::Result<()> {
        self.0.socket.connect(to)
    }

    /// Returns this side's address; see the example at `bind`.
    pub fn local_addr(&self) -> io::Result<SocketAddr> {
        self.0.socket.local_addr()
    }

    /// Returns the address that `connect` has set; see the example there.
    pub fn peer_addr(&self) -> io::Result<SocketAddr> {
        self.0.socket.peer_addr()
    }

    async fn read<T>(&self, receive: impl FnMut(&std::net::UdpSocket) -> io::Result<T>) -> io::Result<T> {
        self.0.wait::<true, _>(0, receive, |_| 0).await
    }

    async fn write<T>(&self, send: impl FnMut(&std::net::UdpSocket) -> io::Result<T>) -> io::Result<T> {
        self.0.wait::<false, _>(0, send, |_| 0).await
    }

    /// Sends a datagram to the address of `connect` once there is room. Returns the datagram's length.
    pub async fn send(&self, bytes: &[u8]) -> io::Result<usize> {
        self.write(|socket| socket.send(bytes)).await
    }

    /// Waits for a datagram from the address of `connect`; see the example there. Returns the datagram's length.
    ///
    /// Bytes beyond the buffer are lost.
    pub async fn recv(&self, buffer: &mut [u8]) -> io::Result<usize> {
        self.read(|socket| socket.recv(buffer)).await
    }

    /// Sends a datagram to the first of the addresses `to`, once there is room. Returns the datagram's length.
    ///
    /// A host name is looked up on the calling thread, which blocks for that time. See the example at `UdpSocket`.
    pub async fn send_to(&self, bytes: &[u8], to: impl ToSocketAddrs) -> io::Result<usize> {
        let none = || io::Error::new(io::ErrorKind::InvalidInput, "no address");
        let to = to.to_socket_addrs()?.next().ok_or_else(none)?;
        self.write(|socket| socket.send_to(bytes, to)).await
    }

    /// Waits for a datagram. Returns the datagram's length, and the address of the sender.
    ///
    /// Bytes beyond the buffer are lost. See the example at `UdpSocket`.
    pub async fn recv_from(&self, buffer: &mut [u8]) -> io::Result<(usize, SocketAddr)> {
        self.read(|socket| socket.recv_from(buffer)).await
    }
}
