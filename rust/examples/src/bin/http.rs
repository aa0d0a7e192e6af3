//! `http CORES PORT` serves a page by HTTP/1.1 on 127.0.0.1. The server ends when its standard input ends.
use arachne::net::{TcpListener, TcpStream};
use examples::{wait_for_end, Arguments, Buffer};
use std::io;

const PAGE: &[u8] = b"HTTP/1.1 200 OK\r\nContent-Type: text/plain\r\nContent-Length: 14\r\n\r\nHello, world!\n";
const BAD: &[u8] = b"HTTP/1.1 400 Bad Request\r\nContent-Length: 0\r\nConnection: close\r\n\r\n";

/// Fails if the request isn't a GET.
fn head(bytes: &[u8]) -> Option<Result<usize, ()>> {
    let end = bytes.windows(4).position(|w| w == b"\r\n\r\n")? + 4;
    Some(if bytes.starts_with(b"GET ") { Ok(end) } else { Err(()) })
}

async fn connection(stream: TcpStream) -> io::Result<()> {
    stream.set_nodelay(true)?;
    let (mut buffer, mut out, mut end) = (Buffer::new(), Vec::new(), arachne::stopping());
    while let Some(read) = end.or(stream.read(buffer.room())).await {
        match read? {
            0 => break,
            n => buffer.len += n,
        }
        let mut at = 0;
        while let Some(request) = head(&buffer.bytes[at..buffer.len]) {
            match request {
                Ok(len) => at += len,
                Err(()) => return stream.write_all(BAD).await,
            }
            out.extend(PAGE);
        }
        if at == 0 && buffer.len > 16_384 {
            return stream.write_all(BAD).await;
        }
        buffer.spend(at);
        stream.write_all(&out).await?;
        out.clear();
    }
    Ok(())
}

fn main() -> io::Result<()> {
    let arguments = Arguments::read().expect("http CORES PORT [policy [SOCKET PRIORITY]]");
    let runtime = arguments.runtime()?;
    let listener = TcpListener::bind(("127.0.0.1", arguments.port))?;
    runtime.spawn(async move {
        loop {
            match listener.accept().await {
                Ok((stream, _)) => drop(arachne::spawn_balanced(async move { connection(stream).await })),
                Err(_) if arachne::is_stopping() => return,
                // The process has no descriptor left, or the client is gone. The next client may still be accepted.
                Err(_) => arachne::sleep(std::time::Duration::from_millis(10)).await,
            }
        }
    });
    println!("ready");
    wait_for_end();
    runtime.shutdown_within(std::time::Duration::from_millis(200));
    Ok(())
}
