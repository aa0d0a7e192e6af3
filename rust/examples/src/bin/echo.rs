//! `echo [CORES PORT]` is an echo server on 127.0.0.1, from "Five minutes" in docs/rust.md.
//!
//! At SIGTERM, idle connections end at once, and all others within five seconds. Then the server ends.
use arachne::net::{TcpListener, TcpStream};
use std::io;
use std::time::Duration;

async fn serve(stream: TcpStream) -> io::Result<()> {
    let (mut buffer, mut end) = ([0; 4096], arachne::stopping());
    while let Some(read) = end.or(stream.read(&mut buffer)).await {
        match read? {
            0 => break,
            len => stream.write_all(&buffer[..len]).await?,
        }
    }
    Ok(())
}

fn main() -> io::Result<()> {
    let mut words = std::env::args().skip(1).map(|word| word.parse::<u16>().expect("echo [CORES PORT]"));
    let cores = words.next().map_or(arachne::available_cores(), usize::from);
    let end = arachne::Signal::heard(15)?; // SIGTERM
    let runtime = arachne::Builder::new(cores).build()?;
    let listener = TcpListener::bind(("127.0.0.1", words.next().unwrap_or(7000)))?;
    runtime.spawn(async move {
        loop {
            match listener.accept().await {
                Ok((stream, _)) => drop(arachne::spawn_balanced(serve(stream))),
                Err(_) if arachne::is_stopping() => break, // all who had connected are accepted
                Err(_) => arachne::sleep(Duration::from_millis(10)).await, // out of descriptors, say
            }
        }
    });
    println!("ready");
    end.wait();
    runtime.shutdown_within(Duration::from_secs(5));
    Ok(())
}
