//! `redis CORES PORT [policy [SOCKET PRIORITY]]` is a server on 127.0.0.1 for GET, SET, INCR, DEL and PING of Redis's
//! protocol.
//!
//! At SIGTERM, or when its standard input ends, the server answers the commands that it has read, and ends within a
//! second. The server then prints how many commands it has accepted and how many of them it has answered. With
//! `policy`, the number of active workers follows the load, and every 10 ms the server prints that number. SOCKET is
//! that of an arbiter (a daemon that grants cores), and PRIORITY the server's priority there.
use arachne::net::{TcpListener, TcpStream};
use examples::{wait_for_end, Arguments, Buffer, Store};
use std::io;
use std::sync::atomic::{AtomicU64, Ordering::SeqCst};
use std::sync::mpsc::{channel, Receiver};
use std::sync::Arc;
use std::time::{Duration, Instant};

/// The number of commands accepted, and the number of those answered, on connections that have ended.
static COMMANDS: [AtomicU64; 2] = [AtomicU64::new(0), AtomicU64::new(0)];

/// Answers commands until the other side closes the connection, or the runtime begins to end.
async fn answer(stream: &TcpStream, store: &Store, counts: &mut [u64; 2]) -> io::Result<()> {
    let (mut buffer, mut out, mut end) = (Buffer::new(), Vec::new(), arachne::stopping());
    while !arachne::is_stopping() {
        match end.or(stream.read(buffer.room())).await.transpose()? {
            None | Some(0) => return Ok(()),
            Some(n) => buffer.len += n,
        }
        let count = match store.serve(&buffer.bytes[..buffer.len], &mut out) {
            Ok((spent, count)) => {
                buffer.spend(spent);
                count
            }
            Err(()) => return Ok(()),
        };
        counts[0] += count;
        stream.write_all(&out).await?;
        counts[1] += count;
        out.clear();
    }
    Ok(())
}

async fn connection(stream: TcpStream, store: Arc<Store>) -> io::Result<()> {
    stream.set_nodelay(true)?;
    let mut counts = [0; 2];
    let answered = answer(&stream, &store, &mut counts).await;
    for (all, count) in COMMANDS.iter().zip(counts) {
        all.fetch_add(count, SeqCst);
    }
    answered?;
    // From now on, commands are read but not accepted. A socket closed with unread bytes would lose the last answers.
    stream.shutdown(std::net::Shutdown::Write)?;
    let mut rest = [0; 4096];
    while stream.read(&mut rest).await? != 0 {}
    Ok(())
}

async fn accept(listener: TcpListener, store: Arc<Store>) {
    loop {
        match listener.accept().await {
            Ok((stream, _)) => {
                let store = store.clone();
                arachne::spawn_balanced(async move {
                    let _ = connection(stream, store).await;
                });
            }
            Err(_) if arachne::is_stopping() => return,
            // The process has no descriptor left, or the client is gone. The next client may still be accepted.
            Err(_) => arachne::sleep(std::time::Duration::from_millis(10)).await,
        }
    }
}

fn end() -> io::Result<Receiver<()>> {
    let (sender, ended) = channel();
    let (other, term) = (sender.clone(), arachne::Signal::heard(15)?);
    std::thread::spawn(move || {
        term.wait();
        other.send(())
    });
    std::thread::spawn(move || {
        wait_for_end();
        sender.send(())
    });
    Ok(ended)
}

fn show_cores(runtime: &arachne::Runtime, start: Instant) {
    let stats = runtime.stats();
    println!("{:.3} {} {} {}", start.elapsed().as_secs_f64(), stats.active, stats.polls, stats.core_time.as_millis());
}

fn main() -> io::Result<()> {
    let arguments = Arguments::read().expect("redis CORES PORT [policy [SOCKET PRIORITY]]");
    let runtime = arguments.runtime()?;
    let listener = TcpListener::bind(("127.0.0.1", arguments.port))?;
    runtime.spawn(accept(listener, Arc::new(Store::default())));
    let (ended, start) = (end()?, Instant::now());
    println!("ready");
    if arguments.follows {
        while ended.recv_timeout(Duration::from_millis(10)).is_err() {
            show_cores(&runtime, start);
        }
    } else {
        let _ = ended.recv();
    }
    eprintln!("{:?}", runtime.stats());
    let ended = runtime.shutdown_within(Duration::from_secs(1));
    let counts = [&COMMANDS[0], &COMMANDS[1]].map(|count| count.load(SeqCst));
    println!("accepted {} answered {} aborted {}", counts[0], counts[1], ended.aborted);
    Ok(())
}
