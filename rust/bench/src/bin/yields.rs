//! `yields EXECUTOR CORES [TASKS]` measures an echo server beside tasks that yield for ever, on arachne or tokio. There
//! are TASKS such tasks, by default one per core. For two seconds, each of 8 connections sends a byte and waits for the
//! echo. The program prints the times of these round trips.
use std::io::{Read, Write};
use std::net::SocketAddr;
use std::sync::atomic::{AtomicBool, Ordering::Relaxed};
use std::sync::Arc;
use std::thread;
use std::time::{Duration, Instant};

async fn yield_now() {
    let mut done = false;
    std::future::poll_fn(|cx| {
        if done {
            return std::task::Poll::Ready(());
        }
        done = true;
        cx.waker().wake_by_ref();
        std::task::Poll::Pending
    })
    .await
}

fn client(at: SocketAddr, stop: &AtomicBool) -> Vec<u64> {
    let mut stream = std::net::TcpStream::connect(at).unwrap();
    stream.set_nodelay(true).unwrap();
    let mut times = Vec::new();
    while !stop.load(Relaxed) {
        let (start, mut byte) = (Instant::now(), [7]);
        stream.write_all(&byte).unwrap();
        stream.read_exact(&mut byte).unwrap();
        times.push(start.elapsed().as_nanos() as u64);
    }
    times
}

fn measure(what: &str, at: SocketAddr) {
    let stop = Arc::new(AtomicBool::new(false));
    let clients: Vec<_> = (0..8)
        .map(|_| {
            let stop = stop.clone();
            thread::spawn(move || client(at, &stop))
        })
        .collect();
    thread::sleep(Duration::from_secs(2));
    stop.store(true, Relaxed);
    let mut times: Vec<u64> = clients.into_iter().flat_map(|client| client.join().unwrap()).collect();
    times.sort_unstable();
    let point = |part: f64| times[(times.len() as f64 * part) as usize] as f64 / 1e3;
    let (half, most, last) = (point(0.5), point(0.99), point(0.999));
    println!("{what}: {} round trips, 50 % {half:.1}, 99 % {most:.1}, 99.9 % {last:.1} us", times.len());
}

fn main() {
    let words: Vec<String> = std::env::args().collect();
    let cores: usize = words[2].parse().unwrap();
    let tasks = words.get(3).map_or(cores, |word| word.parse().unwrap());
    let what = format!("{:8} {cores} cores, {tasks} tasks that yield", words[1]);
    match &*words[1] {
        "arachne" => {
            let runtime = arachne::Runtime::new(cores);
            let listener = arachne::net::TcpListener::bind("127.0.0.1:0").unwrap();
            let at = listener.local_addr().unwrap();
            runtime.spawn(async move {
                while let Ok((stream, _)) = listener.accept().await {
                    arachne::spawn_balanced(async move {
                        let mut byte = [0];
                        while stream.read_exact(&mut byte).await.is_ok() && stream.write_all(&byte).await.is_ok() {}
                    });
                }
            });
            (0..tasks).for_each(|_| {
                drop(runtime.spawn(async {
                    loop {
                        yield_now().await
                    }
                }))
            });
            measure(&what, at);
        }
        _ => {
            use tokio::io::{AsyncReadExt, AsyncWriteExt};
            let runtime =
                tokio::runtime::Builder::new_multi_thread().worker_threads(cores).enable_all().build().unwrap();
            let listener = runtime.block_on(tokio::net::TcpListener::bind("127.0.0.1:0")).unwrap();
            let at = listener.local_addr().unwrap();
            runtime.spawn(async move {
                while let Ok((mut stream, _)) = listener.accept().await {
                    tokio::spawn(async move {
                        let mut byte = [0];
                        while stream.read_exact(&mut byte).await.is_ok() && stream.write_all(&byte).await.is_ok() {}
                    });
                }
            });
            (0..tasks).for_each(|_| {
                drop(runtime.spawn(async {
                    loop {
                        yield_now().await
                    }
                }))
            });
            measure(&what, at);
        }
    }
    std::process::exit(0);
}
