//! `tokio_redis CORES PORT` is the server of examples/src/bin/redis.rs on tokio. It ends when its standard input ends.
use examples::{wait_for_end, Arguments, Buffer, Store};
use std::sync::Arc;
use tokio::io::{AsyncReadExt, AsyncWriteExt};

async fn connection(mut stream: tokio::net::TcpStream, store: Arc<Store>) -> std::io::Result<()> {
    stream.set_nodelay(true)?;
    let (mut buffer, mut out) = (Buffer::new(), Vec::new());
    loop {
        match stream.read(buffer.room()).await? {
            0 => return Ok(()),
            n => buffer.len += n,
        }
        match store.serve(&buffer.bytes[..buffer.len], &mut out) {
            Ok((spent, _)) => buffer.spend(spent),
            Err(()) => return Ok(()),
        }
        stream.write_all(&out).await?;
        out.clear();
    }
}

fn main() {
    let arguments = Arguments::read().expect("tokio_redis CORES PORT");
    let store = Arc::new(Store::default());
    let runtime =
        tokio::runtime::Builder::new_multi_thread().worker_threads(arguments.cores).enable_all().build().unwrap();
    runtime.spawn(async move {
        let listener = tokio::net::TcpListener::bind(("127.0.0.1", arguments.port)).await.unwrap();
        println!("ready");
        while let Ok((stream, _)) = listener.accept().await {
            let store = store.clone();
            tokio::spawn(async move {
                let _ = connection(stream, store).await;
            });
        }
    });
    wait_for_end();
    std::process::exit(0);
}
