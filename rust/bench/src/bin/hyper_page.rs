//! `hyper_page EXECUTOR CORES PORT` serves one page with hyper's server, unchanged, on arachne or tokio, at 127.0.0.1.
//! The server ends when its standard input ends.
use hyper::service::service_fn;
use hyper::{Body, Request, Response};
use std::convert::Infallible;

async fn page(_: Request<Body>) -> Result<Response<Body>, Infallible> {
    Ok(Response::new(Body::from("Hello, world!\n")))
}

/// Lets hyper spawn its own tasks on arachne.
#[derive(Clone)]
struct Arachne;
impl<F: std::future::Future<Output = ()> + Send + 'static> hyper::rt::Executor<F> for Arachne {
    fn execute(&self, future: F) {
        drop(arachne::spawn(future));
    }
}

fn main() {
    let words: Vec<String> = std::env::args().collect();
    let (cores, port): (usize, u16) = (words[2].parse().unwrap(), words[3].parse().unwrap());
    match &*words[1] {
        "arachne" => {
            let runtime = arachne::Runtime::new(cores);
            let listener = arachne::net::TcpListener::bind(("127.0.0.1", port)).unwrap();
            runtime.spawn(async move {
                while let Ok((stream, _)) = listener.accept().await {
                    let _ = stream.set_nodelay(true);
                    arachne::spawn_balanced(async move {
                        let http = hyper::server::conn::Http::new().with_executor(Arachne);
                        let _ = http.serve_connection(stream, service_fn(page)).await;
                    });
                }
            });
            println!("ready");
            examples::wait_for_end();
        }
        _ => {
            let runtime =
                tokio::runtime::Builder::new_multi_thread().worker_threads(cores).enable_all().build().unwrap();
            runtime.spawn(async move {
                let listener = tokio::net::TcpListener::bind(("127.0.0.1", port)).await.unwrap();
                while let Ok((stream, _)) = listener.accept().await {
                    let _ = stream.set_nodelay(true);
                    tokio::spawn(async move {
                        let _ = hyper::server::conn::Http::new().serve_connection(stream, service_fn(page)).await;
                    });
                }
            });
            println!("ready");
            examples::wait_for_end();
        }
    }
    std::process::exit(0);
}
