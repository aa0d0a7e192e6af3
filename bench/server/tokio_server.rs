//! The server's requests as tasks of tokio's runtime of many kernel threads: `tokio_server CORES < LIST`.

mod load;

use tokio::runtime::Builder;

fn main() {
    let cores = std::env::args().nth(1).unwrap().parse().unwrap();
    let runtime = Builder::new_multi_thread().worker_threads(cores).build().unwrap();
    load::drive(|number, due| {
        runtime.spawn(async move { load::answer(number, due.rounds) });
    });
}
