//! The server's requests as jobs of a pool of rayon: `rayon_server CORES < LIST`.

mod load;

fn main() {
    let cores = std::env::args().nth(1).unwrap().parse().unwrap();
    let pool = rayon::ThreadPoolBuilder::new().num_threads(cores).build().unwrap();
    load::drive(|number, due| pool.spawn(move || load::answer(number, due.rounds)));
}
