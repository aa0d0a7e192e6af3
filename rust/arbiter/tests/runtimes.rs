//! Runs runtimes of rust/arachne as clients of the daemon. The daemon keeps threads on cores by affinity or, if
//! ARBITER_CPUSET names a folder, by cpusets. The tests need two processors.
mod common;

use arachne::{Builder, Policy, Runtime};
use common::*;
use std::fs;
use std::io::{BufRead, BufReader};
use std::os::unix::fs::MetadataExt;
use std::os::unix::process::CommandExt;
use std::process::Command;
use std::sync::atomic::{AtomicBool, AtomicU64, Ordering::*};
use std::sync::Arc;
use std::thread;
use std::time::{Duration, Instant};

/// Tasks that run until `goes_on` is false.
struct Load {
    polls: Arc<AtomicU64>,
    goes_on: Arc<AtomicBool>,
}

impl Load {
    fn of(runtime: &Runtime, tasks: usize) -> Load {
        let load = Load { polls: Arc::default(), goes_on: Arc::new(AtomicBool::new(true)) };
        for _ in 0..tasks {
            let (polls, goes_on) = (load.polls.clone(), load.goes_on.clone());
            runtime.spawn(async move {
                while goes_on.load(Relaxed) {
                    let end = Instant::now() + Duration::from_micros(50);
                    while Instant::now() < end {}
                    polls.fetch_add(1, Relaxed);
                    arachne::yield_now().await;
                }
            });
        }
        load
    }

    fn gets_on(&self, what: &str) {
        let before = self.polls.load(Relaxed);
        becomes(what, || self.polls.load(Relaxed) > before + 100);
    }
}

fn busy(socket: &Socket, cores: usize, priority: u8) -> (Runtime, Load) {
    let runtime = Builder::new(cores).arbiter(&socket.0, priority, 0).build().unwrap();
    let load = Load::of(&runtime, 8 * cores);
    (runtime, load)
}

fn active(runtime: &Runtime) -> usize {
    runtime.stats().active
}

fn workers() -> Vec<String> {
    let threads = fs::read_dir("/proc/self/task").unwrap().flatten().map(|it| it.file_name().into_string().unwrap());
    let name = |it: &String| fs::read_to_string(format!("/proc/self/task/{it}/comm")).unwrap_or_default();
    threads.filter(|it| name(it).trim().strip_prefix("arachne-").map_or(false, |n| n.parse::<u32>().is_ok())).collect()
}

/// The calling thread must not belong to a client.
fn cores() -> usize {
    arachne::available_cores() - 1
}

#[test]
fn cores_go_to_who_is_first_and_come_back() {
    let daemon = Daemon::new("runtimes");
    let cores = cores();
    let (low, of_low) = busy(&daemon, cores, 7);
    becomes("the first has all", || low.stats().arbiter && active(&low) == cores);
    let (high, of_high) = busy(&daemon, cores, 0);
    becomes("the second has all", || active(&high) == cores && active(&low) == 1);
    of_low.gets_on("who has none gets on in the rest");
    of_high.gets_on("who has all gets on");
    high.shutdown();
    becomes("the first has all again", || active(&low) == cores);
    of_low.gets_on("and gets on");
}

#[test]
fn a_runtime_goes_on_without_its_daemon_and_joins_the_next() {
    let mut daemon = Daemon::new("next");
    let (path, cores) = (daemon.socket.0.clone(), cores());
    let all = processors_of(&std::process::id().to_string());
    let (low, of_low) = busy(&daemon, cores, 7);
    becomes("it has all", || low.stats().arbiter && active(&low) == cores);
    let (high, of_high) = busy(&daemon, cores, 0);
    becomes("it has none", || active(&high) == cores && active(&low) == 1);
    for with_guardian in [false, true] {
        let child = daemon.child();
        if with_guardian {
            signal(child, "STOP");
            daemon.guardian.kill().unwrap();
        }
        kill(child);
        daemon.guardian.wait().unwrap();
        if with_guardian {
            fs::remove_file(&path).unwrap();
        }
        drop(daemon);
        for (runtime, load) in [(&low, &of_low), (&high, &of_high)] {
            becomes("it goes on by itself", || !runtime.stats().arbiter && active(runtime) == cores);
            load.gets_on("it gets on without an arbiter");
        }
        // If the guardian is killed too, nobody removes the cpusets.
        if !with_guardian || std::env::var_os("ARBITER_CPUSET").is_none() {
            becomes("its workers may run everywhere", || workers().iter().all(|it| processors_of(it) == all));
        }
        daemon = Daemon::at(path.clone(), &[]);
        becomes("both have joined", || [&low, &high].iter().all(|it| it.stats().arbiter));
        becomes("who is first has all", || active(&high) == cores && active(&low) == 1);
        of_low.gets_on("the one gets on");
        of_high.gets_on("the other gets on");
    }
    drop((low, high));
    drop(daemon);
    // This runtime reuses the state of an ended one, and must not be connected to the daemon.
    let alone = Builder::new(cores).build().unwrap();
    assert_eq!(alone.block_on(alone.spawn(async { 42 })).unwrap(), 42);
    assert_eq!((active(&alone), alone.stats().arbiter), (cores, false));
}

#[test]
fn while_the_host_takes_the_machine_runtimes_go_on_by_themselves() {
    let (host, cores, all) = (Host::new("machine"), cores(), processors_of(&std::process::id().to_string()));
    let daemon = host.daemon("lifts");
    let (low, of_low) = busy(&daemon, cores, 7);
    let (high, of_high) = busy(&daemon, cores, 0);
    for _ in 0..2 {
        becomes("both are clients", || {
            host.takes(0, |_| false);
            [&low, &high].iter().all(|it| it.stats().arbiter)
        });
        becomes("who is first has all", || active(&high) == cores && active(&low) == 1);
        becomes("both go on by themselves", || {
            host.takes(30, |_| true);
            [&low, &high].iter().all(|it| !it.stats().arbiter && active(it) == cores)
        });
        becomes("their workers may run everywhere", || workers().iter().all(|it| processors_of(it) == all));
        of_low.gets_on("the one gets on");
        of_high.gets_on("the other gets on");
    }
}

#[test]
fn a_runtime_that_is_killed_has_no_core() {
    let (daemon, cores) = (Daemon::new("killed"), cores());
    let mut client = other("a_runtime_to_kill", &daemon).spawn().unwrap();
    let mut lines = BufReader::new(client.stdout.take().unwrap()).lines();
    let line = lines.find_map(|line| Some(line.unwrap().strip_suffix(" has all")?.to_string())).unwrap();
    let child: u32 = line.rsplit(' ').next().unwrap().parse().unwrap();
    let (low, load) = busy(&daemon, cores, 7);
    becomes("it has joined", || low.stats().arbiter && active(&low) == 1);
    load.gets_on("it gets on in the rest");
    assert_eq!(active(&low), 1);
    client.kill().unwrap();
    client.wait().unwrap();
    becomes("it has all, though a child has the connections", || active(&low) == cores);
    assert!(!processors_of_process(&child.to_string()).is_empty(), "the child lives");
    kill(child);
}

extern "C" {
    fn fork() -> i32;
    fn pause() -> i32;
}

/// This process has all cores, and then forks. The child has the runtime's connections, but none of its kernel threads.
#[test]
#[ignore = "the test before runs it, and kills it once it has all cores"]
fn a_runtime_to_kill() {
    let cores = cores();
    let (runtime, load) = busy(&given(), cores, 0);
    becomes("it has all", || runtime.stats().arbiter && active(&runtime) == cores);
    // SAFETY: the child makes no other call than `pause`.
    let child = unsafe { fork() };
    while child == 0 {
        unsafe { pause() };
    }
    load.gets_on("it gets on");
    println!("{child} has all");
    thread::sleep(Duration::from_secs(60));
}

#[test]
fn the_core_that_is_left_over_goes_round_within_a_priority() {
    let (daemon, cores) = (Daemon::new("round"), cores());
    if cores % 2 == 0 {
        return println!("skipped: it needs an even number of processors");
    }
    let (one, of_one) = busy(&daemon, cores, 7);
    let (other, of_other) = busy(&daemon, cores, 7);
    for _ in 0..3 {
        for (more, less) in [(&one, &other), (&other, &one)] {
            becomes("each has it in turn", || active(more) == cores / 2 + 1 && active(less) == (cores / 2).max(1));
        }
        of_one.gets_on("the one gets on");
        of_other.gets_on("the other gets on");
    }
}

/// The server asks for cores by its load. The other runtime, of lower priority, must have the remaining ones.
#[test]
fn cores_follow_the_load_between_two_priorities() {
    let daemon = Daemon::new("policy");
    let cores = cores();
    let server = Builder::new(cores).policy(Policy::default()).arbiter(&daemon.socket.0, 0, 0).build().unwrap();
    becomes("it has joined", || server.stats().arbiter);
    let (batch, of_batch) = busy(&daemon, cores, 7);
    for _ in 0..3 {
        let left = cores - 1;
        becomes("the batch has what is left", || active(&server) == 1 && active(&batch) == left.max(1));
        of_batch.gets_on("the batch gets on");
        // The policy judges by an average, so with this many tasks the runtime asks for cores even on a busy machine.
        let load = Load::of(&server, 100 * cores);
        becomes("the server has all", || active(&server) == cores && active(&batch) == 1);
        load.gets_on("the server gets on");
        of_batch.gets_on("the batch gets on in the rest");
        load.goes_on.store(false, Relaxed);
    }
}

#[test]
fn a_runtime_that_is_refused_goes_on_by_itself() {
    let daemon = Daemon::at(path_of("refuses"), &["--open"]);
    let runtime = Builder::new(2).arbiter(&daemon.socket.0, 0, 1000).build().unwrap();
    let load = Load::of(&runtime, 8);
    thread::sleep(Duration::from_millis(50));
    load.gets_on("it gets on");
    becomes("it has all, and no arbiter", || active(&runtime) == 2 && !runtime.stats().arbiter);
    if fs::metadata("/proc/self").unwrap().uid() != 0 {
        return println!("skipped: only root can become another user");
    }
    assert!(other("a_runtime_of_another_user", &daemon).uid(65534).status().unwrap().success());
}

#[test]
#[ignore = "the test before runs it as another user"]
fn a_runtime_of_another_user() {
    let first = Builder::new(2).arbiter(&given().0, 3, 0).build().unwrap();
    let load = Load::of(&first, 8);
    thread::sleep(Duration::from_millis(50));
    load.gets_on("it gets on");
    assert!(!first.stats().arbiter, "it may not have this priority");
    let second = Builder::new(2).arbiter(&given().0, 4, 0).build().unwrap();
    becomes("it may have this one", || second.stats().arbiter);
}

#[test]
fn what_a_worker_begins_does_not_stay_on_its_core() {
    let daemon = Daemon::new("begins");
    let (runtime, _load) = busy(&daemon, 2, 0);
    becomes("it has joined", || runtime.stats().arbiter);
    let task = runtime.spawn(async {
        while processors_of_process("thread-self").contains([',', '-']) {
            arachne::yield_now().await;
        }
        let blocking = arachne::spawn_blocking(|| becomes("work that blocks runs in the rest", is_free)).await;
        let begun = thread::spawn(|| becomes("what a task has begun runs in the rest", is_free));
        arachne::spawn_blocking(|| begun.join().unwrap()).await.unwrap();
        let mut process = Command::new("sleep").arg("100").spawn().unwrap();
        let id = process.id().to_string();
        let is_free = move || processors_of_process(&id) == processors_of_process("self");
        arachne::spawn_blocking(|| becomes("so does a process", is_free)).await.unwrap();
        process.kill().unwrap();
        process.wait().unwrap();
        blocking.unwrap();
    });
    arachne::block_on(task).unwrap();
}

/// The first runtime has all cores, so the second one begins on the processors for threads without a core. After the
/// first runtime has ended, a blocking call of the second must be able to run on all processors.
#[test]
fn a_runtime_that_begins_in_the_rest_is_not_kept_there() {
    let (daemon, cores) = (Daemon::new("rest"), cores());
    let (first, _load) = busy(&daemon, cores, 0);
    becomes("the first has all", || first.stats().arbiter && active(&first) == cores);
    let second = Builder::new(2).arbiter(&daemon.socket.0, 7, 0).build().unwrap();
    becomes("it has joined", || second.stats().arbiter);
    let (begun, ended) = (flag(), flag());
    let (begins, ends) = (begun.clone(), ended.clone());
    let blocks = move || {
        begins.store(true, SeqCst);
        becomes("the first has ended", || ends.load(SeqCst));
        becomes("work that blocks runs in the whole rest", is_free);
    };
    let task = second.spawn(async { arachne::spawn_blocking(blocks).await.unwrap() });
    becomes("it has begun", || begun.load(SeqCst));
    first.shutdown();
    ended.store(true, SeqCst);
    arachne::block_on(task).unwrap();
}

/// Returns true if this thread may run on the same processors as the first thread of the process, which is no worker.
fn is_free() -> bool {
    let link = fs::read_link("/proc/thread-self").unwrap();
    let me = link.file_name().unwrap().to_str().unwrap();
    processors_of(me) == processors_of(&std::process::id().to_string())
}

/// A task blocks its worker's kernel thread until another task has run. Meanwhile the daemon takes back this worker's
/// core. The other worker, which waits for sockets, must run that other task.
#[test]
fn what_is_in_hand_is_run_though_the_core_was_asked_back() {
    let all = arachne::available_cores();
    if all < 3 {
        return println!("skipped: it needs three processors");
    }
    let daemon = Daemon::new("hand");
    let low = Builder::new(2).arbiter(&daemon.socket.0, 7, 0).build().unwrap();
    for _ in 0..5 {
        becomes("it has both", || low.stats().arbiter && active(&low) == 2);
        let (blocks, is_back, ran) = (flag(), flag(), flag());
        let (begins, asked) = (blocks.clone(), is_back.clone());
        let task = low.spawn(async move {
            let one = || arachne::spawn_balanced(at_second(begins.clone(), asked.clone(), ran.clone()));
            for task in [one(), one(), one()] {
                task.await.unwrap();
            }
        });
        becomes("the second worker is in a poll", || blocks.load(SeqCst));
        let high = Builder::new(all - 1).arbiter(&daemon.socket.0, 0, 0).build().unwrap();
        becomes("the core is asked back", || active(&low) == 1);
        is_back.store(true, SeqCst);
        arachne::block_on(task).unwrap();
        high.shutdown();
    }
}

/// The poll of a task, on the only active worker, waits until another task has run. The inactive worker, which waits
/// for a core, must run that other task.
#[test]
fn what_is_behind_a_poll_is_run_by_who_waits_for_a_core() {
    let daemon = Daemon::new("covers");
    let runtime = Builder::new(2).policy(Policy::default()).arbiter(&daemon.socket.0, 0, 0).build().unwrap();
    for pause in [0, 1, 30] {
        becomes("it has one core", || runtime.stats().arbiter && active(&runtime) == 1);
        thread::sleep(Duration::from_millis(pause));
        let ran = flag();
        let task = runtime.spawn(async move {
            let runs = ran.clone();
            let behind = arachne::spawn(async move { runs.store(true, SeqCst) });
            becomes("what is behind the poll is run", || ran.load(SeqCst));
            behind.await.unwrap();
        });
        arachne::block_on(task).unwrap();
    }
}

async fn at_second(blocks: Arc<AtomicBool>, is_back: Arc<AtomicBool>, ran: Arc<AtomicBool>) {
    while thread::current().name() != Some("arachne-1") {
        if blocks.load(SeqCst) {
            return;
        }
        arachne::yield_now().await;
    }
    if blocks.swap(true, SeqCst) {
        return;
    }
    becomes("the core is asked back", || is_back.load(SeqCst));
    let runs = ran.clone();
    arachne::spawn(async move { runs.store(true, SeqCst) });
    becomes("what is in hand is run by another", || ran.load(SeqCst));
}

fn flag() -> Arc<AtomicBool> {
    Arc::default()
}

#[test]
fn a_runtime_ends_while_it_waits_and_while_there_is_no_arbiter() {
    let path = path_of("ends");
    let none = Builder::new(2).arbiter(&path, 3, 0).build().unwrap();
    assert_eq!(none.block_on(none.spawn(async { 1 })).unwrap(), 1);
    drop(none);
    let _daemon = Daemon::at(path.clone(), &[]);
    for turn in 0..50 {
        let builder = Builder::new(3).arbiter(&path, 3, 0);
        let builder = if turn % 2 == 0 { builder.policy(Policy::default()) } else { builder };
        let runtime = builder.build().unwrap();
        let load = Load::of(&runtime, 24);
        if turn % 5 == 0 {
            load.gets_on("it gets on");
        }
        thread::sleep(Duration::from_millis(turn % 7));
        runtime.shutdown();
    }
}
