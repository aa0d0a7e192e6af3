//! Tests of the daemon through its protocol. The daemon keeps threads on cores by affinity or, if ARBITER_CPUSET names
//! a folder, by cpusets. The tests need two processors. They rely on no time limits but those that the daemon promises.
mod common;

use arbiter::protocol::*;
use common::*;
use std::cell::Cell;
use std::env;
use std::fs;
use std::io::{BufRead, BufReader, Read, Write};
use std::os::unix::ffi::OsStrExt;
use std::os::unix::fs::{FileExt, MetadataExt};
use std::os::unix::io::{AsRawFd, FromRawFd};
use std::os::unix::net::UnixStream;
use std::os::unix::process::CommandExt;
use std::path::PathBuf;
use std::process::{Child, Command, Stdio};
use std::sync::mpsc;
use std::thread;
use std::time::{Duration, Instant};

fn is_refused(stream: &mut UnixStream) -> bool {
    receive(stream).map_or(true, |message| message[0] == REFUSED && receive(stream).is_none())
}

fn is_granted(thread: &mut UnixStream) -> bool {
    receive(thread).unwrap()[0] == GRANT
}

struct Granted {
    client: u32,
    control: UnixStream,
    _thread: UnixStream,
    cpu: u32,
}

fn granted(socket: &Socket, priority: u32, least: u32) -> Granted {
    let (mut control, [_, client, ..]) = socket.hello(priority, least);
    let mut thread = socket.waiting(client, 0);
    send(&mut control, [ASK, 1, 0, 0]);
    let message = receive(&mut thread).unwrap();
    assert_eq!(message[0], GRANT);
    Granted { client, control, _thread: thread, cpu: message[1] }
}

#[test]
fn the_higher_priority_has_its_core_within_some_milliseconds_by_force() {
    let daemon = Daemon::new("force");
    let (mut low, welcome) = daemon.hello(5, 0);
    let (client, cores) = (welcome[1], welcome[2]);
    assert_eq!(welcome[0], WELCOME);
    let mut threads: Vec<_> = (0..cores).map(|place| daemon.waiting(client, place)).collect();
    send(&mut low, [ASK, cores, 0, 0]);
    let mut cpus: Vec<u32> = threads.iter_mut().map(|it| receive(it).filter(|m| m[0] == GRANT).unwrap()[1]).collect();
    cpus.sort_unstable();
    cpus.dedup();
    assert_eq!(cpus.len() as u32, cores, "each thread has a processor of its own");

    for _ in 0..2 {
        let (mut high, welcome) = daemon.hello(1, 0);
        let mut thread = daemon.waiting(welcome[1], 0);
        let start = Instant::now();
        send(&mut high, [ASK, 1, 0, 0]);
        assert!(is_granted(&mut thread));
        let took = start.elapsed();
        assert!(took >= Duration::from_millis(9), "it took {took:?}");
        assert_eq!(receive(&mut low).unwrap()[..2], [ALLOWED, cores - 1]);

        // A thread whose core was taken by force may wait for a core, and gets one once the other client has ended.
        let last = threads.last_mut().unwrap();
        send(last, [WAIT, 0, 0, 0]);
        drop(high);
        assert!(is_granted(last));
        assert!(receive(&mut thread).is_none(), "its thread's connection has ended too");
    }
}

#[test]
fn who_obeys_is_not_waited_for_and_who_floats_never_waits() {
    let daemon = Daemon::new("obeys");
    let (mut low, welcome) = daemon.hello(5, 0);
    let cores = welcome[2];
    let mut threads: Vec<_> = (0..cores).map(|place| daemon.thread(welcome[1], place, place == 0)).collect();
    threads[1..].iter_mut().for_each(|thread| send(thread, [WAIT, 0, 0, 0]));
    send(&mut low, [ASK, cores, 0, 0]);
    assert!(threads[1..].iter_mut().all(is_granted));
    let (mut high, welcome) = daemon.hello(0, 0);
    let mut others: Vec<_> = (0..cores).map(|place| daemon.waiting(welcome[1], place)).collect();
    send(&mut high, [ASK, cores, 0, 0]);
    assert_eq!(receive(&mut low).unwrap()[..2], [ALLOWED, 0]);
    threads[1..].iter_mut().for_each(|thread| send(thread, [WAIT, 0, 0, 0]));
    assert!(others.iter_mut().all(is_granted));
}

/// While the daemon is stopped, two clients ask for all cores. The one with the higher priority must get them.
#[test]
fn what_has_come_is_read_before_a_decision() {
    let daemon = Daemon::new("come");
    let (mut low, welcome) = daemon.hello(6, 0);
    let cores = welcome[2];
    let mut of_low: Vec<_> = (0..cores).map(|place| daemon.waiting(welcome[1], place)).collect();
    let (mut high, welcome) = daemon.hello(5, 0);
    let mut of_high = Vec::new();
    daemon.while_it_stands(|| {
        of_high.extend((0..cores).map(|place| daemon.waiting(welcome[1], place)));
        send(&mut high, [ASK, cores, 0, 0]);
        send(&mut low, [ASK, cores, 0, 0]);
    });
    assert!(of_high.iter_mut().all(is_granted));
    assert!(of_low.iter().all(is_silent), "nothing is left for the lower priority");

    drop(high);
    assert!(of_low.iter_mut().all(is_granted));
    let (mut high, welcome) = daemon.hello(5, 0);
    of_high = vec![daemon.waiting(welcome[1], 0)];
    daemon.hello(5, 0);
    daemon.while_it_stands(|| {
        of_high.extend((1..cores).map(|place| daemon.waiting(welcome[1], place)));
        // Of several requests for cores, only the last one counts.
        [0, 1, cores].into_iter().for_each(|cores| send(&mut high, [ASK, cores, 0, 0]));
    });
    assert!(of_high.iter_mut().all(is_granted));
    assert_eq!(receive(&mut low).unwrap()[..2], [ALLOWED, 0], "in one step");
}

fn processors() -> Vec<u32> {
    let ends = |part: &str| part.split('-').map(|end| end.parse().unwrap()).collect::<Vec<u32>>();
    let all = processors_of(&std::process::id().to_string());
    all.split(',').flat_map(|part| ends(part)[0]..=*ends(part).last().unwrap()).collect()
}

/// Starts a daemon with one core to grant, which goes to the next client every 40 ms.
fn with_one_core(name: &str) -> Daemon {
    let two = format!("{},{}", processors()[0], processors()[1]);
    Daemon::at(path_of(name), &["--cores", &two, "--turn", "40"])
}

#[test]
fn a_core_goes_round_among_those_that_want_it_and_can_take_it() {
    let daemon = with_one_core("turns");
    // The client `idle` has no thread, and the client `low` has a lower priority.
    let ((mut idle, _), (mut low, welcome)) = (daemon.hello(5, 0), daemon.hello(6, 0));
    let never = daemon.waiting(welcome[1], 0);
    let mut clients: Vec<_> = (0..3).map(|_| daemon.hello(5, 0)).collect();
    let mut threads: Vec<_> = clients.iter().map(|(_, welcome)| daemon.thread(welcome[1], 0, false)).collect();
    threads.iter_mut().for_each(|thread| send(thread, [WAIT, 0, 0, 0]));
    let begin = Instant::now();
    clients.iter_mut().map(|(control, _)| control).for_each(|control| send(control, [ASK, 1, 0, 0]));
    [&mut idle, &mut low].into_iter().for_each(|control| send(control, [ASK, 1, 0, 0]));
    for _ in 0..3 {
        for (thread, (control, _)) in threads.iter_mut().zip(&mut clients) {
            assert!(is_granted(thread));
            assert_eq!(receive(control).unwrap()[..2], [ALLOWED, 0]);
            send(thread, [WAIT, 0, 0, 0]);
        }
    }
    assert!(begin.elapsed() >= Duration::from_millis(8 * 40), "{:?}", begin.elapsed());
    assert!(is_silent(&never), "a lower priority gets nothing while a core goes round");
}

/// Before the core has moved from the first client to the second, the second asks for no core any more. The core must
/// then go to the third client, and not to a client of lower priority.
#[test]
fn a_turn_that_is_not_taken_is_no_lower_priority_s() {
    let daemon = with_one_core("not-taken");
    let (mut low, welcome) = daemon.hello(6, 0);
    let never = daemon.waiting(welcome[1], 0);
    let mut clients: Vec<_> = (0..3).map(|_| daemon.hello(5, 0)).collect();
    let mut threads: Vec<_> = clients.iter().map(|(_, welcome)| daemon.waiting(welcome[1], 0)).collect();
    clients.iter_mut().for_each(|(control, _)| send(control, [ASK, 1, 0, 0]));
    send(&mut low, [ASK, 1, 0, 0]);
    assert!(is_granted(&mut threads[0]));
    assert_eq!(receive(&mut clients[0].0).unwrap()[..2], [ALLOWED, 0]);
    send(&mut clients[1].0, [ASK, 0, 0, 0]);
    send(&mut threads[0], [WAIT, 0, 0, 0]);
    assert!(is_granted(&mut threads[2]));
    assert!(is_silent(&never));
}

#[test]
fn a_reserved_core_does_not_go_round() {
    let daemon = with_one_core("reserved");
    let it = granted(&daemon, 5, 1);
    let (mut control, welcome) = daemon.hello(5, 0);
    let thread = daemon.waiting(welcome[1], 0);
    send(&mut control, [ASK, 1, 0, 0]);
    thread::sleep(Duration::from_millis(5 * 40));
    assert!(is_silent(&it.control) && is_silent(&thread));
}

/// A folder in place of the kernel's says which processors are hyperthreads of one core. The daemon must grant these
/// together, unless it is started with `--hyperthreads`.
#[test]
fn hyperthreads_of_one_core_are_granted_together() {
    let (cpus, folder) = (processors(), path_of("topology"));
    if cpus.len() < 4 {
        return println!("skipped: it needs four processors");
    }
    let siblings = |nth: usize| format!("{},{}", cpus[nth & 2], cpus[nth & 2 | 1]);
    for nth in 0..4 {
        let of = folder.join(format!("cpu{}/topology", cpus[nth]));
        fs::create_dir_all(&of).unwrap();
        fs::write(of.join("thread_siblings_list"), siblings(nth) + "\n").unwrap();
    }
    for words in [&["--hyperthreads"][..], &[]] {
        let (path, both) = (path_of("pairs"), format!("{},{}", siblings(0), siblings(2)));
        let mut command = run(&path, &[&["--cores", &both][..], words].concat());
        command.env("ARBITER_TOPOLOGY", &folder);
        let daemon = Daemon::begun(command, path);
        let (mut control, welcome) = daemon.hello(5, 0);
        assert_eq!(welcome[2], if words.is_empty() { 1 } else { 3 });
        let mut threads: Vec<_> = (0..2).map(|place| daemon.thread(welcome[1], place, false)).collect();
        threads.iter_mut().for_each(|thread| send(thread, [WAIT, 0, 0, 0]));
        send(&mut control, [ASK, 1, 0, 0]);
        let cpu = receive(&mut threads[0]).unwrap()[1];
        if words.is_empty() {
            assert_eq!(cpu, cpus[2]);
            let text = status(&daemon);
            assert!(text.contains(&format!("processors {}: client {}", siblings(2), welcome[1])), "{text}");
            let (number, _end) = begin();
            let _other = daemon.join(welcome[1], number, 3, false);
            let rest = || processors_of(&number.to_string());
            becomes("it runs on the other core", || rest().split(['-', ',']).all(|it| siblings(0).contains(it)));
        }
    }
    fs::remove_dir_all(&folder).unwrap();
}

#[test]
fn what_is_out_of_place_is_refused() {
    let daemon = Daemon::new("refused");
    assert_eq!(daemon.hello(8, 0).1[0], REFUSED, "there is no such priority");
    assert_eq!(daemon.hello(0, 1000).1[0], REFUSED, "more reserved than there is");
    for words in [[JOIN, 1, 1, 0], [WAIT, 0, 0, 0], [ASK, 1, 0, 0], [u32::MAX; 4], [HELLO, 2, 0, 0], [GRANT, 0, 0, 0]] {
        let mut stream = daemon.connect();
        send(&mut stream, words);
        assert!(is_refused(&mut stream), "{words:?}");
    }
    // The daemon refuses a thread of another process, a thread that is registered, and a number that is in use.
    let (mut control, welcome) = daemon.hello(0, 0);
    assert!(is_refused(&mut daemon.join(welcome[1], 1, 0, false)));
    let _known = daemon.join(welcome[1], number(), 3, false);
    assert!(is_refused(&mut daemon.join(welcome[1], number(), 4, false)));
    assert!(is_refused(&mut daemon.thread(welcome[1], 3, false)));
    // A message that arrives in pieces counts as one, and half a message as none.
    let mut half = daemon.connect();
    half.write_all(&[1, 0, 0]).unwrap();
    let ask = bytes_of([ASK, 1, 0, 0]);
    ask.iter().for_each(|byte| control.write_all(&[*byte]).unwrap());
    let mut other = daemon.waiting(welcome[1], 4);
    assert!(is_granted(&mut other), "the client's request of one core counts");
}

#[test]
fn there_are_limits_of_connections_and_of_clients() {
    let daemon = Daemon::new("limits");
    let clients: Vec<_> = (0..64).map(|_| daemon.hello(7, 0)).collect();
    assert!(clients.iter().all(|(_, answer)| answer[0] == WELCOME));
    assert_eq!(daemon.hello(7, 0).1[0], REFUSED, "no number is left");
    // A process may have 130 connections, and all processes together 300.
    let many = connect_often(&daemon);
    assert_eq!(open_of(&many), 130 - clients.len());
    [130, 40].map(|left| connects_often(&mut other("who_connects_often", &daemon), left)).into_iter().for_each(ends);
    drop((clients, many));
    becomes("there is room again", || comes(&daemon));
}

#[test]
fn users_who_are_not_trusted_leave_connections_for_others() {
    if fs::metadata("/proc/self").unwrap().uid() != 0 {
        return println!("skipped: only root can become another user");
    }
    let daemon = Daemon::at(path_of("users"), &["--open"]);
    let often = |user, left| connects_often(other("who_connects_often", &daemon).uid(user), left);
    let others = [(65533, 100), (65534, 50)].map(|(user, left)| often(user, left));
    assert_eq!(daemon.hello(0, 1).1[0], WELCOME);
    others.into_iter().for_each(ends);
}

/// Starts a process that opens as many connections as it can, and checks that the number of open ones is `left`.
fn connects_often(who: &mut Command, left: usize) -> (Child, impl Iterator) {
    let mut process = who.stdin(Stdio::piped()).spawn().unwrap();
    let mut lines = BufReader::new(process.stdout.take().unwrap()).lines();
    let line = lines.find_map(|line| Some(line.unwrap().strip_suffix(" are open")?.to_string()));
    assert_eq!(line.unwrap().rsplit(' ').next().unwrap(), left.to_string());
    (process, lines)
}

fn ends((mut process, _lines): (Child, impl Iterator)) {
    drop(process.stdin.take());
    assert!(process.wait().unwrap().success());
}

fn comes(socket: &Socket) -> bool {
    let mut stream = socket.connect();
    let _ = stream.write_all(&bytes_of([HELLO, VERSION, 0, 64]));
    receive(&mut stream).map_or(false, |answer| answer[0] == WELCOME)
}

/// Opens 200 connections, which are too many, and returns them once the daemon has closed the last one.
fn connect_often(socket: &Socket) -> Vec<UnixStream> {
    let mut many: Vec<_> = (0..200).map(|_| socket.connect()).collect();
    assert!(receive(many.last_mut().unwrap()).is_none());
    many
}

fn open_of(many: &[UnixStream]) -> usize {
    many.iter().filter(|stream| is_silent(stream)).count()
}

#[test]
#[ignore = "two tests above run it twice"]
fn who_connects_often() {
    // The client with the number 1 belongs to another process.
    assert_eq!(receive(&mut given().join(1, number(), 0, false)).unwrap()[0], REFUSED);
    let many = connect_often(&given());
    println!("{} are open", open_of(&many));
    let _ = std::io::stdin().read(&mut [0]);
}

/// A client must not write to its page, nor change its length, by which it could make the daemon fail.
#[test]
fn a_page_is_only_read() {
    let daemon = Daemon::new("page");
    let mut stream = daemon.connect();
    send(&mut stream, [HELLO, VERSION, 5, 64]);
    let page = receive_with(&stream);
    assert_eq!(page.metadata().unwrap().len(), 4096);
    assert!(page.write_at(&[1], 0).is_err() && page.set_len(0).is_err() && page.set_len(8192).is_err());
    assert_eq!(page.read_at(&mut [1], 0).unwrap(), 1);
}

/// Starts a process that has all cores, for a test that kills it.
fn client_to_kill(daemon: &Daemon) -> Child {
    let mut client = other("a_client_to_kill", daemon).spawn().unwrap();
    let mut lines = BufReader::new(client.stdout.take().unwrap()).lines();
    assert!(lines.any(|line| line.unwrap().ends_with("granted")));
    client
}

#[test]
fn a_client_that_is_stopped_loses_its_cores_by_force() {
    let daemon = Daemon::new("stopped");
    let mut client = client_to_kill(&daemon);
    signal(client.id(), "STOP");
    granted(&daemon, 0, 0);
    client.kill().unwrap();
    client.wait().unwrap();
}

#[test]
fn a_client_that_is_killed_has_no_core() {
    let daemon = Daemon::new("client");
    let mut client = client_to_kill(&daemon);
    let (mut control, welcome) = daemon.hello(5, 0);
    let mut thread = daemon.waiting(welcome[1], 0);
    send(&mut control, [ASK, 1, 0, 0]);
    client.kill().unwrap();
    client.wait().unwrap();
    assert!(is_granted(&mut thread));
}

#[test]
#[ignore = "other tests run it, and stop or kill it once it has all cores"]
fn a_client_to_kill() {
    let socket = given();
    let (mut control, welcome) = socket.hello(1, 0);
    let mut threads: Vec<_> = (0..welcome[2]).map(|place| socket.waiting(welcome[1], place)).collect();
    send(&mut control, [ASK, welcome[2], 0, 0]);
    assert!(threads.iter_mut().all(is_granted));
    println!("granted");
    thread::sleep(Duration::from_secs(100));
}

#[test]
fn a_daemon_that_is_killed_leaves_no_socket() {
    let mut daemon = Daemon::new("daemon");
    let (mut control, _) = daemon.hello(0, 0);
    kill(daemon.child());
    assert!(receive(&mut control).is_none(), "its clients' connections have ended");
    daemon.guardian.wait().unwrap();
    assert!(!daemon.socket.0.exists());
}

#[test]
fn a_daemon_whose_log_nobody_reads_goes_on() {
    let mut daemon = Daemon::at(path_of("mute"), &["--log"]);
    drop(daemon.guardian.stdout.take());
    granted(&daemon, 5, 0);
    granted(&daemon, 5, 0);
}

#[test]
fn a_daemon_whose_guardian_is_killed_puts_all_back() {
    let mut daemon = Daemon::new("guardian");
    let client = granted(&daemon, 5, 0);
    let id = thread_on(&daemon, client.cpu).to_string();
    daemon.guardian.kill().unwrap();
    daemon.guardian.wait().unwrap();
    becomes("there is no socket", || !daemon.socket.0.exists());
    becomes("it may run everywhere", || processors_of(&id) == processors_of(&std::process::id().to_string()));
    if let Some(folder) = env::var_os("ARBITER_CPUSET") {
        becomes("the sets are removed", || !PathBuf::from(&folder).join("arbiter").exists());
    }
}

#[test]
fn another_begins_where_a_daemon_was_killed_with_its_guardian() {
    let mut first = Daemon::new("both");
    let (child, path) = (first.child(), first.socket.0.clone());
    signal(child, "STOP");
    first.guardian.kill().unwrap();
    kill(child);
    first.guardian.wait().unwrap();
    becomes("nobody listens", || UnixStream::connect(&path).is_err());
    assert!(path.exists(), "nobody was left to remove it");
    std::mem::forget(first);
    let second = Daemon::at(path, &[]);
    assert_eq!(second.hello(0, 0).1[0], WELCOME);
}

#[test]
fn a_second_daemon_takes_nothing_of_the_first_one_s() {
    let daemon = Daemon::new("first");
    let client = granted(&daemon, 5, 0);
    let id = thread_on(&daemon, client.cpu).to_string();
    let second = |name| run(&path_of(name), &[]).output().unwrap().status.code();
    assert_eq!(second("first"), Some(3), "there is one at its socket");
    if env::var_os("ARBITER_CPUSET").is_some() {
        assert_eq!(second("second"), Some(3), "there is one with its cpusets");
    }
    assert_eq!(processors_of(&id), client.cpu.to_string());
    assert_eq!(daemon.hello(0, 0).1[0], WELCOME);
    assert!(is_silent(&client.control), "it is a client still");
}

#[test]
fn a_client_that_does_not_read_is_none_any_more() {
    let daemon = Daemon::new("deaf");
    let (mut control, welcome) = daemon.hello(5, 0);
    let (number, _end) = begin();
    let floats = daemon.join(welcome[1], number, 0, true);
    let all = processors_of(&number.to_string());
    // Every second request makes the daemon send the client a message, which the client doesn't read.
    for nth in 0.. {
        let asks = nth % 2 == 0;
        if !is_silent(&floats) || control.write_all(&bytes_of([ASK, asks as u32, 0, 0])).is_err() {
            break;
        }
        becomes("it is heard", || !is_silent(&floats) || (processors_of(&number.to_string()) != all) == asks);
    }
    assert_eq!(daemon.hello(0, 0).1[0], WELCOME);
}

#[test]
fn a_flood_of_one_client_keeps_no_other_from_its_core() {
    let daemon = Daemon::new("flood");
    let (mut control, welcome) = daemon.hello(5, 0);
    let mut greedy = daemon.waiting(welcome[1], 0);
    let flood = thread::spawn(move || while control.write_all(&bytes_of([ASK, 1000, 0, 0])).is_ok() {});
    let mut visitor = other("who_connects_and_asks_for_the_status_all_the_time", &daemon).spawn().unwrap();
    assert!(is_granted(&mut greedy));
    granted(&daemon, 5, 0);
    drop(daemon);
    flood.join().unwrap();
    assert!(visitor.wait().unwrap().success());
}

#[test]
#[ignore = "the test before runs it, until its daemon ends"]
fn who_connects_and_asks_for_the_status_all_the_time() {
    let (socket, mut readers) = (given().0, given().0.into_os_string());
    readers.push(".status");
    while UnixStream::connect(&socket).is_ok() && UnixStream::connect(&readers).is_ok() {}
}

#[test]
fn the_status_says_who_has_which_core_and_what_was_moved() {
    let daemon = Daemon::new("status");
    let it = granted(&daemon, 5, 1);
    let (cpu, text) = (it.cpu, status(&daemon));
    assert!(text.contains(&format!("client {}: process {}, user ", it.client, std::process::id())), "{text}");
    let rest = ", priority 5, reserved 1, asks for 1, may have 1, has 1; 1 given, 0 taken by force\n";
    assert!(text.contains(rest), "{text}");
    assert_eq!(processors_of(&thread_on(&daemon, cpu).to_string()), cpu.to_string());
    drop(it.control);
    becomes("nobody has it", || status(&daemon).contains(&format!("processor {cpu}: nobody, for ")));
}

/// Returns the id in the kernel of a new thread, and a function that ends the thread.
fn begin() -> (u32, impl FnOnce()) {
    let (ends, waits) = mpsc::channel::<()>();
    let (sender, numbers) = mpsc::channel();
    let thread = thread::spawn(move || {
        sender.send(number()).unwrap();
        let _ = waits.recv();
    });
    let end = move || {
        drop(ends);
        thread.join().unwrap();
    };
    (numbers.recv().unwrap(), end)
}

#[test]
fn a_thread_that_has_the_number_of_one_that_ended_is_not_moved() {
    let daemon = Daemon::new("number");
    let (mut control, welcome) = daemon.hello(5, 0);
    let (number, end) = begin();
    let mut thread = daemon.join(welcome[1], number, 0, false);
    send(&mut thread, [WAIT, 0, 0, 0]);
    // When this client is answered, the daemon has read all messages that were sent before.
    daemon.hello(5, 0);
    end();
    // This is longer than the hundredth of a second to which the kernel rounds the time at which a thread began.
    thread::sleep(Duration::from_millis(50));
    let again = (0..100).find_map(|_| {
        fs::write("/proc/sys/kernel/ns_last_pid", (number - 1).to_string()).ok()?;
        Some(begin()).filter(|it| it.0 == number)
    });
    let again = match again {
        Some(again) => again,
        None => return println!("skipped: no thread can be given a number"),
    };
    let before = processors_of(&number.to_string());
    send(&mut control, [ASK, 1, 0, 0]);
    assert!(receive(&mut thread).is_none(), "the thread that has ended has no core");
    assert_eq!(processors_of(&number.to_string()), before, "it runs where it ran");
    (again.1)();
}

/// A thread with a core starts more threads than the daemon checks before a decision. All must be moved off the core.
#[test]
fn all_threads_that_one_with_a_core_begins_leave_it() {
    let daemon = Daemon::new("begins");
    let (mut control, [_, client, ..]) = daemon.hello(5, 0);
    let ((tells, told), (goes, waits)) = (mpsc::channel(), mpsc::channel());
    thread::spawn(move || {
        tells.send(number()).unwrap();
        waits.recv().unwrap();
        let sleeps = move || tells.send(number()).map(|()| thread::sleep(Duration::from_secs(100)));
        let begun: Vec<_> = (0..100).map(|_| thread::spawn(sleeps.clone())).collect();
        begun.into_iter().for_each(|it| it.join().unwrap().unwrap());
    });
    let mut first = daemon.join(client, told.recv().unwrap(), 0, false);
    send(&mut first, [WAIT, 0, 0, 0]);
    send(&mut control, [ASK, 1, 0, 0]);
    assert!(is_granted(&mut first));
    goes.send(()).unwrap();
    for thread in told.iter().take(100) {
        let may = |thread: u32| processors_of(&thread.to_string());
        becomes("it may run on all processors that this thread may", || may(thread) == may(number()));
    }
}

/// A thread leaves its client after it has started another thread, which is in the same cpuset. The daemon must move
/// both threads, and remove the cpuset.
#[test]
fn the_cpuset_of_a_thread_that_has_left_is_emptied_and_removed() {
    let folder = match env::var_os("ARBITER_CPUSET") {
        Some(folder) => PathBuf::from(folder),
        None => return println!("skipped: there are no cpusets"),
    };
    let daemon = Daemon::new("left");
    let (mut control, [_, client, ..]) = daemon.hello(5, 0);
    let ((tells, told), (goes, waits)) = (mpsc::channel(), mpsc::channel());
    thread::spawn(move || {
        tells.send(number()).unwrap();
        waits.recv().unwrap();
        let sleeps = move || tells.send(number()).map(|()| thread::sleep(Duration::from_secs(100)));
        thread::spawn(sleeps).join().unwrap().unwrap();
    });
    let id = told.recv().unwrap();
    let set = folder.join(format!("arbiter/thread{id}"));
    send(&mut control, [ASK, 1, 0, 0]);
    // When the thread joins for the second time, its cpuset may not be removed yet.
    for _ in 0..2 {
        let mut thread = daemon.join(client, id, 0, false);
        send(&mut thread, [WAIT, 0, 0, 0]);
        assert!(is_granted(&mut thread));
        assert!(set.exists());
        drop(thread);
        becomes("it has left", || status(&daemon).contains(", has 0;"));
    }
    let mut thread = daemon.join(client, id, 0, false);
    send(&mut thread, [WAIT, 0, 0, 0]);
    assert!(is_granted(&mut thread));
    goes.send(()).unwrap();
    let begun = told.recv().unwrap();
    drop(thread);
    becomes("the set is removed", || !set.exists());
    let may = |thread: u32| processors_of(&thread.to_string());
    assert_eq!([may(id), may(begun)], [may(number()), may(number())]);
}

#[test]
fn a_thread_that_changes_its_affinity_leaves_its_core_only_by_affinity() {
    let daemon = Daemon::new("leaves");
    let client = granted(&daemon, 5, 0);
    let (id, cpu) = (thread_on(&daemon, client.cpu).to_string(), client.cpu.to_string());
    // The processor that is never granted is the first on which this process's first thread may run.
    let all = processors_of(&std::process::id().to_string());
    let kept = all.split(['-', ',']).next().unwrap();
    let leaves = Command::new("taskset").args(["-cp", kept, &id]).output().unwrap().status.success();
    assert_eq!(leaves, env::var_os("ARBITER_CPUSET").is_none());
    assert_eq!(processors_of(&id), if leaves { kept } else { &cpu[..] });
}

/// The daemon must let a thread that is no client's, and is kept on one processor, run on all processors again.
#[test]
fn a_thread_that_is_kept_on_one_processor_is_freed() {
    let daemon = Daemon::new("kept");
    let _client = daemon.hello(5, 0);
    let (number, _end) = begin();
    let (id, all) = (number.to_string(), || processors_of(&std::process::id().to_string()));
    let kept = Command::new("taskset").args(["-cp", &processors()[1].to_string(), &id]).output();
    assert!(kept.unwrap().status.success());
    becomes("it may run on all processors again", || processors_of(&id) == all());
}

/// Once the daemon has ended, a thread that it kept on one processor must be allowed all processors.
#[test]
fn who_was_a_client_may_run_everywhere_once_the_daemon_has_ended() {
    let all = processors_of(&std::process::id().to_string());
    let daemon = with_one_core("ended");
    let client = granted(&daemon, 5, 0);
    let id = thread_on(&daemon, client.cpu).to_string();
    assert_eq!(processors_of(&id), client.cpu.to_string());
    drop(daemon);
    assert_eq!(processors_of(&id), all);
}

#[test]
fn a_thread_of_a_container_is_found_by_its_number_there() {
    let mut unshare = Command::new("unshare");
    unshare.args(["--pid", "--fork", "--mount-proc"]);
    let begun = Command::new("unshare").args(["--pid", "--fork", "--mount-proc", "true"]).output();
    if !begun.map_or(false, |it| it.status.success()) {
        return println!("skipped: there is no PID namespace to be had");
    }
    let daemon = Daemon::new("container");
    let it = other("a_container", &daemon);
    let ends = unshare.arg(it.get_program()).args(it.get_args()).env("ARBITER_OF", &daemon.socket.0).status();
    assert!(ends.unwrap().success());
}

#[test]
#[ignore = "the test before runs it in a PID namespace of its own"]
fn a_container() {
    let socket = given();
    let it = granted(&socket, 5, 0);
    let threads = fs::read_dir("/proc/self/task").unwrap().flatten().map(|it| it.file_name().into_string().unwrap());
    assert_eq!(threads.filter(|thread| processors_of(thread) == it.cpu.to_string()).count(), 1);
    // No thread has this id in the namespace, but a thread of the daemon's namespace may have it.
    assert!(is_refused(&mut socket.join(it.client, 1 << 21, 1, false)));
}

/// The host of the virtual machine steals 20 per cent of one processor's time, and at most 10 per cent of the
/// machine's. The daemon's limit for both is 15 per cent. Meanwhile that processor's thread must run elsewhere.
#[test]
fn while_the_host_takes_a_processor_its_thread_runs_in_the_rest() {
    let host = Host::new("stat");
    let daemon = host.daemon("host");
    let client = granted(&daemon, 5, 0);
    let (id, cpu) = (thread_on(&daemon, client.cpu).to_string(), client.cpu);
    assert_eq!(processors_of(&id), cpu.to_string());
    becomes("it may run elsewhere", || {
        host.takes(20, |it| it == cpu);
        processors_of(&id) != cpu.to_string()
    });
    assert!(status(&daemon).contains("; the host takes it"));
    assert_eq!(status(&daemon).matches("has 1;").count(), 1, "the core is the client's all the same");
    becomes("it is on its core again", || {
        host.takes(0, |_| false);
        processors_of(&id) == cpu.to_string()
    });
    assert!(is_silent(&client.control), "the client is one all the time");
}

/// While the host of the virtual machine takes the whole machine, the daemon must close all connections. Until then a
/// client's thread starts other threads on its core. All these threads must then be moved off the core.
#[test]
fn while_the_host_takes_the_machine_there_are_no_clients() {
    let (host, begin) = (Host::new("machine"), Instant::now());
    let daemon = host.daemon("lifts");
    let (early, (mut control, [_, client, ..])) = (daemon.connect(), daemon.hello(5, 0));
    let ((tells, told), (goes, waits)) = (mpsc::channel(), mpsc::channel());
    thread::spawn(move || {
        tells.send(number()).unwrap();
        waits.iter().for_each(|()| {
            let tells = tells.clone();
            thread::spawn(move || tells.send(number()).map(|()| thread::sleep(Duration::from_secs(100))));
        });
        thread::sleep(Duration::from_secs(100));
    });
    let mut threads = vec![told.recv().unwrap()];
    let mut thread = daemon.join(client, threads[0], 0, false);
    send(&mut thread, [WAIT, 0, 0, 0]);
    send(&mut control, [ASK, 1, 0, 0]);
    assert!(is_granted(&mut thread));
    let begun = Cell::new(0);
    becomes("its connections end", || {
        goes.send(()).unwrap();
        begun.set(begun.get() + 1);
        host.takes(20, |_| true);
        !is_silent(&control)
    });
    assert!(receive(&mut control).is_none() && receive(&mut thread).is_none());
    assert!(status(&daemon).starts_with("the host has taken the machine: nothing is granted until "));
    assert!([early, daemon.connect()].iter_mut().all(|it| receive(it).is_none()), "nobody comes");
    threads.extend(told.iter().take(begun.get()));
    for thread in threads {
        let may = |thread: u32| processors_of(&thread.to_string());
        becomes("it may run everywhere", || may(thread) == may(number()));
    }
    becomes("clients come again", || {
        host.takes(5, |_| true);
        comes(&daemon)
    });
    assert!(begin.elapsed() >= Duration::from_secs(5), "it was calm for five seconds");
    granted(&daemon, 5, 0);
}

/// The daemon must write the processors for threads without a core to a control group, here a folder with a plain file.
#[test]
fn groups_of_version_2_get_the_processors_of_the_rest() {
    let group = path_of("group");
    fs::create_dir(&group).unwrap();
    let processors = || fs::read_to_string(group.join("cpuset.cpus")).unwrap();
    fs::write(group.join("cpuset.cpus"), "").unwrap();
    let daemon = Daemon::at(path_of("rest"), &["--rest", group.to_str().unwrap()]);
    let has = |cpu: u32| processors().split(',').any(|it| it == cpu.to_string());
    let client = granted(&daemon, 5, 0);
    // The daemon sends the grant first. The file is empty for a moment while it is written.
    becomes("it is kept from the group", || !processors().is_empty() && !has(client.cpu));
    drop(client.control);
    becomes("it is of the rest again", || has(client.cpu));
    drop(daemon);
    assert_eq!(processors(), "\n");
    fs::remove_dir_all(&group).unwrap();
}

#[test]
fn a_user_who_is_not_trusted_has_low_priorities_no_reserve_and_few_clients() {
    if fs::metadata("/proc/self").unwrap().uid() != 0 {
        return println!("skipped: only root can become another user");
    }
    let daemon = Daemon::at(path_of("stranger"), &["--open"]);
    assert!(other("a_stranger", &daemon).uid(65534).status().unwrap().success());
    assert_eq!(daemon.hello(0, 1).1[0], WELCOME);
}

/// The daemon must refuse an untrusted process whose cpuset is beside the daemon's own, but not one whose cpuset
/// contains the daemon's.
#[test]
fn a_user_who_is_not_trusted_leaves_no_cpuset() {
    let folder = match env::var_os("ARBITER_CPUSET") {
        Some(folder) => PathBuf::from(folder),
        None => return println!("skipped: there are no cpusets"),
    };
    let (daemon, beside) = (Daemon::at(path_of("beside"), &["--open"]), folder.with_extension("beside"));
    fs::create_dir(&beside).unwrap();
    for file in ["cpuset.cpus", "cpuset.mems"] {
        fs::write(beside.join(file), fs::read(folder.join(file)).unwrap()).unwrap();
    }
    for (set, answer) in [(beside.as_path(), REFUSED), (folder.parent().unwrap(), WELCOME), (&*folder, WELCOME)] {
        let mut child = other("who_says_hello", &daemon).uid(65534).stdin(Stdio::piped()).spawn().unwrap();
        fs::write(set.join("cgroup.procs"), child.id().to_string()).unwrap();
        child.stdin.take().unwrap().write_all(&[answer as u8]).unwrap();
        assert!(child.wait().unwrap().success(), "{}", set.display());
    }
    becomes("the set is removed", || fs::remove_dir(&beside).is_ok());
}

#[test]
#[ignore = "the test before runs it as another user"]
fn who_says_hello() {
    let mut answer = [0];
    std::io::stdin().read_exact(&mut answer).unwrap();
    assert_eq!(given().hello(5, 0).1[0], answer[0] as u32);
}

#[test]
#[ignore = "a test above runs it as another user"]
fn a_stranger() {
    let socket = given();
    assert_eq!(socket.hello(3, 0).1[0], REFUSED);
    assert_eq!(socket.hello(4, 1).1[0], REFUSED);
    let clients: Vec<_> = (0..20).map(|_| socket.hello(4, 0)).collect();
    assert_eq!(clients.iter().filter(|(_, answer)| answer[0] == WELCOME).count(), 16);
}

#[repr(C)]
struct Address {
    family: u16,
    path: [u8; 108],
}

extern "C" {
    fn socket(domain: i32, kind: i32, protocol: i32) -> i32;
    fn connect(fd: i32, address: &Address, len: u32) -> i32;
}

/// Starts a process that connects two sockets of this process to the daemon before it runs `command`.
fn connects(command: &mut Command, daemon: &Socket) -> (Child, [UnixStream; 2]) {
    let mut address = Address { family: 1, path: [0; 108] };
    let path = daemon.0.as_os_str().as_bytes();
    address.path[..path.len()].copy_from_slice(path);
    // SAFETY: the descriptors are new, and nobody else has them.
    let streams = [0; 2].map(|_| unsafe { UnixStream::from_raw_fd(socket(1, 1, 0)) });
    streams.iter().for_each(|stream| stream.set_read_timeout(Some(Duration::from_secs(60))).unwrap());
    let fds = [streams[0].as_raw_fd(), streams[1].as_raw_fd()];
    // SAFETY: the address lives through the call, and its length is that of the struct.
    let connect_all = move || match fds.iter().all(|&fd| unsafe { connect(fd, &address, 110) } == 0) {
        true => Ok(()),
        false => Err(std::io::Error::last_os_error()),
    };
    // SAFETY: between the fork and the program, `connect_all` makes only calls of the system.
    let child = unsafe { command.pre_exec(connect_all) }.spawn().unwrap();
    (child, streams)
}

/// The daemon must refuse messages on a connection of an untrusted process that has ended, even if a process of root
/// has its id now.
#[test]
fn who_has_the_number_of_another_user_s_process_is_not_taken_for_it() {
    if fs::metadata("/proc/self").unwrap().uid() != 0 {
        return println!("skipped: only root can become another user");
    }
    let daemon = Daemon::at(path_of("reused"), &["--open"]);
    let (mut ended, [mut control, mut thread]) = connects(Command::new("true").uid(65534), &daemon);
    ended.wait().unwrap();
    let number = ended.id();
    let again = (0..100).find_map(|_| {
        fs::write("/proc/sys/kernel/ns_last_pid", (number - 1).to_string()).ok()?;
        let (mut child, streams) = connects(Command::new("sleep").arg("100"), &daemon);
        if child.id() != number {
            child.kill().unwrap();
            child.wait().unwrap();
        }
        (child.id() == number).then_some((child, streams))
    });
    let (mut child, [mut of_root, _stream]) = match again {
        Some(again) => again,
        None => return println!("skipped: no process can be given a number"),
    };
    send(&mut control, [HELLO, VERSION, 5, 64]);
    assert!(is_refused(&mut control), "it would be the other process's client");
    send(&mut of_root, [HELLO, VERSION, 5, 64]);
    let [welcome, client, ..] = receive(&mut of_root).unwrap();
    assert_eq!(welcome, WELCOME);
    send(&mut thread, [JOIN, client, number, 1]);
    assert!(is_refused(&mut thread), "it would be a thread of the other process's client");
    child.kill().unwrap();
    child.wait().unwrap();
}

#[repr(C)]
struct Piece<'a> {
    bytes: &'a mut [u8; SIZE],
    len: usize,
}

#[repr(C)]
struct Rights {
    len: usize,
    level: i32,
    kind: i32,
    fd: i32,
}

#[repr(C)]
struct Header<'a> {
    name: usize,
    name_len: u32,
    pieces: &'a mut Piece<'a>,
    count: usize,
    rights: &'a mut Rights,
    rights_len: usize,
    flags: i32,
}

extern "C" {
    fn recvmsg(fd: i32, header: &mut Header, flags: i32) -> isize;
}

fn receive_with(stream: &UnixStream) -> fs::File {
    let (mut bytes, mut rights) = ([0; SIZE], Rights { len: 0, level: 0, kind: 0, fd: -1 });
    let mut piece = Piece { bytes: &mut bytes, len: SIZE };
    let mut header =
        Header { name: 0, name_len: 0, pieces: &mut piece, count: 1, rights: &mut rights, rights_len: 24, flags: 0 };
    // SAFETY: the header is that of Linux's C library on 64 bits, and it and what it names live through the call.
    assert_eq!(unsafe { recvmsg(stream.as_raw_fd(), &mut header, 0) }, SIZE as isize);
    assert_eq!((rights.level, rights.kind), (1, 1));
    // SAFETY: the descriptor was made by the call above, and nobody else has it.
    unsafe { fs::File::from_raw_fd(rights.fd) }
}
