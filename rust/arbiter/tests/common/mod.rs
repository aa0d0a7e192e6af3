//! Starts a daemon for a test, and exchanges messages with it as a client does.
#![allow(dead_code)]

use arbiter::protocol::*;
use std::cell::RefCell;
use std::env;
use std::fs;
use std::io::{ErrorKind, Read, Write};
use std::ops::Deref;
use std::os::unix::net::UnixStream;
use std::path::{Path, PathBuf};
use std::process::{Child, Command, Stdio};
use std::sync::mpsc;
use std::thread;
use std::time::{Duration, Instant};

/// A test fails if something that it waits for takes longer than this, even on a busy machine.
const PATIENCE: Duration = Duration::from_secs(60);

pub struct Socket(pub PathBuf);

impl Socket {
    pub fn connect(&self) -> UnixStream {
        let stream = UnixStream::connect(&self.0).unwrap();
        stream.set_read_timeout(Some(PATIENCE)).unwrap();
        stream
    }

    pub fn hello(&self, priority: u32, least: u32) -> (UnixStream, [u32; 4]) {
        let mut stream = self.connect();
        send(&mut stream, [HELLO, VERSION, priority, least << 16 | 64]);
        let answer = receive(&mut stream).unwrap();
        (stream, answer)
    }

    /// Starts a kernel thread that lives as long as this test, registers it, and returns its connection.
    pub fn thread(&self, client: u32, place: u32, floats: bool) -> UnixStream {
        let (sender, numbers) = mpsc::channel();
        thread::spawn(move || {
            sender.send(number()).unwrap();
            loop {
                thread::sleep(Duration::from_secs(100));
            }
        });
        self.join(client, numbers.recv().unwrap(), place, floats)
    }

    pub fn join(&self, client: u32, thread: u32, place: u32, floats: bool) -> UnixStream {
        let mut stream = self.connect();
        send(&mut stream, [JOIN, client, thread, place << 1 | floats as u32]);
        stream
    }

    pub fn waiting(&self, client: u32, place: u32) -> UnixStream {
        let mut stream = self.thread(client, place, false);
        send(&mut stream, [WAIT, 0, 0, 0]);
        stream
    }
}

pub fn number() -> u32 {
    let link = fs::read_link("/proc/thread-self").unwrap();
    link.file_name().unwrap().to_str().unwrap().parse().unwrap()
}

/// The daemon is a child of the process that the test starts (the guardian).
pub struct Daemon {
    pub guardian: Child,
    pub socket: Socket,
}

impl Deref for Daemon {
    type Target = Socket;

    fn deref(&self) -> &Socket {
        &self.socket
    }
}

impl Daemon {
    pub fn new(name: &str) -> Daemon {
        Daemon::at(path_of(name), &[])
    }

    pub fn at(path: PathBuf, words: &[&str]) -> Daemon {
        Daemon::begun(run(&path, words), path)
    }

    pub fn begun(mut command: Command, path: PathBuf) -> Daemon {
        let mut guardian = command.stdout(Stdio::piped()).spawn().unwrap();
        let mut line = [0; 6];
        guardian.stdout.as_mut().unwrap().read_exact(&mut line).unwrap();
        assert_eq!(&line, b"ready\n");
        Daemon { guardian, socket: Socket(path) }
    }

    pub fn child(&self) -> u32 {
        let id = self.guardian.id();
        fs::read_to_string(format!("/proc/{id}/task/{id}/children")).unwrap().trim().parse().unwrap()
    }

    /// Stops the daemon while `f` runs. When the daemon goes on, all messages that `f` sent have arrived.
    pub fn while_it_stands(&self, f: impl FnOnce()) {
        let child = self.child();
        signal(child, "STOP");
        let state = || fs::read_to_string(format!("/proc/{child}/stat")).unwrap();
        becomes("the daemon stands", || state().rsplit_once(") ").unwrap().1.starts_with('T'));
        f();
        signal(child, "CONT");
    }
}

impl Drop for Daemon {
    fn drop(&mut self) {
        if self.guardian.try_wait().unwrap().is_none() {
            signal(self.guardian.id(), "TERM");
            let _ = self.guardian.wait();
        }
        assert!(thread::panicking() || !self.socket.0.exists(), "the socket is removed");
    }
}

/// Returns the command that starts a daemon, which uses cpusets if ARBITER_CPUSET names a folder and `words` have no
/// `--rest`. The daemon ignores hyperthreads, and processors that the host of this machine takes.
pub fn run(path: &Path, words: &[&str]) -> Command {
    let mut command = Command::new(program());
    command.arg("run").arg(path).args(words).env("ARBITER_STAT", "/dev/null").env("ARBITER_TOPOLOGY", "/dev/null");
    if let (Some(folder), false) = (env::var_os("ARBITER_CPUSET"), words.contains(&"--rest")) {
        command.arg("--cpuset").arg(folder);
    }
    command
}

/// Plays the host of a virtual machine. A daemon reads the stolen time from `file`, and not from the kernel.
pub struct Host {
    file: PathBuf,
    /// The hundredths of a second since the machine began, and those that the host has taken of each processor.
    times: RefCell<(u64, Vec<u64>)>,
}

impl Host {
    pub fn new(name: &str) -> Host {
        let host = Host { file: path_of(name), times: RefCell::new((100, vec![0; 1024])) };
        host.takes(0, |_| false);
        host
    }

    pub fn daemon(&self, name: &str) -> Daemon {
        let path = path_of(name);
        let mut command = run(&path, &[]);
        command.env("ARBITER_STAT", &self.file);
        Daemon::begun(command, path)
    }

    /// Adds a second to the times, of which the host takes `share` per cent on the processors for which `is_one` is
    /// true.
    pub fn takes(&self, share: u64, is_one: impl Fn(u32) -> bool) {
        let (all, stolen) = &mut *self.times.borrow_mut();
        *all += 100;
        (0..).zip(&mut *stolen).filter(|(cpu, _)| is_one(*cpu)).for_each(|(_, stolen)| *stolen += share);
        let line = |(cpu, stolen): (usize, &u64)| format!("cpu{cpu} {} 0 0 0 0 0 0 {stolen} 0 0\n", *all - stolen);
        // The file changes in one step, like the kernel's.
        let next = self.file.with_extension("next");
        fs::write(&next, stolen.iter().enumerate().map(line).collect::<String>()).unwrap();
        fs::rename(next, &self.file).unwrap();
        thread::sleep(Duration::from_millis(20));
    }
}

impl Drop for Host {
    fn drop(&mut self) {
        let _ = fs::remove_file(&self.file);
    }
}

pub fn path_of(name: &str) -> PathBuf {
    env::temp_dir().join(format!("arbiter-test-{}-{name}", std::process::id()))
}

pub fn signal(process: u32, name: &str) {
    let sent = Command::new("kill").args([&format!("-{name}"), &process.to_string()]).status();
    assert!(sent.unwrap().success() || thread::panicking());
}

pub fn kill(process: u32) {
    let _ = Command::new("kill").args(["-9", &process.to_string()]).status();
}

pub fn send(stream: &mut UnixStream, words: [u32; 4]) {
    stream.write_all(&bytes_of(words)).unwrap();
}

pub fn receive(stream: &mut UnixStream) -> Option<[u32; 4]> {
    let mut bytes = [0; SIZE];
    match stream.read_exact(&mut bytes) {
        Ok(()) => Some(words_of(&bytes)),
        Err(error) => {
            assert!(!matches!(error.kind(), ErrorKind::WouldBlock | ErrorKind::TimedOut), "nothing comes");
            None
        }
    }
}

pub fn is_silent(stream: &UnixStream) -> bool {
    stream.set_nonblocking(true).unwrap();
    let read = { stream }.read(&mut [0]);
    stream.set_nonblocking(false).unwrap();
    matches!(read, Err(error) if error.kind() == ErrorKind::WouldBlock)
}

pub fn program() -> String {
    option_env!("CARGO_BIN_EXE_arachne-arbiter").map_or_else(|| env::var("ARBITER").unwrap(), str::to_string)
}

pub fn status(socket: &Socket) -> String {
    let output = Command::new(program()).arg("status").arg(&socket.0).output().unwrap();
    assert!(output.status.success());
    String::from_utf8(output.stdout).unwrap()
}

pub fn thread_on(socket: &Socket, cpu: u32) -> u32 {
    let (text, begin) = (status(socket), format!("processor {cpu}: client "));
    let line = text.lines().find_map(|line| line.strip_prefix(&*begin)).unwrap();
    line.split([' ', ',']).nth(3).unwrap().parse().unwrap()
}

pub fn processors_of(thread: &str) -> String {
    processors_of_process(&format!("self/task/{thread}"))
}

pub fn processors_of_process(process: &str) -> String {
    let text = fs::read_to_string(format!("/proc/{process}/status")).unwrap();
    text.lines().find_map(|line| line.strip_prefix("Cpus_allowed_list:")).unwrap().trim().into()
}

pub fn becomes(what: &str, is_so: impl Fn() -> bool) {
    let end = Instant::now() + PATIENCE;
    while !is_so() {
        assert!(Instant::now() < end, "never: {what}");
        thread::sleep(Duration::from_millis(1));
    }
}

/// Returns the command that runs one of this file's ignored tests as a process of its own.
pub fn other(name: &str, socket: &Socket) -> Command {
    let mut command = Command::new(env::current_exe().unwrap());
    command.args(["--exact", name, "--ignored", "--nocapture"]).env("ARBITER_OF", &socket.0).stdout(Stdio::piped());
    command
}

pub fn given() -> Socket {
    Socket(env::var_os("ARBITER_OF").unwrap().into())
}
