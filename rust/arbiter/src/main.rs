//! A daemon that grants whole cores to processes. `docs/arbiter.md` and the page arachne-arbiter(8) describe it.

mod daemon;
mod host;
mod means;
mod options;
mod status;
mod sys;
mod threads;
mod topology;

use means::Means;
use options::Options;
use std::fs;
use std::io::{self, ErrorKind};
use std::os::unix::fs::{FileTypeExt, PermissionsExt};
use std::os::unix::net::{UnixListener, UnixStream};
use std::path::Path;
use std::process::Command;
use std::sync::atomic::Ordering::*;
use std::time::Duration;

const USAGE: &str =
    "arachne-arbiter run SOCKET [--cpuset FOLDER [--sweep] | --rest GROUP..] [--cores LIST] [--keep N] \
                     [--hyperthreads] [--turn MILLISECONDS] [--open] [--log]\narachne-arbiter status SOCKET";

/// The exit status if another daemon uses the socket or the cpusets.
const THERE_IS_ONE: i32 = 3;

fn main() {
    let mut words = std::env::args().skip(1);
    let options = match words.next().as_deref() {
        Some("run") => Options::read(words),
        Some("status") => match words.next() {
            Some(socket) => return status::print(socket.as_ref()).unwrap_or_else(fails),
            None => None,
        },
        _ => None,
    };
    guard(&options.unwrap_or_else(|| {
        eprintln!("{USAGE}");
        std::process::exit(2)
    }))
}

/// Runs the daemon as a child process. If the daemon dies, lets all threads run on all processors again.
fn guard(options: &Options) {
    sys::hear_ends();
    if std::env::var_os("ARBITER_SERVES").is_some() {
        return serve(options).unwrap_or_else(fails);
    }
    let itself = std::env::current_exe()
        .and_then(|path| Command::new(path).args(std::env::args_os().skip(1)).env("ARBITER_SERVES", "1").spawn());
    let mut child = itself.unwrap_or_else(fails);
    let mut ended = false;
    let status = loop {
        match child.try_wait() {
            Ok(None) => std::thread::sleep(Duration::from_millis(20)),
            Ok(Some(status)) => break status.code().unwrap_or(1),
            Err(error) => fails(error),
        }
        if sys::ENDS.load(SeqCst) && !std::mem::replace(&mut ended, true) {
            sys::terminate(child.id());
        }
    };
    // A daemon that ended has put all back. If there is another daemon, it owns the socket or the cpusets.
    if ![0, THERE_IS_ONE].contains(&status) {
        put_back(options);
    }
    std::process::exit(status);
}

/// Removes the sockets and the cpusets, and lets all threads run on all processors again.
fn put_back(options: &Options) {
    remove_socket(&options.socket);
    remove_socket(&status::path_of(&options.socket));
    if let Some(folder) = &options.cpuset {
        // Another daemon that has begun since then has removed these cpusets, and has its own.
        if let Ok(_lock) = means::lock(folder) {
            means::restore(folder);
        }
    }
    means::release_groups(&options.groups);
}

fn remove_socket(path: &Path) {
    if fs::symlink_metadata(path).map_or(false, |it| it.file_type().is_socket()) {
        let _ = fs::remove_file(path);
    }
}

fn serve(options: &Options) -> io::Result<()> {
    sys::end_with_parent();
    // A daemon that died may have left the socket. If a daemon is alive there, it accepts this connection.
    if UnixStream::connect(&options.socket).is_ok() {
        return Err(io::Error::new(ErrorKind::AddrInUse, "there is one already"));
    }
    let lock = options.cpuset.as_deref().map(means::lock).transpose()?;
    let means = Means::new(options.cpuset.as_deref(), &options.groups, &options.cpus)?;
    let (clients, readers) = (listen(&options.socket, options)?, listen(&status::path_of(&options.socket), options)?);
    means.arrivals(std::process::id()).for_each(|thread| means.admit(thread));
    if options.sweep {
        sys::print(format_args!("swept {}", means.sweep()));
    }
    sys::go_first();
    let mut arbiter = daemon::Arbiter::new(options, means, clients, readers)?;
    sys::print(format_args!("ready"));
    arbiter.run();
    drop(lock);
    put_back(options);
    Ok(())
}

fn listen(path: &Path, options: &Options) -> io::Result<UnixListener> {
    remove_socket(path);
    let listener = UnixListener::bind(path)?;
    fs::set_permissions(path, fs::Permissions::from_mode(if options.open { 0o666 } else { 0o600 }))?;
    listener.set_nonblocking(true)?;
    Ok(listener)
}

fn fails<T>(error: io::Error) -> T {
    eprintln!("arachne-arbiter: {error}");
    std::process::exit(if error.kind() == ErrorKind::AddrInUse { THERE_IS_ONE } else { 1 })
}
