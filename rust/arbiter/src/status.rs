//! The command `status`: prints the text that the daemon writes to each connection of its second socket.

use std::io::{self, Read};
use std::os::unix::net::UnixStream;
use std::path::{Path, PathBuf};

/// Returns the path of the status socket of the daemon at `socket`.
pub fn path_of(socket: &Path) -> PathBuf {
    let mut path = socket.as_os_str().to_owned();
    path.push(".status");
    path.into()
}

pub fn print(socket: &Path) -> io::Result<()> {
    let mut text = String::new();
    UnixStream::connect(path_of(socket))?.read_to_string(&mut text)?;
    print!("{text}");
    Ok(())
}
