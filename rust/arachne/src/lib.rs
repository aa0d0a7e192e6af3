//! An executor for futures on the proved core `arachne_exec`.
//!
//! ```
//! let runtime = arachne::Runtime::new(4);
//! let task = runtime.spawn(async { 6 * 7 });
//! assert_eq!(runtime.block_on(task).unwrap(), 42);
//! ```
//!
//! A server that echoes:
//!
//! ```no_run
//! use arachne::net::{TcpListener, TcpStream};
//!
//! async fn echo(stream: TcpStream) -> std::io::Result<()> {
//!     let mut buffer = [0; 4096];
//!     loop {
//!         match stream.read(&mut buffer).await? {
//!             0 => return Ok(()),
//!             len => stream.write_all(&buffer[..len]).await?,
//!         }
//!     }
//! }
//!
//! fn main() -> std::io::Result<()> {
//!     let listener = TcpListener::bind("127.0.0.1:7000")?;
//!     arachne::Runtime::new(arachne::available_cores()).block_on(async {
//!         loop {
//!             arachne::spawn_balanced(echo(listener.accept().await?.0));
//!         }
//!     })
//! }
//! ```
//!
//! The library `arachne_exec`, which has the table of tasks and their states, is proved. No two workers run one task at
//! the same time. A waker of a task that has ended wakes no other task. While no call of the library is in progress,
//! the workers can find every ready task that none of them has taken.
//!
//! The rest of this crate is tested, but not proved. The proofs apply to a program only if it uses no waker in a signal
//! handler, or in a child process after `fork`; see `docs/rust.md`.
//!
//! Most names are those of tokio or std. The crate needs 64-bit Linux, and rustc 1.63 or later. Outside of a runtime
//! (of its tasks, `block_on` and `enter`), `spawn` and `sleep` panic, and a socket that has to wait returns an error.
//!
//! | Feature | Meaning |
//! |---|---|
//! | (none) | links the proved core: the archives in the folder above the crate, or in that of `ARACHNE_LIBS` |
//! | `model` | the core's steps written by hand instead: needs no archive, and is **not** the proved code |
//! | `tokio-io` | tokio's `AsyncRead` and `AsyncWrite` for `net::TcpStream` and `net::UnixStream` |
//! | `futures-io` | the traits of futures-io for the same types |

#![cfg(all(target_os = "linux", target_pointer_width = "64"))]
#![deny(missing_docs)]
#![warn(missing_debug_implementations)]

mod arbiter;
mod block_on;
mod blocking;
mod channel;
mod core;
mod cores;
mod drain;
mod hand;
mod handle;
mod interval;
mod join_set;
mod lock;
pub mod net;
mod observe;
mod reactor;
mod runtime;
mod semaphore;
mod shared;
mod spawn;
mod sync;
mod sys;
mod task;
mod timer;
mod waker;
mod watch;
mod worker;

pub use block_on::{block_on, poll_fn, yield_now, PollFn, Yield};
pub use blocking::spawn_blocking;
pub use channel::{channel, Receiver, Recv, SendError, Sender, Sending};
pub use cores::{available_cores, Policy};
pub use drain::{is_stopping, stopping, Ended, Limit, Signal, Stopping, Ticket};
pub use handle::Handle;
pub use interval::{interval, interval_at, Interval, MissedTickBehavior};
pub use join_set::JoinSet;
pub use lock::{Guard, Lock, Locking};
pub use observe::{Doing, Hooks, TaskInfo};
pub use runtime::{Builder, Runtime, Stats, WorkerStats};
pub use semaphore::{Acquire, AcquireError, OwnedSemaphorePermit, Semaphore, SemaphorePermit, TryAcquireError};
#[cfg(feature = "explore")]
pub use shared::{forget_runtimes, forget_thread, set_active};
pub use spawn::{spawn, spawn_background, spawn_balanced, spawn_named, try_spawn, Refused};
pub use task::{AbortHandle, About, JoinError, JoinHandle, Label, Panic};
pub use timer::{sleep, sleep_until, timeout, Elapsed, Sleep, Timeout};
