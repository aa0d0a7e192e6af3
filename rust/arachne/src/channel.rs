//! A bounded channel: a sender waits while the channel is full. Both ends of the channel may be cloned.

use crate::reactor::Slot;
use crate::shared::here;
use crate::sync::atomic::{AtomicBool, Ordering::*};
use crate::sync::{Arc, Mutex};
use std::collections::VecDeque;
use std::fmt;
use std::future::Future;
use std::pin::Pin;
use std::task::{Context, Poll, Waker};

struct Node {
    /// True if this waiter was removed from its queue because its turn has come.
    called: AtomicBool,
    slot: Slot,
}

impl Node {
    fn new(waker: &Waker) -> Arc<Node> {
        let table = here().map_or(usize::MAX, |shared| shared.table);
        let node = Arc::new(Node { called: AtomicBool::new(false), slot: Slot::new(table) });
        node.slot.set(waker);
        node
    }
}

struct State<T> {
    values: VecDeque<T>,
    room: usize,
    senders: usize,
    receivers: usize,
    sending: VecDeque<Arc<Node>>,
    receiving: VecDeque<Arc<Node>>,
}

impl<T> State<T> {
    fn next_sender(&mut self) -> Option<Arc<Node>> {
        call(&mut self.sending)
    }

    fn next_receiver(&mut self) -> Option<Arc<Node>> {
        call(&mut self.receiving)
    }
}

fn call(line: &mut VecDeque<Arc<Node>>) -> Option<Arc<Node>> {
    let node = line.pop_front()?;
    node.called.store(true, SeqCst);
    Some(node)
}

fn wake(node: Option<Arc<Node>>) {
    if let Some(node) = node {
        node.slot.wake();
    }
}

/// Removes a waiter that stops waiting. If it was called already, the next waiter is called, and returned to be woken.
fn leave(line: &mut VecDeque<Arc<Node>>, node: &Arc<Node>) -> Option<Arc<Node>> {
    match line.iter().position(|other| Arc::ptr_eq(other, node)) {
        Some(at) => {
            line.remove(at);
            None
        }
        None => call(line),
    }
}

/// The error of `Sender::try_send`, with the value that was not sent.
///
/// ```
/// let (sender, receiver) = arachne::channel(1);
/// assert_eq!(sender.try_send(1), Ok(()));
/// assert_eq!(sender.try_send(2), Err(arachne::SendError::Full(2)));
/// drop(receiver);
/// assert_eq!(sender.try_send(3), Err(arachne::SendError::Closed(3)));
/// ```
#[derive(Clone, Copy, PartialEq, Eq)]
pub enum SendError<T> {
    /// All receivers are gone.
    Closed(T),
    /// The channel is full.
    Full(T),
}

impl<T> fmt::Debug for SendError<T> {
    fn fmt(&self, f: &mut fmt::Formatter<'_>) -> fmt::Result {
        f.write_str(match self {
            SendError::Closed(_) => "Closed(..)",
            SendError::Full(_) => "Full(..)",
        })
    }
}
impl<T> fmt::Display for SendError<T> {
    fn fmt(&self, f: &mut fmt::Formatter<'_>) -> fmt::Result {
        f.write_str(match self {
            SendError::Closed(_) => "the channel's receivers are gone",
            SendError::Full(_) => "the channel is full",
        })
    }
}
impl<T> std::error::Error for SendError<T> {}

/// The sending end of a `channel`, which may be cloned.
///
/// ```
/// let (sender, receiver) = arachne::channel(2);
/// let other: arachne::Sender<u32> = sender.clone();
/// sender.try_send(1).unwrap();
/// other.try_send(2).unwrap();
/// assert_eq!(receiver.len(), 2);
/// ```
pub struct Sender<T>(Arc<Mutex<State<T>>>);

/// The receiving end of a `channel`, which may be cloned. Each value goes to one of the receivers.
///
/// ```
/// let (sender, receiver) = arachne::channel(2);
/// let other: arachne::Receiver<u32> = receiver.clone();
/// sender.try_send(1).unwrap();
/// assert_eq!((other.try_recv(), receiver.try_recv()), (Some(1), None));
/// assert!(receiver.is_empty());
/// ```
pub struct Receiver<T>(Arc<Mutex<State<T>>>);

/// Returns the two ends of a channel that holds at most `room` values (at least 1; with `usize::MAX` it is never full).
///
/// ```
/// let (sender, receiver) = arachne::channel(16);
/// let runtime = arachne::Runtime::new(2);
/// runtime.spawn(async move {
///     for n in 1..=3 {
///         sender.send(n).await.expect("a receiver");
///     }
/// });
/// let sum = runtime.block_on(async {
///     let mut sum = 0;
///     while let Some(n) = receiver.recv().await {
///         sum += n;
///     }
///     sum
/// });
/// assert_eq!(sum, 6);
/// ```
#[must_use]
pub fn channel<T>(room: usize) -> (Sender<T>, Receiver<T>) {
    let state = State {
        values: VecDeque::new(),
        room: room.max(1),
        senders: 1,
        receivers: 1,
        sending: VecDeque::new(),
        receiving: VecDeque::new(),
    };
    let state = Arc::new(Mutex::new(state));
    (Sender(state.clone()), Receiver(state))
}

impl<T> fmt::Debug for Sender<T> {
    fn fmt(&self, f: &mut fmt::Formatter<'_>) -> fmt::Result {
        f.write_str("Sender")
    }
}
impl<T> fmt::Debug for Receiver<T> {
    fn fmt(&self, f: &mut fmt::Formatter<'_>) -> fmt::Result {
        f.write_str("Receiver")
    }
}

impl<T> Sender<T> {
    /// Sends `value` once there is room. If all receivers are gone, the error is the value; `SendError::Closed` makes a
    /// `std::error::Error` of it.
    ///
    /// If the future is dropped before it is ready, the value is not sent.
    ///
    /// ```
    /// let (sender, receiver) = arachne::channel(1);
    /// arachne::block_on(sender.send(1)).unwrap();
    /// drop(receiver);
    /// assert_eq!(arachne::block_on(sender.send(2)), Err(2));
    /// ```
    pub fn send(&self, value: T) -> Sending<'_, T> {
        Sending { channel: &self.0, value: Some(value), node: None }
    }

    /// Sends `value` if there is room now; see the example at `SendError`.
    pub fn try_send(&self, value: T) -> Result<(), SendError<T>> {
        let mut state = self.0.lock().unwrap();
        if state.receivers == 0 {
            return Err(SendError::Closed(value));
        }
        if state.values.len() == state.room {
            return Err(SendError::Full(value));
        }
        state.values.push_back(value);
        let next = state.next_receiver();
        drop(state);
        wake(next);
        Ok(())
    }
}

impl<T> Receiver<T> {
    /// Waits for the next value; returns None if all senders are gone and the channel is empty.
    ///
    /// ```
    /// let (sender, receiver) = arachne::channel(1);
    /// sender.try_send(1).unwrap();
    /// drop(sender);
    /// assert_eq!(arachne::block_on(receiver.recv()), Some(1));
    /// assert_eq!(arachne::block_on(receiver.recv()), None);
    /// ```
    pub fn recv(&self) -> Recv<'_, T> {
        Recv { channel: &self.0, node: None }
    }

    /// Takes the next value if there is one, or returns None; see the example at `Receiver`.
    #[must_use]
    pub fn try_recv(&self) -> Option<T> {
        let mut state = self.0.lock().unwrap();
        let value = state.values.pop_front()?;
        let next = state.next_sender();
        drop(state);
        wake(next);
        Some(value)
    }

    /// Returns the number of values that wait to be received; see the example at `Sender`.
    #[must_use]
    pub fn len(&self) -> usize {
        self.0.lock().unwrap().values.len()
    }

    /// Returns true if no value waits to be received; see the example at `Receiver`.
    #[must_use]
    pub fn is_empty(&self) -> bool {
        self.len() == 0
    }
}

/// The future of `Sender::send`.
///
/// ```
/// let (sender, receiver) = arachne::channel(1);
/// let sends: arachne::Sending<'_, u32> = sender.send(42);
/// assert_eq!(receiver.try_recv(), None);      // nothing is sent before it is awaited
/// arachne::block_on(sends).unwrap();
/// assert_eq!(receiver.try_recv(), Some(42));
/// ```
#[must_use = "a value is sent once its future is awaited"]
pub struct Sending<'a, T> {
    channel: &'a Mutex<State<T>>,
    value: Option<T>,
    node: Option<Arc<Node>>,
}
impl<T> Unpin for Sending<'_, T> {}

impl<T> fmt::Debug for Sending<'_, T> {
    fn fmt(&self, f: &mut fmt::Formatter<'_>) -> fmt::Result {
        f.write_str("Sending")
    }
}

impl<T> Future for Sending<'_, T> {
    type Output = Result<(), T>;
    fn poll(mut self: Pin<&mut Self>, cx: &mut Context<'_>) -> Poll<Result<(), T>> {
        let channel = self.channel;
        let mut state = channel.lock().unwrap();
        if let Some(node) = &self.node {
            if !node.called.load(SeqCst) && state.receivers != 0 {
                node.slot.set(cx.waker());
                return Poll::Pending;
            }
        }
        let called = self.node.take().is_some();
        let value = self.value.take().expect("polled after it was ready");
        if state.receivers == 0 {
            return Poll::Ready(Err(value));
        }
        if state.values.len() < state.room {
            state.values.push_back(value);
            let next = state.next_receiver();
            drop(state);
            wake(next);
            return Poll::Ready(Ok(()));
        }
        let node = Node::new(cx.waker());
        if called {
            state.sending.push_front(node.clone());
        } else {
            state.sending.push_back(node.clone());
        }
        drop(state);
        (self.value, self.node) = (Some(value), Some(node));
        Poll::Pending
    }
}

impl<T> Drop for Sending<'_, T> {
    fn drop(&mut self) {
        if let Some(node) = self.node.take() {
            let next = leave(&mut self.channel.lock().unwrap().sending, &node);
            wake(next);
        }
    }
}

/// The future of `Receiver::recv`.
///
/// ```
/// let (sender, receiver) = arachne::channel(1);
/// let next: arachne::Recv<'_, u32> = receiver.recv();
/// sender.try_send(42).unwrap();
/// assert_eq!(arachne::block_on(next), Some(42));
/// ```
#[must_use = "a value is received once its future is awaited"]
pub struct Recv<'a, T> {
    channel: &'a Mutex<State<T>>,
    node: Option<Arc<Node>>,
}

impl<T> fmt::Debug for Recv<'_, T> {
    fn fmt(&self, f: &mut fmt::Formatter<'_>) -> fmt::Result {
        f.write_str("Recv")
    }
}

impl<T> Future for Recv<'_, T> {
    type Output = Option<T>;
    fn poll(mut self: Pin<&mut Self>, cx: &mut Context<'_>) -> Poll<Option<T>> {
        let channel = self.channel;
        let mut state = channel.lock().unwrap();
        if let Some(node) = &self.node {
            if !node.called.load(SeqCst) && state.senders != 0 {
                node.slot.set(cx.waker());
                return Poll::Pending;
            }
        }
        let called = self.node.take().is_some();
        if let Some(value) = state.values.pop_front() {
            let next = state.next_sender();
            drop(state);
            wake(next);
            return Poll::Ready(Some(value));
        }
        if state.senders == 0 {
            return Poll::Ready(None);
        }
        let node = Node::new(cx.waker());
        if called {
            state.receiving.push_front(node.clone());
        } else {
            state.receiving.push_back(node.clone());
        }
        drop(state);
        self.node = Some(node);
        Poll::Pending
    }
}

impl<T> Drop for Recv<'_, T> {
    fn drop(&mut self) {
        if let Some(node) = self.node.take() {
            let next = leave(&mut self.channel.lock().unwrap().receiving, &node);
            wake(next);
        }
    }
}

impl<T> Clone for Sender<T> {
    fn clone(&self) -> Sender<T> {
        self.0.lock().unwrap().senders += 1;
        Sender(self.0.clone())
    }
}
impl<T> Clone for Receiver<T> {
    fn clone(&self) -> Receiver<T> {
        self.0.lock().unwrap().receivers += 1;
        Receiver(self.0.clone())
    }
}

impl<T> Drop for Sender<T> {
    fn drop(&mut self) {
        let mut state = self.0.lock().unwrap();
        state.senders -= 1;
        let all = if state.senders == 0 { std::mem::take(&mut state.receiving) } else { VecDeque::new() };
        drop(state);
        all.iter().for_each(|node| node.called.store(true, SeqCst));
        all.iter().for_each(|node| node.slot.wake());
    }
}
impl<T> Drop for Receiver<T> {
    fn drop(&mut self) {
        let mut state = self.0.lock().unwrap();
        state.receivers -= 1;
        let last = state.receivers == 0;
        let all = if last { std::mem::take(&mut state.sending) } else { VecDeque::new() };
        // These values are dropped after the lock is released, because a drop may wake a task that waits for a reply.
        let values = if last { std::mem::take(&mut state.values) } else { VecDeque::new() };
        drop(state);
        all.iter().for_each(|node| node.called.store(true, SeqCst));
        all.iter().for_each(|node| node.slot.wake());
        drop(values);
    }
}
