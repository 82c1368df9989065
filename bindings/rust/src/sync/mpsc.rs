//! As `std::sync::mpsc`, of a mutex and two conditions.
use super::{Condvar, Mutex, MutexGuard, PoisonError};
use crate::program::slot::Caller;
use std::collections::VecDeque;
use std::fmt;
use std::marker::PhantomData;
use std::panic::Location;
use std::sync::Arc;
pub use std::sync::mpsc::{RecvError, RecvTimeoutError, SendError, TryRecvError, TrySendError};
use std::time::Duration;

struct State<T> {
    // Each value with how many were sent before it.
    queue: VecDeque<(u64, T)>,
    sent: u64,
    taken: u64,
    senders: usize,
    has_receiver: bool,
    /// The receiver waits for a value.
    is_awaited: bool,
}

struct Channel<T> {
    state: Mutex<State<T>>,
    filled: Condvar,
    emptied: Condvar,
    room: Option<usize>,
}

#[track_caller]
fn waited<'a, T>(condition: &Condvar, state: MutexGuard<'a, State<T>>) -> MutexGuard<'a, State<T>> {
    condition.wait(state).unwrap_or_else(PoisonError::into_inner)
}

impl<T> Channel<T> {
    fn new(room: Option<usize>) -> Arc<Channel<T>> {
        let state = State { queue: VecDeque::new(), sent: 0, taken: 0, senders: 1, has_receiver: true, is_awaited: false };
        Arc::new(Channel { state: Mutex::new(state), filled: Condvar::new(), emptied: Condvar::new(), room })
    }

    #[track_caller]
    fn state(&self) -> MutexGuard<'_, State<T>> {
        self.state.lock().unwrap_or_else(PoisonError::into_inner)
    }

    // Whether a value is let in now. One of no room takes it where the receiver waits, or the sender will.
    fn is_full(&self, state: &State<T>, waits: bool) -> bool {
        match self.room {
            None => false,
            Some(0) => !(state.queue.is_empty() && (waits || state.is_awaited)),
            Some(room) => state.queue.len() >= room,
        }
    }

    #[track_caller]
    fn send(&self, value: T, waits: bool) -> Result<(), TrySendError<T>> {
        let mut state = self.state();
        while state.has_receiver && self.is_full(&state, waits) {
            if !waits {
                return Err(TrySendError::Full(value));
            }
            state = waited(&self.emptied, state);
        }
        if !state.has_receiver {
            return Err(TrySendError::Disconnected(value));
        }
        let mine = state.sent;
        state.queue.push_back((mine, value));
        state.sent += 1;
        self.filled.notify_one();
        if self.room != Some(0) || !waits {
            return Ok(());
        }
        // Of no room: it is sent once it was taken.
        while state.taken <= mine && state.has_receiver {
            state = waited(&self.emptied, state);
        }
        let own = state.queue.iter().position(|(number, _)| *number == mine);
        match own.and_then(|at| state.queue.remove(at)) {
            Some((_, value)) => Err(TrySendError::Disconnected(value)),
            None => Ok(()),
        }
    }

    #[track_caller]
    fn taken(&self, state: &mut State<T>) -> Option<T> {
        let (_, value) = state.queue.pop_front()?;
        state.taken += 1;
        if self.room.is_some() {
            self.emptied.notify_all();
        }
        Some(value)
    }
}

/// As [`std::sync::mpsc::Sender`].
///
/// ```
/// let (sender, receiver): (octet::sync::mpsc::Sender<i32>, _) = octet::sync::mpsc::channel();
/// sender.clone().send(5).unwrap();
/// drop(sender);
/// assert_eq!(receiver.iter().collect::<Vec<_>>(), [5]);
/// ```
pub struct Sender<T>(Arc<Channel<T>>);

/// As [`std::sync::mpsc::SyncSender`].
///
/// ```
/// let (sender, receiver): (octet::sync::mpsc::SyncSender<i32>, _) = octet::sync::mpsc::sync_channel(1);
/// sender.send(5).unwrap();
/// assert!(sender.try_send(6).is_err());
/// # drop(receiver);
/// ```
pub struct SyncSender<T>(Arc<Channel<T>>);

/// As [`std::sync::mpsc::Receiver`].
///
/// ```
/// let (sender, receiver): (_, octet::sync::mpsc::Receiver<i32>) = octet::sync::mpsc::channel();
/// assert!(receiver.try_recv().is_err());
/// drop(sender);
/// assert!(receiver.recv().is_err());
/// ```
pub struct Receiver<T>(Arc<Channel<T>>, PhantomData<std::cell::Cell<()>>);

/// As [`std::sync::mpsc::channel`].
///
/// ```
/// let (sender, receiver) = octet::sync::mpsc::channel();
/// octet::thread::spawn(move || sender.send(5).unwrap());
/// assert_eq!(receiver.recv(), Ok(5));
/// ```
#[must_use]
pub fn channel<T>() -> (Sender<T>, Receiver<T>) {
    let channel = Channel::new(None);
    (Sender(Arc::clone(&channel)), Receiver(channel, PhantomData))
}

/// As [`std::sync::mpsc::sync_channel`].
///
/// ```
/// let (sender, receiver) = octet::sync::mpsc::sync_channel(0);
/// octet::thread::spawn(move || sender.send(5).unwrap());
/// assert_eq!(receiver.recv(), Ok(5));
/// ```
#[must_use]
pub fn sync_channel<T>(room: usize) -> (SyncSender<T>, Receiver<T>) {
    let channel = Channel::new(Some(room));
    (SyncSender(Arc::clone(&channel)), Receiver(channel, PhantomData))
}

macro_rules! sender {
    ($name:ident) => {
        impl<T> $name<T> {
            /// As that of `std`.
            ///
            /// # Errors
            /// The value, where there is no receiver.
            #[track_caller]
            pub fn send(&self, value: T) -> Result<(), SendError<T>> {
                self.0.send(value, true).map_err(|error| match error {
                    TrySendError::Full(value) | TrySendError::Disconnected(value) => SendError(value),
                })
            }
        }

        impl<T> Clone for $name<T> {
            #[track_caller]
            fn clone(&self) -> Self {
                self.0.state().senders += 1;
                $name(Arc::clone(&self.0))
            }
        }

        impl<T> Drop for $name<T> {
            #[track_caller]
            fn drop(&mut self) {
                let mut state = self.0.state();
                state.senders -= 1;
                if state.senders == 0 {
                    self.0.filled.notify_all();
                }
            }
        }

        impl<T> fmt::Debug for $name<T> {
            fn fmt(&self, out: &mut fmt::Formatter<'_>) -> fmt::Result {
                out.debug_struct(stringify!($name)).finish_non_exhaustive()
            }
        }
    };
}

sender!(Sender);
sender!(SyncSender);

impl<T> SyncSender<T> {
    /// As that of `std`.
    ///
    /// # Errors
    /// The value, where there is no room or no receiver.
    #[track_caller]
    pub fn try_send(&self, value: T) -> Result<(), TrySendError<T>> {
        self.0.send(value, false)
    }
}

impl<T> Drop for Receiver<T> {
    #[track_caller]
    fn drop(&mut self) {
        let mut state = self.0.state();
        state.has_receiver = false;
        // Of no room, each sender has its value back.
        let left = if self.0.room == Some(0) { VecDeque::new() } else { std::mem::take(&mut state.queue) };
        self.0.emptied.notify_all();
        drop(state);
        drop(left);
    }
}

impl<T> fmt::Debug for Receiver<T> {
    fn fmt(&self, out: &mut fmt::Formatter<'_>) -> fmt::Result {
        out.debug_struct("Receiver").finish_non_exhaustive()
    }
}

impl<T> Receiver<T> {
    /// As that of `std`.
    ///
    /// # Errors
    /// Where there is no value: whether there is a sender.
    #[track_caller]
    pub fn try_recv(&self) -> Result<T, TryRecvError> {
        let mut state = self.0.state();
        match self.0.taken(&mut state) {
            Some(value) => Ok(value),
            None if state.senders == 0 => Err(TryRecvError::Disconnected),
            None => Err(TryRecvError::Empty),
        }
    }

    /// As that of `std`.
    ///
    /// # Errors
    /// Where there is no value and no sender.
    #[track_caller]
    pub fn recv(&self) -> Result<T, RecvError> {
        self.recv_at(Location::caller())
    }

    fn recv_at(&self, caller: Caller) -> Result<T, RecvError> {
        let mut state = self.0.state.lock_at(caller).unwrap_or_else(PoisonError::into_inner);
        loop {
            if let Some(value) = self.0.taken(&mut state) {
                return Ok(value);
            }
            if state.senders == 0 {
                return Err(RecvError);
            }
            state.is_awaited = true;
            state = self.0.filled.wait_at(state, caller).unwrap_or_else(PoisonError::into_inner);
            state.is_awaited = false;
        }
    }

    /// As that of `std`.
    ///
    /// # Errors
    /// Where there is no value: whether the time is over, or there is no sender.
    #[track_caller]
    pub fn recv_timeout(&self, most: Duration) -> Result<T, RecvTimeoutError> {
        let since = crate::time::Instant::now();
        let mut state = self.0.state();
        loop {
            if let Some(value) = self.0.taken(&mut state) {
                return Ok(value);
            }
            if state.senders == 0 {
                return Err(RecvTimeoutError::Disconnected);
            }
            let Some(rest) = most.checked_sub(since.elapsed()) else {
                return Err(RecvTimeoutError::Timeout);
            };
            state.is_awaited = true;
            state = self.0.filled.wait_timeout(state, rest).unwrap_or_else(PoisonError::into_inner).0;
            state.is_awaited = false;
        }
    }

    /// As that of `std`.
    #[must_use]
    #[track_caller]
    pub fn iter(&self) -> Iter<'_, T> {
        Iter(self, Location::caller())
    }

    /// As that of `std`.
    #[must_use]
    pub fn try_iter(&self) -> TryIter<'_, T> {
        TryIter(self)
    }
}

/// As [`std::sync::mpsc::Iter`].
///
/// ```
/// let (sender, receiver) = octet::sync::mpsc::channel();
/// sender.send(5).unwrap();
/// assert_eq!(receiver.iter().next(), Some(5));
/// ```
#[derive(Debug)]
pub struct Iter<'a, T>(&'a Receiver<T>, Caller);

/// As [`std::sync::mpsc::TryIter`].
///
/// ```
/// let (sender, receiver) = octet::sync::mpsc::channel();
/// sender.send(5).unwrap();
/// assert_eq!(receiver.try_iter().collect::<Vec<_>>(), [5]);
/// ```
#[derive(Debug)]
pub struct TryIter<'a, T>(&'a Receiver<T>);

/// As [`std::sync::mpsc::IntoIter`].
///
/// ```
/// let (sender, receiver) = octet::sync::mpsc::channel();
/// sender.send(5).unwrap();
/// drop(sender);
/// assert_eq!(receiver.into_iter().collect::<Vec<_>>(), [5]);
/// ```
#[derive(Debug)]
pub struct IntoIter<T>(Receiver<T>, Caller);

impl<T> Iterator for Iter<'_, T> {
    type Item = T;

    fn next(&mut self) -> Option<T> {
        self.0.recv_at(self.1).ok()
    }
}

impl<T> Iterator for TryIter<'_, T> {
    type Item = T;

    #[track_caller]
    fn next(&mut self) -> Option<T> {
        self.0.try_recv().ok()
    }
}

impl<T> Iterator for IntoIter<T> {
    type Item = T;

    fn next(&mut self) -> Option<T> {
        self.0.recv_at(self.1).ok()
    }
}

impl<'a, T> IntoIterator for &'a Receiver<T> {
    type Item = T;
    type IntoIter = Iter<'a, T>;

    #[track_caller]
    fn into_iter(self) -> Iter<'a, T> {
        self.iter()
    }
}

impl<T> IntoIterator for Receiver<T> {
    type Item = T;
    type IntoIter = IntoIter<T>;

    #[track_caller]
    fn into_iter(self) -> IntoIter<T> {
        IntoIter(self, Location::caller())
    }
}
