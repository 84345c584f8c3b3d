//! The bounded channels of crossbeam-channel by those of `fak_seats`. Each call is one call of the library; only names and the shapes of
//! errors differ. There is no `select!`, no channel without cells, and no unbounded channel.

use fak_seats::channel;
use std::fmt::{self, Debug, Formatter};
use std::time::{Duration, Instant};

/// How many threads may call at once. Others take turns.
const ENDS: usize = 16;

/// Opens a channel of this many cells, at least 1.
pub fn bounded<T>(size: usize) -> (Sender<T>, Receiver<T>) {
    let (sender, receiver) = channel::bounded(size, ENDS).expect("the number of cells is in range");
    (Sender(sender), Receiver(receiver))
}

pub struct Sender<T>(channel::Sender<T>);

pub struct Receiver<T>(channel::Receiver<T>);

macro_rules! handles {
    ($($name:ident)*) => {$(
        impl<T> $name<T> {
            pub fn len(&self) -> usize {
                self.0.len()
            }

            pub fn is_empty(&self) -> bool {
                self.0.is_empty()
            }

            pub fn is_full(&self) -> bool {
                self.0.is_full()
            }

            pub fn capacity(&self) -> Option<usize> {
                Some(self.0.capacity())
            }

            pub fn same_channel(&self, other: &$name<T>) -> bool {
                self.0.same_channel(&other.0)
            }
        }

        impl<T> Clone for $name<T> {
            fn clone(&self) -> $name<T> {
                $name(self.0.clone())
            }
        }

        impl<T> Debug for $name<T> {
            fn fmt(&self, f: &mut Formatter<'_>) -> fmt::Result {
                self.0.fmt(f)
            }
        }
    )*};
}

handles! { Sender Receiver }

/// No test comes near the calls that an end may make.
fn worn() -> ! {
    panic!("an end has made all the calls of its stint")
}

// ---- errors

#[derive(Clone, Copy, Debug, PartialEq, Eq)]
pub struct SendError<T>(pub T);

#[derive(Clone, Copy, Debug, PartialEq, Eq)]
pub enum TrySendError<T> {
    Full(T),
    Disconnected(T),
}

#[derive(Clone, Copy, Debug, PartialEq, Eq)]
pub enum SendTimeoutError<T> {
    Timeout(T),
    Disconnected(T),
}

#[derive(Clone, Copy, Debug, PartialEq, Eq)]
pub struct RecvError;

#[derive(Clone, Copy, Debug, PartialEq, Eq)]
pub enum TryRecvError {
    Empty,
    Disconnected,
}

#[derive(Clone, Copy, Debug, PartialEq, Eq)]
pub enum RecvTimeoutError {
    Timeout,
    Disconnected,
}

fn send_timeout_error<T>(error: channel::SendTimeoutError<T>) -> SendTimeoutError<T> {
    match error {
        channel::SendTimeoutError::Timeout(item) => SendTimeoutError::Timeout(item),
        channel::SendTimeoutError::Closed(item) => SendTimeoutError::Disconnected(item),
        channel::SendTimeoutError::Worn(_) => worn(),
    }
}

fn recv_timeout_error(error: channel::RecvTimeoutError) -> RecvTimeoutError {
    match error {
        channel::RecvTimeoutError::Timeout => RecvTimeoutError::Timeout,
        channel::RecvTimeoutError::Closed => RecvTimeoutError::Disconnected,
        channel::RecvTimeoutError::Worn => worn(),
    }
}

// ---- calls

impl<T> Sender<T> {
    pub fn send(&self, item: T) -> Result<(), SendError<T>> {
        self.0.send(item).map_err(|error| match error {
            channel::SendError::Closed(item) => SendError(item),
            channel::SendError::Worn(_) => worn(),
        })
    }

    pub fn try_send(&self, item: T) -> Result<(), TrySendError<T>> {
        self.0.try_send(item).map_err(|error| match error {
            channel::TrySendError::Full(item) => TrySendError::Full(item),
            channel::TrySendError::Closed(item) => TrySendError::Disconnected(item),
            channel::TrySendError::Worn(_) => worn(),
        })
    }

    pub fn send_timeout(&self, item: T, timeout: Duration) -> Result<(), SendTimeoutError<T>> {
        self.0.send_timeout(item, timeout).map_err(send_timeout_error)
    }

    pub fn send_deadline(&self, item: T, deadline: Instant) -> Result<(), SendTimeoutError<T>> {
        self.0.send_deadline(item, deadline).map_err(send_timeout_error)
    }
}

impl<T> Receiver<T> {
    pub fn recv(&self) -> Result<T, RecvError> {
        self.0.recv().map_err(|error| match error {
            channel::RecvError::Closed => RecvError,
            channel::RecvError::Worn => worn(),
        })
    }

    pub fn try_recv(&self) -> Result<T, TryRecvError> {
        self.0.try_recv().map_err(|error| match error {
            channel::TryRecvError::Empty => TryRecvError::Empty,
            channel::TryRecvError::Closed => TryRecvError::Disconnected,
            channel::TryRecvError::Worn => worn(),
        })
    }

    pub fn recv_timeout(&self, timeout: Duration) -> Result<T, RecvTimeoutError> {
        self.0.recv_timeout(timeout).map_err(recv_timeout_error)
    }

    pub fn recv_deadline(&self, deadline: Instant) -> Result<T, RecvTimeoutError> {
        self.0.recv_deadline(deadline).map_err(recv_timeout_error)
    }

    pub fn iter(&self) -> channel::Iter<'_, T> {
        self.0.iter()
    }

    pub fn try_iter(&self) -> channel::TryIter<'_, T> {
        self.0.try_iter()
    }
}

impl<'a, T> IntoIterator for &'a Receiver<T> {
    type Item = T;
    type IntoIter = channel::Iter<'a, T>;

    fn into_iter(self) -> channel::Iter<'a, T> {
        self.iter()
    }
}

impl<T> IntoIterator for Receiver<T> {
    type Item = T;
    type IntoIter = channel::IntoIter<T>;

    fn into_iter(self) -> channel::IntoIter<T> {
        self.0.into_iter()
    }
}
