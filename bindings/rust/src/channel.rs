//! A bounded channel, first in first out, whose threads sleep while they wait.
//!
//! Its calls are those of the bounded channels of other crates:
//!
//! ```
//! use fak_seats::channel;
//! use std::thread;
//!
//! let (sender, receiver) = channel::bounded(16, 4)?;
//! let workers: Vec<_> = (0..3)
//!     .map(|_| {
//!         let jobs = receiver.clone();
//!         thread::spawn(move || jobs.iter().sum::<u64>())
//!     })
//!     .collect();
//! for job in 1..=1_000 {
//!     sender.send(job).unwrap();
//! }
//! drop(sender);
//! let sum: u64 = workers.into_iter().map(|worker| worker.join().unwrap()).sum();
//! assert_eq!(sum, 500_500);
//! # Ok::<(), fak_seats::Fault>(())
//! ```
//!
//! # Ends
//!
//! A channel is opened with a fixed number of *ends*. An end has one call at a time. A handle, `Sender` or `Receiver`, has an end.
//! `clone` gives the new handle an end of its own. If none is left, the handles share one and take turns: a call then sleeps while the
//! other's call does. So a clone never fails, and many more threads than ends may use a channel, with fewer calls at once. `try_clone`
//! returns a handle only with an end of its own. Threads that use one handle by reference take turns too. A dropped handle gives its end
//! back, for later clones.
//!
//! # Closing
//!
//! The drop of the last `Sender` closes the channel: receivers get what is left, and then `Closed`. `close` of any handle does the same.
//! The drop of the last `Receiver` closes the channel too, and drops what is left, also if the drops of some items panic: the first panic
//! goes on once all are dropped. A send to a closed channel is refused, and the item comes back. All threads that sleep wake up.
//!
//! # Sleeping
//!
//! No thread sleeps on although there is an item, a free cell or a close for it. Tests show that sleepers wake up; the proved steps name
//! the end to wake. A thread spins and yields for some microseconds before it sleeps.
//!
//! # Items
//!
//! Items of at most 32 bytes, with an alignment of at most 8, lie in the cells. Larger ones lie in a box each. What one handle sends lives
//! as long as what another receives:
//!
//! ```compile_fail
//! fn shorten<'a>(receiver: fak_seats::channel::Receiver<&'static str>) -> fak_seats::channel::Receiver<&'a str> {
//!     receiver
//! }
//! ```
//!
//! Handles go to other threads only if the items may:
//!
//! ```compile_fail
//! fn send(sender: fak_seats::channel::Sender<std::rc::Rc<u8>>) {
//!     std::thread::spawn(move || sender);
//! }
//! ```

mod end;
mod error;
mod iter;
mod pause;
mod shared;
mod token;
mod turn;
mod words;

pub use error::{RecvError, RecvTimeoutError, SendError, SendTimeoutError, TryRecvError, TrySendError};
pub use iter::{IntoIter, Iter, TryIter};
pub(crate) use words::Words;

use crate::limits::{self, CHANNEL_KEEPS, MOST_CALLS};
use crate::Fault;
use core::fmt::{self, Debug, Formatter};
use core::panic::{RefUnwindSafe, UnwindSafe};
use end::Patience;
use shared::{Lent, Shared};
use std::sync::atomic::Ordering::SeqCst;
use std::sync::Arc;
use std::time::{Duration, Instant};

/// Opens a channel of `size` cells, 1 to 2^24, with `ends` ends, 2 to 1,022. Returns its first two handles. Each end may make an equal
/// share of 2^50 calls, which is at least 2^40.
pub fn bounded<T>(size: usize, ends: usize) -> Result<(Sender<T>, Receiver<T>), Fault> {
    if !limits::is_channel_ends(ends) {
        return Err(Fault::BadLimit);
    }
    open(size, ends, MOST_CALLS / (ends + CHANNEL_KEEPS) as u64)
}

/// As `bounded`, but each end may make `stint` calls (`limits::is_channel_stint`).
pub fn open<T>(size: usize, ends: usize, stint: u64) -> Result<(Sender<T>, Receiver<T>), Fault> {
    let shared = Arc::new(Shared::open(size, ends, stint)?);
    let (Some(sends), Some(receives)) = (Lent::of(&shared), Lent::of(&shared)) else {
        return Err(Fault::BadLimit);
    };
    Ok((Sender { lent: sends }, Receiver { lent: receives }))
}

/// When this much time is over; none if that is later than any time.
fn after(timeout: Duration) -> Patience {
    Instant::now().checked_add(timeout).map_or(Patience::Forever, Patience::Until)
}

macro_rules! handles {
    ($($(#[$doc:meta])* $name:ident, $count:ident, $last:ident;)*) => {$(
        $(#[$doc])*
        ///
        /// Threads may share it (`Sync`). A clone gets an end of its own if one is free; otherwise it shares one.
        pub struct $name<T> {
            lent: Arc<Lent<T>>,
        }

        impl<T> $name<T> {
            /// Returns a further handle with an end of its own: the free end that has the most calls left. None if no end is free.
            pub fn try_clone(&self) -> Option<$name<T>> {
                let lent = Lent::of(&self.lent.shared)?;
                Some(self.counted(lent))
            }

            fn counted(&self, lent: Arc<Lent<T>>) -> $name<T> {
                self.lent.shared.$count.fetch_add(1, SeqCst);
                $name { lent }
            }

            /// Closes the channel. Returns whether it was open. Sends are refused from now on. Receivers get what is left, and then
            /// `Closed`.
            pub fn close(&self) -> bool {
                self.lent.shared.close()
            }

            /// Whether the channel is closed.
            pub fn is_closed(&self) -> bool {
                self.lent.is_closed()
            }

            /// How many items are ready, at one moment.
            pub fn len(&self) -> usize {
                self.lent.len()
            }

            /// Whether no item is ready, at one moment.
            pub fn is_empty(&self) -> bool {
                self.len() == 0
            }

            /// Whether each cell has an item that is ready, at one moment.
            pub fn is_full(&self) -> bool {
                self.len() == self.capacity()
            }

            /// How many cells the channel has.
            pub fn capacity(&self) -> usize {
                self.lent.shared.size
            }

            /// Whether both handles belong to one channel.
            pub fn same_channel(&self, other: &$name<T>) -> bool {
                Arc::ptr_eq(&self.lent.shared, &other.lent.shared)
            }
        }

        /// A handle with an end of its own. If none is free, it shares the end of this handle.
        impl<T> Clone for $name<T> {
            fn clone(&self) -> $name<T> {
                self.try_clone().unwrap_or_else(|| self.counted(Arc::clone(&self.lent)))
            }
        }

        impl<T> Drop for $name<T> {
            fn drop(&mut self) {
                if self.lent.shared.$count.fetch_sub(1, SeqCst) == 1 {
                    self.lent.shared.$last();
                }
            }
        }

        impl<T> Debug for $name<T> {
            fn fmt(&self, f: &mut Formatter<'_>) -> fmt::Result {
                f.pad(concat!(stringify!($name), " { .. }"))
            }
        }

        // A call that panics has moved its item, or has not, and the end is idle.
        impl<T> UnwindSafe for $name<T> {}
        impl<T> RefUnwindSafe for $name<T> {}
    )*};
}

handles! {
    /// A handle that sends. The drop of the last one closes the channel.
    Sender, senders, no_sender;
    /// A handle that receives. The drop of the last one closes the channel, and drops the items that are left.
    Receiver, receivers, no_receiver;
}

impl<T> Sender<T> {
    /// Sends the item. The thread sleeps while the channel is full.
    pub fn send(&self, item: T) -> Result<(), SendError<T>> {
        self.lent.send(item, Patience::Forever).map_err(SendError::of)
    }

    /// Sends the item if there is a free cell. The thread does not sleep for one. Tries of handles that share an end take turns.
    pub fn try_send(&self, item: T) -> Result<(), TrySendError<T>> {
        self.lent.send(item, Patience::Never).map_err(TrySendError::of)
    }

    /// Sends the item. The thread sleeps while the channel is full, for this time at most.
    pub fn send_timeout(&self, item: T, timeout: Duration) -> Result<(), SendTimeoutError<T>> {
        self.lent.send(item, after(timeout)).map_err(SendTimeoutError::of)
    }

    /// Sends the item. The thread sleeps while the channel is full, until the deadline at most.
    pub fn send_deadline(&self, item: T, deadline: Instant) -> Result<(), SendTimeoutError<T>> {
        self.lent.send(item, Patience::Until(deadline)).map_err(SendTimeoutError::of)
    }
}

impl<T> Receiver<T> {
    /// Receives the oldest item. The thread sleeps while the channel is empty.
    pub fn recv(&self) -> Result<T, RecvError> {
        self.lent.receive(Patience::Forever).map_err(RecvError::of)
    }

    /// Receives the oldest item if there is one. The thread does not sleep for one. Tries of handles that share an end take turns.
    pub fn try_recv(&self) -> Result<T, TryRecvError> {
        self.lent.receive(Patience::Never).map_err(TryRecvError::of)
    }

    /// Receives the oldest item. The thread sleeps while the channel is empty, for this time at most.
    pub fn recv_timeout(&self, timeout: Duration) -> Result<T, RecvTimeoutError> {
        self.lent.receive(after(timeout)).map_err(RecvTimeoutError::of)
    }

    /// Receives the oldest item. The thread sleeps while the channel is empty, until the deadline at most.
    pub fn recv_deadline(&self, deadline: Instant) -> Result<T, RecvTimeoutError> {
        self.lent.receive(Patience::Until(deadline)).map_err(RecvTimeoutError::of)
    }

    /// The items until the channel is closed and empty; sleeps while there is none. It also ends when the stint of the end is used up: only
    /// `recv` shows which.
    pub fn iter(&self) -> Iter<'_, T> {
        Iter(self)
    }

    /// The items that are there, until there is none; does not sleep.
    pub fn try_iter(&self) -> TryIter<'_, T> {
        TryIter(self)
    }
}
