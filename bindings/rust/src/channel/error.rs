//! Why an item was not sent, or none received.

use super::end::Refusal;
use core::error::Error;
use core::fmt::{self, Debug, Display, Formatter};

// The errors of calls that send. Each case has the item.
macro_rules! refused_sends {
    ($($(#[$doc:meta])* $name:ident { $($(#[$why:meta])* $case:ident, $is_case:ident, $text:literal;)* })*) => {$(
        $(#[$doc])*
        #[derive(Clone, Copy, PartialEq, Eq)]
        pub enum $name<T> {
            $($(#[$why])* $case(T),)*
        }

        impl<T> $name<T> {
            /// The item that was not sent.
            pub fn into_inner(self) -> T {
                match self {
                    $($name::$case(item) => item,)*
                }
            }

            $($(#[$why])*
            pub fn $is_case(&self) -> bool {
                matches!(self, $name::$case(_))
            })*
        }

        impl<T> Debug for $name<T> {
            fn fmt(&self, f: &mut Formatter<'_>) -> fmt::Result {
                f.write_str(match self {
                    $($name::$case(_) => concat!(stringify!($case), "(..)"),)*
                })
            }
        }

        impl<T> Display for $name<T> {
            fn fmt(&self, f: &mut Formatter<'_>) -> fmt::Result {
                f.write_str(match self {
                    $($name::$case(_) => $text,)*
                })
            }
        }

        impl<T> Error for $name<T> {}
    )*};
}

// The errors of calls that receive.
macro_rules! refused_receives {
    ($($(#[$doc:meta])* $name:ident { $($(#[$why:meta])* $case:ident, $is_case:ident, $text:literal;)* })*) => {$(
        $(#[$doc])*
        #[derive(Clone, Copy, Debug, PartialEq, Eq)]
        pub enum $name {
            $($(#[$why])* $case,)*
        }

        impl $name {
            $($(#[$why])*
            pub fn $is_case(&self) -> bool {
                matches!(self, $name::$case)
            })*
        }

        impl Display for $name {
            fn fmt(&self, f: &mut Formatter<'_>) -> fmt::Result {
                f.write_str(match self {
                    $($name::$case => $text,)*
                })
            }
        }

        impl Error for $name {}
    )*};
}

refused_sends! {
    /// Why `Sender::send` did not send the item, which comes back.
    SendError {
        /// The channel is closed.
        Closed, is_closed, "the channel is closed";
        /// The end has made all the calls of its stint.
        Worn, is_worn, "the stint of the end is used up";
    }
    /// Why `Sender::try_send` did not send the item, which comes back.
    TrySendError {
        /// The channel has no free cell.
        Full, is_full, "the channel is full";
        /// The channel is closed.
        Closed, is_closed, "the channel is closed";
        /// The end has made all the calls of its stint.
        Worn, is_worn, "the stint of the end is used up";
    }
    /// Why `Sender::send_timeout` or `send_deadline` did not send the item, which comes back.
    SendTimeoutError {
        /// The time was over before there was a free cell.
        Timeout, is_timeout, "timed out while the channel was full";
        /// The channel is closed.
        Closed, is_closed, "the channel is closed";
        /// The end has made all the calls of its stint.
        Worn, is_worn, "the stint of the end is used up";
    }
}

refused_receives! {
    /// Why `Receiver::recv` received no item.
    RecvError {
        /// The channel is closed, and all its items were received.
        Closed, is_closed, "the channel is closed and empty";
        /// The end has made all the calls of its stint.
        Worn, is_worn, "the stint of the end is used up";
    }
    /// Why `Receiver::try_recv` received no item.
    TryRecvError {
        /// The channel has no item.
        Empty, is_empty, "the channel is empty";
        /// The channel is closed, and all its items were received.
        Closed, is_closed, "the channel is closed and empty";
        /// The end has made all the calls of its stint.
        Worn, is_worn, "the stint of the end is used up";
    }
    /// Why `Receiver::recv_timeout` or `recv_deadline` received no item.
    RecvTimeoutError {
        /// The time was over before there was an item.
        Timeout, is_timeout, "timed out while the channel was empty";
        /// The channel is closed, and all its items were received.
        Closed, is_closed, "the channel is closed and empty";
        /// The end has made all the calls of its stint.
        Worn, is_worn, "the stint of the end is used up";
    }
}

// The error that each call returns for a refusal. A call without a deadline does not give up.

impl<T> SendError<T> {
    pub(super) fn of((refusal, item): (Refusal, T)) -> SendError<T> {
        match refusal {
            Refusal::Closed => SendError::Closed(item),
            Refusal::Worn => SendError::Worn(item),
            Refusal::GaveUp => unreachable!("a call without a deadline gave up"),
        }
    }
}

impl<T> TrySendError<T> {
    pub(super) fn of((refusal, item): (Refusal, T)) -> TrySendError<T> {
        match refusal {
            Refusal::Closed => TrySendError::Closed(item),
            Refusal::Worn => TrySendError::Worn(item),
            Refusal::GaveUp => TrySendError::Full(item),
        }
    }
}

impl<T> SendTimeoutError<T> {
    pub(super) fn of((refusal, item): (Refusal, T)) -> SendTimeoutError<T> {
        match refusal {
            Refusal::Closed => SendTimeoutError::Closed(item),
            Refusal::Worn => SendTimeoutError::Worn(item),
            Refusal::GaveUp => SendTimeoutError::Timeout(item),
        }
    }
}

impl RecvError {
    pub(super) fn of(refusal: Refusal) -> RecvError {
        match refusal {
            Refusal::Closed => RecvError::Closed,
            Refusal::Worn => RecvError::Worn,
            Refusal::GaveUp => unreachable!("a call without a deadline gave up"),
        }
    }
}

impl TryRecvError {
    pub(super) fn of(refusal: Refusal) -> TryRecvError {
        match refusal {
            Refusal::Closed => TryRecvError::Closed,
            Refusal::Worn => TryRecvError::Worn,
            Refusal::GaveUp => TryRecvError::Empty,
        }
    }
}

impl RecvTimeoutError {
    pub(super) fn of(refusal: Refusal) -> RecvTimeoutError {
        match refusal {
            Refusal::Closed => RecvTimeoutError::Closed,
            Refusal::Worn => RecvTimeoutError::Worn,
            Refusal::GaveUp => RecvTimeoutError::Timeout,
        }
    }
}
