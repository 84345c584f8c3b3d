//! Why a call was not made.

use crate::raw;
use core::error::Error;
use core::fmt::{self, Display, Formatter};

/// Why a call was not made. A refused item is not taken.
///
/// Never sleep on `Full`, `Empty`, `AtBound` or `Busy`: they count claims that others are about to take back, so a queue may be `Empty`
/// although it has an item. Yield and try again, or sleep on a semaphore that counts the items (`fak_c.h`, "Queues"), or take the channel.
#[derive(Clone, Copy, Debug, PartialEq, Eq)]
pub enum Fault {
    /// The queue had no room.
    Full,
    /// The queue had no item.
    Empty,
    /// The queue is shut.
    Closed,
    /// The claim did not fit: the room had this count.
    AtBound(i64),
    /// Others hold the file table, or try to; this is the count that was found.
    Busy(i64),
    /// The seat has made all the calls of its stint.
    Worn,
    /// The seat is in another state than this call needs, or there is no such entry.
    WrongState,
    /// A number is out of range: the tests of `limits` say which. Or more is to be given back than the seat holds.
    BadLimit,
    /// There was no memory.
    Memory,
}

impl Fault {
    /// The fault of a code with which a call is refused. A seat's handle is never empty, so `FAK_C_NO_SEAT` does not come.
    pub(crate) fn of(code: i32) -> Fault {
        match code {
            raw::FULL => Fault::Full,
            raw::EMPTY => Fault::Empty,
            raw::CLOSED => Fault::Closed,
            raw::WORN => Fault::Worn,
            raw::BAD_LIMIT => Fault::BadLimit,
            raw::MEMORY => Fault::Memory,
            _ => Fault::WrongState,
        }
    }
}

impl Display for Fault {
    fn fmt(&self, f: &mut Formatter<'_>) -> fmt::Result {
        match self {
            Fault::Full => f.write_str("the queue is full"),
            Fault::Empty => f.write_str("the queue is empty"),
            Fault::Closed => f.write_str("the queue is shut"),
            Fault::AtBound(found) => write!(f, "the claim does not fit: the room's count was {found}"),
            Fault::Busy(count) => write!(f, "others hold the file table: {count} was left"),
            Fault::Worn => f.write_str("the stint is used up"),
            Fault::WrongState => f.write_str("the seat is in another state, or there is no such entry"),
            Fault::BadLimit => f.write_str("a number is out of range"),
            Fault::Memory => f.write_str("out of memory"),
        }
    }
}

impl Error for Fault {}
