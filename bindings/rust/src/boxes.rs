//! A bounded queue of boxes: owned items of any type, none of which is lost.

use crate::drops::drop_all;
use crate::limits::{MOST_CALLS, MOST_SEATS};
use crate::{Fault, InUse, Seat, State, Step};
use alloc::boxed::Box;
use alloc::sync::Arc;
use alloc::vec::Vec;
use core::cell::Cell;
use core::error::Error;
use core::fmt::{self, Debug, Display, Formatter};
use core::iter::from_fn;
use core::marker::PhantomData;
use core::mem::ManuallyDrop;
use core::ptr::null_mut;
use core::sync::atomic::{AtomicPtr, Ordering::SeqCst};

/// An insertion that was refused: why, and the item.
pub struct Refused<T> {
    /// Why.
    pub fault: Fault,
    /// The item, for another try.
    pub item: Box<T>,
}

impl<T> Debug for Refused<T> {
    fn fmt(&self, f: &mut Formatter<'_>) -> fmt::Result {
        f.debug_struct("Refused").field("fault", &self.fault).finish_non_exhaustive()
    }
}

impl<T> Display for Refused<T> {
    fn fmt(&self, f: &mut Formatter<'_>) -> fmt::Result {
        Display::fmt(&self.fault, f)
    }
}

impl<T> Error for Refused<T> {}

/// A seat of a bounded queue of boxes, first in first out.
///
/// The drop of a seat tries once to end its open call. If that fails, the drop of the queue's last seat ends it. That drop also drops the
/// items that are still in the queue, on its thread. If the drop of one panics, the others are dropped all the same; a second panic ends
/// there too, but without the feature `std` it aborts. A seat that is forgotten keeps the queue and its items.
///
/// ```compile_fail
/// // What one seat puts in lives as long as what another takes out.
/// fn shorten<'a>(seat: fak_seats::BoxSeat<&'static str>) -> fak_seats::BoxSeat<&'a str> {
///     seat
/// }
/// ```
pub struct BoxSeat<T: Send> {
    own: ManuallyDrop<Box<Node>>,
    queue: Arc<Queue<T>>,
}

// What all seats of a queue share.
struct Queue<T> {
    // It is not used before the last of the other seats was dropped, so it can still delete all that may be in the queue.
    keeper: Seat,
    // The seats that were dropped during a call.
    open: AtomicPtr<Node>,
    // One seat puts in what another takes out, so the items of all seats have the same type and lifetime.
    items: PhantomData<Cell<T>>,
}

// A seat in a list.
struct Node {
    seat: Seat,
    next: *mut Node,
}

// SAFETY: a seat may go to another thread, and so may the boxes. Among what seats share, `open` is atomic, and only the drop of the last
// seat uses the rest.
unsafe impl<T: Send> Send for BoxSeat<T> {}

// The word of a box, which owns it.
fn word_of<T>(item: Box<T>) -> u64 {
    Box::into_raw(item) as usize as u64
}

// SAFETY, of the caller: the word is that of a `Box<T>`, and owns it.
unsafe fn box_of<T>(word: u64) -> Box<T> {
    // SAFETY: the word came from `Box::into_raw`, on this machine.
    unsafe { Box::from_raw(word as usize as *mut T) }
}

// SAFETY of the calls of `box_of` below: only `insert` and `claim_insert` of a `BoxSeat<T>` put words in, each of a box that it gave up.
// The queue hands each word out once.

impl<T: Send> BoxSeat<T> {
    /// Opens a queue of `size` cells, 1 to 2^24. Returns its n seats, 1 to 1,023. Each may make an equal share of 2^50 calls; the queue
    /// itself keeps one share.
    pub fn open(n: usize, size: u64) -> Result<Vec<BoxSeat<T>>, Fault> {
        if n == 0 || n >= MOST_SEATS {
            return Err(Fault::BadLimit);
        }
        let mut seats = Seat::open_vec(n + 1, size, MOST_CALLS / (n as u64 + 1))?;
        let Some(keeper) = seats.pop() else {
            return Err(Fault::Memory);
        };
        let queue = Arc::new(Queue {
            keeper,
            open: AtomicPtr::new(null_mut()),
            items: PhantomData,
        });
        let of_queue = |seat| BoxSeat {
            own: ManuallyDrop::new(Box::new(Node { seat, next: null_mut() })),
            queue: Arc::clone(&queue),
        };
        Ok(seats.into_iter().map(of_queue).collect())
    }

    fn seat(&mut self) -> &mut Seat {
        &mut self.own.seat
    }

    /// Claims room, and tries once. Returns the ticket. If the call stays open, the seat keeps the item, and `try_fill` is next.
    pub fn insert(&mut self, item: Box<T>) -> Result<Step<u64>, Refused<T>> {
        self.hand_in(item, |seat, word| seat.insert(word))
    }

    /// Claims room. Returns the ticket. The seat keeps the item, and `try_fill` is next.
    pub fn claim_insert(&mut self, item: Box<T>) -> Result<u64, Refused<T>> {
        self.hand_in(item, |seat, word| seat.claim_insert(word))
    }

    // A call that takes the item, or refuses it.
    fn hand_in<A>(&mut self, item: Box<T>, call: impl FnOnce(&mut Seat, u64) -> Result<A, Fault>) -> Result<A, Refused<T>> {
        let word = word_of(item);
        call(self.seat(), word).map_err(|fault| Refused {
            fault,
            // SAFETY: the word was refused, so it still owns its box.
            item: unsafe { box_of(word) },
        })
    }

    /// Tries once more to end an insertion.
    pub fn try_fill(&mut self) -> Result<Step<()>, Fault> {
        self.seat().try_fill()
    }

    /// Claims an item, and tries once. Returns the item. If the call stays open, `try_take` is next.
    pub fn delete(&mut self) -> Result<Step<Box<T>>, Fault> {
        let taken = self.seat().delete()?;
        // SAFETY: above.
        Ok(taken.map(|word| unsafe { box_of(word) }))
    }

    /// As `delete`, with the ticket.
    pub fn delete_with_ticket(&mut self) -> Result<Step<(u64, Box<T>)>, Fault> {
        let taken = self.seat().delete_with_ticket()?;
        // SAFETY: above.
        Ok(taken.map(|(ticket, word)| (ticket, unsafe { box_of(word) })))
    }

    /// Claims an item. Returns its ticket. `try_take` is next.
    pub fn claim_delete(&mut self) -> Result<u64, Fault> {
        self.seat().claim_delete()
    }

    /// Tries once more to end a deletion.
    pub fn try_take(&mut self) -> Result<Step<Box<T>>, Fault> {
        let taken = self.seat().try_take()?;
        // SAFETY: above.
        Ok(taken.map(|word| unsafe { box_of(word) }))
    }

    /// Shuts the queue. Returns whether it was open.
    pub fn shut(&mut self) -> Result<bool, Fault> {
        self.seat().shut()
    }

    /// As `Seat::count`.
    pub fn count(&mut self) -> i64 {
        self.seat().count()
    }

    /// As `Seat::in_use`.
    pub fn in_use(&mut self) -> InUse {
        self.seat().in_use()
    }

    /// As `Seat::is_drained`.
    pub fn is_drained(&mut self) -> bool {
        self.seat().is_drained()
    }

    /// As `Seat::pause`.
    pub fn pause(&mut self) {
        self.seat().pause();
    }

    /// Whether a call is open, and its ticket.
    pub fn state(&mut self) -> State {
        self.seat().state()
    }

    /// How many calls are left of the seat's share.
    pub fn left(&mut self) -> u64 {
        self.seat().left()
    }
}

// Tries once to end the open call of a seat. Once no call is open, returns the item that the call has taken out, if there is one.
//
// SAFETY, of the caller: the seat belongs to a queue of words that own a `Box<T>` each.
unsafe fn try_end<T>(seat: &mut Seat) -> Step<Option<Box<T>>> {
    match seat.state() {
        State::Idle => Step::Done(None),
        State::Inserting(_) => seat.try_fill().map_or(Step::NotYet, |filled| filled.map(|()| None)),
        // SAFETY: the queue hands the word out once.
        State::Deleting(_) => seat.try_take().map_or(Step::NotYet, |taken| taken.map(|word| Some(unsafe { box_of(word) }))),
    }
}

impl<T: Send> Drop for BoxSeat<T> {
    fn drop(&mut self) {
        // SAFETY: it is not used again.
        let mut own = unsafe { ManuallyDrop::take(&mut self.own) };
        // SAFETY: the seat belongs to such a queue.
        match unsafe { try_end::<T>(&mut own.seat) } {
            Step::Done(item) => drop_all(item.into_iter()),
            Step::NotYet => self.queue.keep_open(own),
        }
    }
}

// The first seat of a list, which then is not in it.
fn pop(list: &mut *mut Node) -> Option<Box<Node>> {
    if list.is_null() {
        return None;
    }
    // SAFETY: a list owns its nodes, each once.
    let node = unsafe { Box::from_raw(*list) };
    *list = node.next;
    Some(node)
}

impl<T> Queue<T> {
    // Puts a seat that is in a call first into the list.
    fn keep_open(&self, own: Box<Node>) {
        let own = Box::into_raw(own);
        let mut first = self.open.load(SeqCst);
        loop {
            // SAFETY: the node belongs to this call until the exchange succeeds.
            unsafe { (*own).next = first };
            // The exchange publishes the node, so it must follow the write of `next`: the drop of the queue walks the list without a lock.
            match self.open.compare_exchange_weak(first, own, SeqCst, SeqCst) {
                Ok(_) => return,
                Err(found) => first = found,
            }
        }
    }

    // Takes out an item that an open call has claimed, or that is in the queue. None once no call is open and the queue is empty. The seats
    // whose calls were tried in this round, and stay open, are in `tried`.
    //
    // No other thread has a seat. So in each round at least one open call can go on.
    fn next_left(&mut self, tried: &mut *mut Node) -> Option<Box<T>> {
        loop {
            while let Some(mut node) = pop(self.open.get_mut()) {
                // SAFETY: the seat belongs to such a queue.
                match unsafe { try_end::<T>(&mut node.seat) } {
                    Step::Done(Some(item)) => return Some(item),
                    Step::Done(None) => {}
                    Step::NotYet => {
                        node.next = *tried;
                        *tried = Box::into_raw(node);
                    }
                }
            }
            let ended = tried.is_null();
            *self.open.get_mut() = core::mem::replace(tried, null_mut());
            // SAFETY: the seat belongs to such a queue.
            match unsafe { try_end::<T>(&mut self.keeper) } {
                Step::Done(Some(item)) => return Some(item),
                Step::Done(None) if self.keeper.claim_delete().is_err() && ended => return None,
                _ => {}
            }
        }
    }
}

impl<T> Drop for Queue<T> {
    fn drop(&mut self) {
        let mut tried = null_mut();
        drop_all(from_fn(|| self.next_left(&mut tried)));
    }
}
