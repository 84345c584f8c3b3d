//! Seats of the proved objects of `libfak_c.a`, for plain Rust. No call of a seat waits, and only those that open allocate. With the
//! feature `std` there is a `channel` too, whose threads sleep.
//!
//! The calls are safe, since the types keep what `fak_c.h` asks of C. A call takes `&mut self`, so a handle is in one call at a time. A
//! handle is moved, never copied, and out-pointers are locals. A seat may go to another thread (`Send`), as the crate `fak_c` proves of a
//! handle. The program that links it brings the heap, and opens and drops no seat in an interrupt or signal handler.
#![no_std]

#[cfg(feature = "alloc")]
extern crate alloc;
#[cfg(feature = "std")]
extern crate std;

#[cfg(feature = "alloc")]
mod boxes;
mod bursts;
#[cfg(feature = "std")]
pub mod channel;
#[cfg(feature = "alloc")]
mod drops;
mod fault;
pub mod limits;
mod raw;

#[cfg(feature = "alloc")]
pub use boxes::{BoxSeat, Refused};
pub use bursts::Burst;
pub use fault::Fault;

#[cfg(feature = "alloc")]
use alloc::vec::Vec;
use core::mem::MaybeUninit;
use raw::Handle;

/// How far a call has come.
#[derive(Clone, Copy, Debug, PartialEq, Eq)]
pub enum Step<T> {
    /// It is done.
    Done(T),
    /// It stays open: go on with `try_fill`, `try_take`, `try_park` or `try_wake`.
    NotYet,
}

impl<T> Step<T> {
    /// The same, with its value changed.
    pub fn map<U>(self, change: impl FnOnce(T) -> U) -> Step<U> {
        match self {
            Step::Done(value) => Step::Done(change(value)),
            Step::NotYet => Step::NotYet,
        }
    }
}

/// Whether a call of a queue's seat is open, and its ticket.
#[derive(Clone, Copy, Debug, PartialEq, Eq)]
pub enum State {
    /// No call is open.
    Idle,
    /// An insertion was claimed: `try_fill` is next.
    Inserting(u64),
    /// A deletion was claimed: `try_take` is next.
    Deleting(u64),
}

/// The cells of a queue that are in use, and whether the queue is shut, as one load found them.
#[derive(Clone, Copy, Debug, PartialEq, Eq)]
pub struct InUse {
    /// Insertions begun and not withdrawn, minus deletions that have ended: at least 0, and above the size while insertions are refused.
    pub cells: i64,
    /// Whether the queue is shut.
    pub is_shut: bool,
}

/// Whether a call of a semaphore's seat is open.
#[derive(Clone, Copy, Debug, PartialEq, Eq)]
pub enum SemState {
    /// No call is open.
    Idle,
    /// A down parks its item: `try_park` is next.
    Parking,
    /// An up owes a wake: `try_wake` is next.
    Waking,
}

/// What a seat of a file table holds.
#[derive(Clone, Copy, Debug, PartialEq, Eq)]
pub enum Hold {
    /// Nothing.
    Nothing,
    /// A reader's hold: others may read.
    Reading,
    /// A writer's hold: no other seat holds the table.
    Writing,
}

fn made<T>(code: i32, value: T) -> Result<T, Fault> {
    if code == raw::OK {
        Ok(value)
    } else {
        Err(Fault::of(code))
    }
}

fn step<T>(code: i32, value: T) -> Result<Step<T>, Fault> {
    match code {
        raw::OK => Ok(Step::Done(value)),
        raw::NOT_YET | raw::PARKS | raw::WAKES => Ok(Step::NotYet),
        _ => Err(Fault::of(code)),
    }
}

// N handles, filled by `open`.
fn opened<const N: usize>(open: impl FnOnce(*mut Handle) -> i32) -> Result<[Handle; N], Fault> {
    let mut seats: MaybeUninit<[Handle; N]> = MaybeUninit::uninit();
    let first = seats.as_mut_ptr().cast::<Handle>();
    for i in 0..N {
        // SAFETY: the place lies in the array.
        unsafe { first.add(i).write(Handle::EMPTY) };
    }
    // SAFETY: all N places were written.
    made(open(first), ()).map(|()| unsafe { seats.assume_init() })
}

// n handles, filled by `open`.
#[cfg(feature = "alloc")]
fn opened_vec(n: usize, open: impl FnOnce(*mut Handle) -> i32) -> Result<Vec<Handle>, Fault> {
    if !limits::is_seats(n) {
        return Err(Fault::BadLimit);
    }
    let mut seats = empty_handles(n)?;
    made(open(seats.as_mut_ptr()), seats)
}

#[cfg(feature = "alloc")]
fn empty_handles(n: usize) -> Result<Vec<Handle>, Fault> {
    let mut seats = Vec::new();
    seats.try_reserve_exact(n).map_err(|_| Fault::Memory)?;
    seats.resize_with(n, || Handle::EMPTY);
    Ok(seats)
}

macro_rules! seats {
    ($($(#[$doc:meta])* $name:ident;)*) => {$(
        $(#[$doc])*
        ///
        /// Its drop gives it up. That is refused during a call, or while it holds something: then its object is never freed.
        pub struct $name(Handle);

        // SAFETY: `fak_c` proves that a handle may go to another thread.
        unsafe impl Send for $name {}

        impl Drop for $name {
            fn drop(&mut self) {
                // SAFETY: a handle of its own; a refused call changes nothing.
                unsafe { raw::fak_c_leave(&mut self.0) };
            }
        }
    )*};
}

seats! {
    /// A seat of a bounded queue of numbers, first in first out.
    Seat;
    /// A bundle: several seats of one queue, which insert and delete together, by bursts.
    Bundle;
    /// A seat of a semaphore whose waiting items are numbers.
    SemSeat;
    /// A seat of a room: a count from 0 to a bound, of which seats claim amounts.
    RoomSeat;
    /// A seat of a credit: a count that moves by 1.
    CreditSeat;
    /// A seat of a file table, whose entries many seats read at once, or one seat writes.
    FileSeat;
}

// SAFETY of the calls below: each handle is the seat's own, and out-pointers are locals that were written.

impl Seat {
    /// Opens a queue of `size` cells, 1 to 2^24. Returns its N seats, 1 to 1,024. Each may make `stint` calls: at least 1, and N times the
    /// stint is at most 2^50. The same limits hold for seats of every kind. The array lies on the stack: several times 128 bytes a seat.
    pub fn open<const N: usize>(size: u64, stint: u64) -> Result<[Seat; N], Fault> {
        opened::<N>(|seats| unsafe { raw::fak_c_open(seats, N, size, stint) }).map(|all| all.map(Seat))
    }

    /// As `open`, with a number of seats that is known at run time.
    #[cfg(feature = "alloc")]
    pub fn open_vec(n: usize, size: u64, stint: u64) -> Result<Vec<Seat>, Fault> {
        Ok(opened_vec(n, |seats| unsafe { raw::fak_c_open(seats, n, size, stint) })?.into_iter().map(Seat).collect())
    }

    /// Claims room. Returns the ticket, which is the number of insertions granted before. The seat keeps the item, and `try_fill` is next.
    pub fn claim_insert(&mut self, item: u64) -> Result<u64, Fault> {
        let mut ticket = 0;
        let code = unsafe { raw::fak_c_claim_insert(&mut self.0, item, &mut ticket) };
        made(code, ticket)
    }

    /// Claims room, and tries once. Returns the ticket. If the call stays open, the seat keeps the item.
    pub fn insert(&mut self, item: u64) -> Result<Step<u64>, Fault> {
        let mut ticket = 0;
        let code = unsafe { raw::fak_c_insert(&mut self.0, item, &mut ticket) };
        step(code, ticket)
    }

    /// Leaves the queue to others for a while, if the seat has found that they use it too. It spins for some tens of microseconds, on
    /// average at most once in some 100 tickets. With the archive by `--backend rattle` it does nothing. Not for an interrupt or signal
    /// handler.
    pub fn pause(&mut self) {
        // A seat of a queue is not refused.
        unsafe { raw::fak_c_pause(&mut self.0) };
    }

    /// Tries once more to end an insertion.
    pub fn try_fill(&mut self) -> Result<Step<()>, Fault> {
        step(unsafe { raw::fak_c_try_fill(&mut self.0) }, ())
    }

    /// Claims an item. Returns the ticket under which the item was inserted. `try_take` is next.
    pub fn claim_delete(&mut self) -> Result<u64, Fault> {
        let mut ticket = 0;
        let code = unsafe { raw::fak_c_claim_delete(&mut self.0, &mut ticket) };
        made(code, ticket)
    }

    /// Claims an item, and tries once. Returns the item.
    pub fn delete(&mut self) -> Result<Step<u64>, Fault> {
        Ok(self.delete_with_ticket()?.map(|(_, item)| item))
    }

    /// Claims an item, and tries once. Returns the ticket and the item. If the call stays open, `state` has the ticket.
    pub fn delete_with_ticket(&mut self) -> Result<Step<(u64, u64)>, Fault> {
        let (mut ticket, mut item) = (0, 0);
        let code = unsafe { raw::fak_c_delete(&mut self.0, &mut ticket, &mut item) };
        step(code, (ticket, item))
    }

    /// Tries once more to end a deletion.
    pub fn try_take(&mut self) -> Result<Step<u64>, Fault> {
        let mut item = 0;
        let code = unsafe { raw::fak_c_try_take(&mut self.0, &mut item) };
        step(code, item)
    }

    /// Shuts the queue. Returns whether it was open.
    pub fn shut(&mut self) -> Result<bool, Fault> {
        let mut was_open = false;
        let code = unsafe { raw::fak_c_shut(&mut self.0, &mut was_open) };
        made(code, was_open)
    }

    /// How many items are ready: insertions that have ended, minus the deletions begun and not withdrawn. While no seat has an open call
    /// it is the number of items. It is below 0 while deletions are refused.
    pub fn count(&mut self) -> i64 {
        let mut items = 0;
        // A seat of a queue is not refused.
        unsafe { raw::fak_c_count(&mut self.0, &mut items) };
        items
    }

    /// The cells in use, and whether the queue is shut.
    pub fn in_use(&mut self) -> InUse {
        let (mut cells, mut is_shut) = (0, false);
        unsafe { raw::fak_c_in_use(&mut self.0, &mut cells, &mut is_shut) };
        InUse { cells, is_shut }
    }

    /// Whether the queue is shut and has no cell in use: then no deletion finds an item from now on. A consumer that has read `Empty`
    /// stops there.
    pub fn is_drained(&mut self) -> bool {
        let mut is_drained = false;
        unsafe { raw::fak_c_drained(&mut self.0, &mut is_drained) };
        is_drained
    }

    /// Whether a call is open, and its ticket.
    pub fn state(&mut self) -> State {
        let (state, ticket, _) = self.look();
        match state {
            raw::INSERTING => State::Inserting(ticket),
            raw::DELETING => State::Deleting(ticket),
            _ => State::Idle,
        }
    }

    /// How many calls are left of the stint.
    pub fn left(&mut self) -> u64 {
        self.look().2
    }

    fn look(&mut self) -> (u32, u64, u64) {
        let (mut state, mut ticket, mut left) = (0, 0, 0);
        // A seat of a queue is not refused.
        unsafe { raw::fak_c_state(&mut self.0, &mut state, &mut ticket, &mut left) };
        (state, ticket, left)
    }
}

impl SemSeat {
    /// Opens a semaphore that begins at `start`, 0 to 2^32, with a wait queue of `size` cells, 1 to 2^24. Returns its N seats.
    pub fn open<const N: usize>(start: u64, size: u64, stint: u64) -> Result<[SemSeat; N], Fault> {
        opened::<N>(|seats| unsafe { raw::fak_c_sem_open(seats, N, start, size, stint) }).map(|all| all.map(SemSeat))
    }

    /// As `open`, with a number of seats that is known at run time.
    #[cfg(feature = "alloc")]
    pub fn open_vec(n: usize, start: u64, size: u64, stint: u64) -> Result<Vec<SemSeat>, Fault> {
        Ok(opened_vec(n, |seats| unsafe { raw::fak_c_sem_open(seats, n, start, size, stint) })?.into_iter().map(SemSeat).collect())
    }

    /// Begins a down of the item: `Done` if it passes, `NotYet` if `try_park` is next.
    pub fn down(&mut self, item: u64) -> Result<Step<()>, Fault> {
        step(unsafe { raw::fak_c_sem_claim_down(&mut self.0, item) }, ())
    }

    /// Takes one more step of a down: `Done` if the item is parked.
    pub fn try_park(&mut self) -> Result<Step<()>, Fault> {
        step(unsafe { raw::fak_c_sem_try_park(&mut self.0) }, ())
    }

    /// Begins an up: `Done` if it wakes no item, `NotYet` if `try_wake` is next.
    pub fn up(&mut self) -> Result<Step<()>, Fault> {
        step(unsafe { raw::fak_c_sem_claim_up(&mut self.0) }, ())
    }

    /// Takes one more step of an up. Returns the woken item.
    pub fn try_wake(&mut self) -> Result<Step<u64>, Fault> {
        let mut item = 0;
        let code = unsafe { raw::fak_c_sem_try_wake(&mut self.0, &mut item) };
        step(code, item)
    }

    /// Whether a call is open.
    pub fn state(&mut self) -> SemState {
        match self.look().0 {
            raw::PARKING => SemState::Parking,
            raw::WAKING => SemState::Waking,
            _ => SemState::Idle,
        }
    }

    /// How many calls are left of the stint.
    pub fn left(&mut self) -> u64 {
        self.look().1
    }

    fn look(&mut self) -> (u32, u64) {
        let (mut state, mut left) = (0, 0);
        unsafe { raw::fak_c_sem_state(&mut self.0, &mut state, &mut left) };
        (state, left)
    }
}

impl RoomSeat {
    /// Opens a room whose count is 0, with this bound, 0 to 2^32. Returns its N seats.
    pub fn open<const N: usize>(bound: u64, stint: u64) -> Result<[RoomSeat; N], Fault> {
        opened::<N>(|seats| unsafe { raw::fak_c_room_open(seats, N, bound, stint) }).map(|all| all.map(RoomSeat))
    }

    /// As `open`, with a number of seats that is known at run time.
    #[cfg(feature = "alloc")]
    pub fn open_vec(n: usize, bound: u64, stint: u64) -> Result<Vec<RoomSeat>, Fault> {
        Ok(opened_vec(n, |seats| unsafe { raw::fak_c_room_open(seats, n, bound, stint) })?.into_iter().map(RoomSeat).collect())
    }

    /// Claims the amount, 1 to 1,024. Returns the count before.
    pub fn claim(&mut self, amount: u64) -> Result<i64, Fault> {
        let mut found = 0;
        match unsafe { raw::fak_c_room_tir(&mut self.0, amount, &mut found) } {
            raw::FULL => Err(Fault::AtBound(found)),
            code => made(code, found),
        }
    }

    /// Gives the amount back, no more than the seat holds. Returns the count before.
    pub fn release(&mut self, amount: u64) -> Result<i64, Fault> {
        let mut found = 0;
        let code = unsafe { raw::fak_c_room_release(&mut self.0, amount, &mut found) };
        made(code, found)
    }

    /// How much the seat holds.
    pub fn held(&mut self) -> u64 {
        self.look().0
    }

    /// How many claims are left of the stint.
    pub fn left(&mut self) -> u64 {
        self.look().1
    }

    fn look(&mut self) -> (u64, u64) {
        let (mut held, mut left) = (0, 0);
        unsafe { raw::fak_c_room_state(&mut self.0, &mut held, &mut left) };
        (held, left)
    }
}

impl CreditSeat {
    /// Opens a credit that begins at `start`, 0 to 2^32. Returns its N seats.
    pub fn open<const N: usize>(start: u64, stint: u64) -> Result<[CreditSeat; N], Fault> {
        opened::<N>(|seats| unsafe { raw::fak_c_credit_open(seats, N, start, stint) }).map(|all| all.map(CreditSeat))
    }

    /// As `open`, with a number of seats that is known at run time.
    #[cfg(feature = "alloc")]
    pub fn open_vec(n: usize, start: u64, stint: u64) -> Result<Vec<CreditSeat>, Fault> {
        Ok(opened_vec(n, |seats| unsafe { raw::fak_c_credit_open(seats, n, start, stint) })?.into_iter().map(CreditSeat).collect())
    }

    /// Subtracts 1. Returns the count before.
    pub fn debit(&mut self) -> Result<i64, Fault> {
        let mut found = 0;
        let code = unsafe { raw::fak_c_credit_debit(&mut self.0, &mut found) };
        made(code, found)
    }

    /// Adds 1. Returns the count before.
    pub fn credit(&mut self) -> Result<i64, Fault> {
        let mut found = 0;
        let code = unsafe { raw::fak_c_credit_credit(&mut self.0, &mut found) };
        made(code, found)
    }

    /// The count.
    pub fn value(&mut self) -> i64 {
        self.look().0
    }

    /// How many calls are left of the stint.
    pub fn left(&mut self) -> u64 {
        self.look().1
    }

    fn look(&mut self) -> (i64, u64) {
        let (mut value, mut left) = (0, 0);
        unsafe { raw::fak_c_credit_value(&mut self.0, &mut value, &mut left) };
        (value, left)
    }
}

impl FileSeat {
    /// Opens a table of this many entries, 1 to 16. Returns its N seats.
    pub fn open<const N: usize>(entries: u64, stint: u64) -> Result<[FileSeat; N], Fault> {
        opened::<N>(|seats| unsafe { raw::fak_c_files_open(seats, N, entries, stint) }).map(|all| all.map(FileSeat))
    }

    /// As `open`, with a number of seats that is known at run time.
    #[cfg(feature = "alloc")]
    pub fn open_vec(n: usize, entries: u64, stint: u64) -> Result<Vec<FileSeat>, Fault> {
        Ok(opened_vec(n, |seats| unsafe { raw::fak_c_files_open(seats, n, entries, stint) })?.into_iter().map(FileSeat).collect())
    }

    /// Takes a reader's hold, by one attempt.
    pub fn try_read(&mut self) -> Result<(), Fault> {
        let mut count = 0;
        match unsafe { raw::fak_c_files_try_read(&mut self.0, &mut count) } {
            raw::BUSY => Err(Fault::Busy(count)),
            code => made(code, ()),
        }
    }

    /// Takes a writer's hold, by one attempt.
    pub fn try_write(&mut self) -> Result<(), Fault> {
        let mut count = 0;
        match unsafe { raw::fak_c_files_try_write(&mut self.0, &mut count) } {
            raw::BUSY => Err(Fault::Busy(count)),
            code => made(code, ()),
        }
    }

    /// Returns both fields of an entry, `inode` and `uses`. The seat has a hold.
    pub fn get(&mut self, entry: u64) -> Result<(u64, u64), Fault> {
        let (mut inode, mut uses) = (0, 0);
        let code = unsafe { raw::fak_c_files_get(&mut self.0, entry, &mut inode, &mut uses) };
        made(code, (inode, uses))
    }

    /// Sets the inode of an entry. The seat has a writer's hold.
    pub fn set_inode(&mut self, entry: u64, to: u64) -> Result<(), Fault> {
        made(unsafe { raw::fak_c_files_set_inode(&mut self.0, entry, to) }, ())
    }

    /// Sets the uses of an entry. The seat has a writer's hold.
    pub fn set_uses(&mut self, entry: u64, to: u64) -> Result<(), Fault> {
        made(unsafe { raw::fak_c_files_set_uses(&mut self.0, entry, to) }, ())
    }

    /// Gives the hold back.
    pub fn end(&mut self) -> Result<(), Fault> {
        made(unsafe { raw::fak_c_files_end(&mut self.0) }, ())
    }

    /// What the seat holds.
    pub fn hold(&mut self) -> Hold {
        let mut hold = 0;
        unsafe { raw::fak_c_files_hold(&mut self.0, &mut hold) };
        match hold {
            raw::READING => Hold::Reading,
            raw::WRITING => Hold::Writing,
            _ => Hold::Nothing,
        }
    }
}
