//! What the handles of a channel share, and how each gets an end for a call.

use super::end::{End, Patience, Refusal};
use super::token::{lock, Token};
use super::turn::Turn;
use super::words::Words;
use crate::drops::drop_all;
use crate::{limits, opened_vec, raw, Fault};
use std::cell::{Cell, UnsafeCell};
use std::iter::from_fn;
use std::marker::PhantomData;
use std::mem::ManuallyDrop;
use std::sync::atomic::AtomicUsize;
use std::sync::{Arc, Mutex, MutexGuard};
use std::vec::Vec;

/// What all handles share. The ends of the channel are each in one place: here, or in a `Lent`.
pub(super) struct Shared<T> {
    tokens: Vec<Token>,
    // Closes the channel, and takes out what is left in it. No handle has it, so no other call counts against its stint.
    keeper: Mutex<Keeper>,
    // Serves tries by handles whose own end another call has.
    guest: Mutex<End>,
    // The ends that no handle has. There is room for all.
    free: Mutex<Vec<End>>,
    pub(super) senders: AtomicUsize,
    pub(super) receivers: AtomicUsize,
    pub(super) size: usize,
    // One handle sends what another receives, so the items of all have the same type and lifetime.
    items: PhantomData<Cell<T>>,
}

struct Keeper {
    end: End,
    is_closed: bool,
}

// SAFETY: the ends go to one thread at a time, behind locks, and the items are sent from thread to thread.
unsafe impl<T: Send> Send for Shared<T> {}
// SAFETY: the same; no handle lends an item.
unsafe impl<T: Send> Sync for Shared<T> {}

impl<T> Shared<T> {
    /// Opens a channel with these ends for handles, and those that it keeps.
    pub(super) fn open(size: usize, ends: usize, stint: u64) -> Result<Shared<T>, Fault> {
        if !limits::is_channel_stint(ends, size, stint) {
            return Err(Fault::BadLimit);
        }
        let n = ends + limits::CHANNEL_KEEPS;
        let mut free = Vec::new();
        let mut tokens = Vec::new();
        free.try_reserve_exact(n).map_err(|_| Fault::Memory)?;
        tokens.try_reserve_exact(n).map_err(|_| Fault::Memory)?;
        tokens.resize_with(n, Token::new);
        // SAFETY: n empty handles.
        let handles = opened_vec(n, |handles| unsafe { raw::fak_channel_open(handles, n, size as u64, stint) })?;
        free.extend(End::all(handles));
        let (Some(end), Some(guest)) = (free.pop(), free.pop()) else {
            return Err(Fault::BadLimit);
        };
        Ok(Shared {
            tokens,
            keeper: Mutex::new(Keeper { end, is_closed: false }),
            guest: Mutex::new(guest),
            free: Mutex::new(free),
            senders: AtomicUsize::new(1),
            receivers: AtomicUsize::new(1),
            size,
            items: PhantomData,
        })
    }

    /// Closes the channel. Returns whether it was open.
    pub(super) fn close(&self) -> bool {
        let mut keeper = lock(&self.keeper);
        if keeper.is_closed {
            return false;
        }
        let closed = keeper.end.close(&self.tokens);
        keeper.is_closed = closed != Err(Refusal::Worn);
        closed.is_ok()
    }

    /// The last sender is gone.
    pub(super) fn no_sender(&self) {
        self.close();
    }

    /// The last receiver is gone.
    pub(super) fn no_receiver(&self) {
        self.close();
        self.drain();
    }

    // Drops what is left in the closed channel. It waits for sends that are about to end.
    fn drain(&self) {
        drop_all(from_fn(|| self.take_left()));
    }

    // It gives the lock back: the drop of the item may make calls.
    fn take_left(&self) -> Option<T> {
        let mut keeper = lock(&self.keeper);
        if !keeper.is_closed {
            return None;
        }
        let words = keeper.end.receive(&self.tokens, Patience::Forever).ok()?;
        // SAFETY: they were received.
        Some(unsafe { words.into_item() })
    }

    fn guest(&self) -> MutexGuard<'_, End> {
        lock(&self.guest)
    }

    // The free end that has the most calls left.
    fn freshest(&self) -> Option<End> {
        let mut free = lock(&self.free);
        let most = (0..free.len()).max_by_key(|&at| free[at].left())?;
        Some(free.swap_remove(most))
    }
}

/// An end that one or more handles have. Each call takes its turn. When the last handle is dropped, the end is free again.
pub(super) struct Lent<T> {
    turn: Turn,
    end: UnsafeCell<ManuallyDrop<End>>,
    pub(super) shared: Arc<Shared<T>>,
}

// SAFETY: an end may go to another thread.
unsafe impl<T: Send> Send for Lent<T> {}
// SAFETY: only the call that has the turn uses the end.
unsafe impl<T: Send> Sync for Lent<T> {}

// The turn of a call.
struct Loan<'a, T>(&'a Lent<T>);

impl<T> Drop for Loan<'_, T> {
    fn drop(&mut self) {
        self.0.turn.give();
    }
}

impl<T> Lent<T> {
    /// A free end, if there is one.
    pub(super) fn of(shared: &Arc<Shared<T>>) -> Option<Arc<Lent<T>>> {
        let end = shared.freshest()?;
        Some(Arc::new(Lent {
            turn: Turn::new(),
            end: UnsafeCell::new(ManuallyDrop::new(end)),
            shared: Arc::clone(shared),
        }))
    }

    fn take(&self, patience: Patience) -> Option<Loan<'_, T>> {
        let is_taken = if patience.is_never() { self.turn.try_take() } else { self.turn.take(patience.until()) };
        is_taken.then(|| Loan(self))
    }

    /// Makes a call by this end. If others have it for too long, tries the call by the guest's end.
    pub(super) fn call<A>(&self, patience: Patience, call: impl FnOnce(&mut End, &[Token], Patience) -> A) -> A {
        let tokens = &self.shared.tokens;
        let Some(loan) = self.take(patience) else {
            return call(&mut self.shared.guest(), tokens, Patience::Never);
        };
        // SAFETY: the loan is the turn, which is given back after the call.
        let answer = call(unsafe { &mut *self.end.get() }, tokens, patience);
        drop(loan);
        answer
    }

    /// Sends the item. If it is not sent, returns why, and the item.
    pub(super) fn send(&self, item: T, patience: Patience) -> Result<(), (Refusal, T)> {
        let mut words = Words::of(item);
        let sent = self.call(patience, |end, tokens, patience| end.send(tokens, &mut words, patience));
        // SAFETY: the item was refused, so the words own it.
        sent.map_err(|refusal| (refusal, unsafe { words.into_item() }))
    }

    /// Receives an item.
    pub(super) fn receive(&self, patience: Patience) -> Result<T, Refusal> {
        let words = self.call(patience, |end, tokens, patience| end.receive(tokens, patience))?;
        // SAFETY: they were received, and only `send` puts words in.
        Ok(unsafe { words.into_item() })
    }

    /// How many items are ready.
    pub(super) fn len(&self) -> usize {
        self.call(Patience::Never, |end, _, _| end.len())
    }

    /// Whether the channel is closed.
    pub(super) fn is_closed(&self) -> bool {
        self.call(Patience::Never, |end, _, _| end.is_closed())
    }
}

impl<T> Drop for Lent<T> {
    fn drop(&mut self) {
        // SAFETY: it is not used again.
        let end = unsafe { ManuallyDrop::take(self.end.get_mut()) };
        lock(&self.shared.free).push(end);
    }
}
