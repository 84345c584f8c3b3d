//! An end of a channel, and its calls by steps.

use super::pause::Pause;
use super::token::Token;
use super::words::Words;
use crate::raw::{self, Handle};
use std::time::Instant;
use std::vec::Vec;

/// How long a call may sleep.
#[derive(Clone, Copy)]
pub(super) enum Patience {
    Never,
    Until(Instant),
    Forever,
}

impl Patience {
    pub(super) fn is_never(self) -> bool {
        matches!(self, Patience::Never)
    }

    /// The time at which it is over, if there is one.
    pub(super) fn until(self) -> Option<Instant> {
        match self {
            Patience::Until(until) => Some(until),
            Patience::Never | Patience::Forever => None,
        }
    }
}

/// Why an item was not sent, or none received.
#[derive(Clone, Copy, Debug, PartialEq)]
pub(super) enum Refusal {
    Closed,
    Worn,
    /// The call would have slept, or would have slept on.
    GaveUp,
}

// The meaning of a code that ends a call.
fn outcome(code: i32) -> Result<(), Refusal> {
    match code {
        raw::OK => Ok(()),
        raw::CLOSED => Err(Refusal::Closed),
        raw::WORN => Err(Refusal::Worn),
        raw::FULL | raw::EMPTY | raw::GAVE_UP => Err(Refusal::GaveUp),
        code => unreachable!("an idle end returned {code}"),
    }
}

/// An end, idle between two calls. Its drop leaves the channel.
pub(super) struct End {
    handle: Handle,
    // The number of its token.
    number: usize,
}

// SAFETY: `fak_c` proves that a handle may go to another thread.
unsafe impl Send for End {}

impl Drop for End {
    fn drop(&mut self) {
        // SAFETY: a handle of its own; a refused call changes nothing.
        unsafe { raw::fak_c_leave(&mut self.handle) };
    }
}

// SAFETY of the calls below: each handle belongs to its end, and what the pointers point to is local and was written.

impl End {
    /// The ends of these handles, which `fak_channel_open` has filled.
    pub(super) fn all(handles: Vec<Handle>) -> impl Iterator<Item = End> {
        handles.into_iter().enumerate().map(|(number, handle)| End { handle, number })
    }

    /// Sends the item of the words. If it is refused, they own it again.
    pub(super) fn send(&mut self, tokens: &[Token], words: &mut Words, patience: Patience) -> Result<(), Refusal> {
        outcome(unsafe {
            if patience.is_never() {
                raw::fak_channel_begin_try_send(&mut self.handle, words)
            } else {
                raw::fak_channel_begin_send(&mut self.handle, words)
            }
        })?;
        self.finish(tokens, words, patience)
    }

    /// Receives an item. Returns its words.
    pub(super) fn receive(&mut self, tokens: &[Token], patience: Patience) -> Result<Words, Refusal> {
        outcome(unsafe {
            if patience.is_never() {
                raw::fak_channel_begin_try_receive(&mut self.handle)
            } else {
                raw::fak_channel_begin_receive(&mut self.handle)
            }
        })?;
        let mut words = Words::empty();
        self.finish(tokens, &mut words, patience).map(|()| words)
    }

    /// Closes the channel. Refused if it was closed before.
    pub(super) fn close(&mut self, tokens: &[Token]) -> Result<(), Refusal> {
        outcome(unsafe { raw::fak_channel_begin_close(&mut self.handle) })?;
        self.finish(tokens, &mut Words::empty(), Patience::Forever)
    }

    // Steps until the open call is done.
    fn finish(&mut self, tokens: &[Token], words: &mut Words, patience: Patience) -> Result<(), Refusal> {
        let mut pause = Pause::new();
        let mut number = 0;
        loop {
            match unsafe { raw::fak_channel_step(&mut self.handle, words, &mut number) } {
                raw::NOT_YET => pause.pause(),
                raw::WAKES => tokens[number as usize].set(),
                raw::SLEEPS => {
                    if !patience.is_never() && tokens[self.number].wait(patience.until()) {
                        continue;
                    }
                    match unsafe { raw::fak_channel_give_up(&mut self.handle, words) } {
                        raw::NOT_YET => pause = Pause::new(),
                        code => return outcome(code),
                    }
                }
                code => return outcome(code),
            }
        }
    }

    /// How many items are ready.
    pub(super) fn len(&mut self) -> usize {
        let mut items = 0;
        // An end is not refused.
        unsafe { raw::fak_channel_len(&mut self.handle, &mut items) };
        items as usize
    }

    /// Whether the channel is closed.
    pub(super) fn is_closed(&mut self) -> bool {
        let mut is_closed = false;
        unsafe { raw::fak_channel_is_closed(&mut self.handle, &mut is_closed) };
        is_closed
    }

    /// How many calls are left of its stint.
    pub(super) fn left(&mut self) -> u64 {
        let (mut number, mut state, mut left) = (0, 0, 0);
        unsafe { raw::fak_channel_state(&mut self.handle, &mut number, &mut state, &mut left) };
        left
    }
}
