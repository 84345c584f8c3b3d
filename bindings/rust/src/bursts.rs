//! Bundles: several seats of one queue, which insert and delete together by bursts.

#[cfg(feature = "alloc")]
use crate::{empty_handles, limits, made};
use crate::{opened, raw, Bundle, Fault, Seat, State};
#[cfg(feature = "alloc")]
use alloc::vec::Vec;

/// What a burst has claimed, and how far it has come.
#[derive(Clone, Copy, Debug, PartialEq, Eq)]
pub struct Burst {
    /// The ticket of the first item. Those of the others follow it in order.
    pub ticket: u64,
    /// How many items were claimed: the first ones of the slice, at least 1.
    pub count: usize,
    /// How many of these are not done. If it is above 0, go on with `try_fill_burst` or `try_take_burst`.
    pub left: usize,
}

// SAFETY of the calls below: each handle belongs to its bundle, slices are pointers with their lengths, and out-pointers are locals that
// were written.

impl Bundle {
    /// Opens a queue of `size` cells, 1 to 2^24. Returns N seats, and M bundles of `width` seats each. M and `width` are at least 1, and
    /// N + M * `width` is at most 1,024. Each seat may make `stint` calls, and a bundle `width` * `stint`, which its seats share. All
    /// together make at most 2^50. The arrays lie on the stack: several times 128 bytes a handle.
    pub fn open<const N: usize, const M: usize>(width: u64, size: u64, stint: u64) -> Result<([Seat; N], [Bundle; M]), Fault> {
        let mut bundles = Err(Fault::BadLimit);
        let seats = opened::<N>(|seats| {
            let mut code = raw::OK;
            bundles = opened::<M>(|bundles| {
                code = unsafe { raw::fak_c_open_bundles(seats, N, bundles, M, width, size, stint) };
                code
            });
            code
        })?;
        Ok((seats.map(Seat), bundles?.map(Bundle)))
    }

    /// As `open`, with numbers of seats and bundles that are known at run time.
    #[cfg(feature = "alloc")]
    pub fn open_vec(n: usize, m: usize, width: u64, size: u64, stint: u64) -> Result<(Vec<Seat>, Vec<Bundle>), Fault> {
        if !limits::is_bundles(n, m, width) {
            return Err(Fault::BadLimit);
        }
        let (mut seats, mut bundles) = (empty_handles(n)?, empty_handles(m)?);
        let code = unsafe { raw::fak_c_open_bundles(seats.as_mut_ptr(), n, bundles.as_mut_ptr(), m, width, size, stint) };
        made(code, ())?;
        Ok((seats.into_iter().map(Seat).collect(), bundles.into_iter().map(Bundle).collect()))
    }

    /// Claims room for the first items, as many as find it, by one claim, and fills the cells whose turn has come. The bundle keeps the
    /// claimed items that are left. Those that were not claimed stay with the caller. An empty slice is `BadLimit`.
    pub fn insert_burst(&mut self, items: &[u64]) -> Result<Burst, Fault> {
        let (mut ticket, mut count) = (0, 0);
        let code = unsafe { raw::fak_c_insert_burst(&mut self.0, items.as_ptr(), items.len(), &mut ticket, &mut count) };
        let left = match code {
            raw::OK => 0,
            raw::NOT_YET => self.unfinished(),
            _ => return Err(Fault::of(code)),
        };
        Ok(burst(ticket, count, left))
    }

    /// Goes on with a burst of insertions. Returns how many items are left.
    pub fn try_fill_burst(&mut self) -> Result<usize, Fault> {
        let mut left = 0;
        match unsafe { raw::fak_c_try_fill_burst(&mut self.0, &mut left) } {
            raw::OK | raw::NOT_YET => Ok(left as usize),
            code => Err(Fault::of(code)),
        }
    }

    /// Claims the oldest items by one claim, no more than the slice has places for. Takes out those whose turn has come, to its first
    /// `count - left` places. An empty slice is `BadLimit`.
    pub fn delete_burst(&mut self, items: &mut [u64]) -> Result<Burst, Fault> {
        let (mut ticket, mut count, mut taken) = (0, 0, 0);
        let (first, n) = (items.as_mut_ptr(), items.len());
        match unsafe { raw::fak_c_delete_burst(&mut self.0, first, n, &mut ticket, &mut count, &mut taken) } {
            raw::OK | raw::NOT_YET => Ok(burst(ticket, count, count - taken)),
            code => Err(Fault::of(code)),
        }
    }

    /// Goes on with a burst of deletions: takes out further items, to the first places of the slice, as many as there are places. Returns
    /// how many it took out. An item that has left its cell and finds no place waits in the bundle for the next call.
    pub fn try_take_burst(&mut self, items: &mut [u64]) -> Result<usize, Fault> {
        let (mut taken, mut left) = (0, 0);
        match unsafe { raw::fak_c_try_take_burst(&mut self.0, items.as_mut_ptr(), items.len(), &mut taken, &mut left) } {
            raw::OK | raw::NOT_YET => Ok(taken as usize),
            code => Err(Fault::of(code)),
        }
    }

    /// Whether a burst is open, and the ticket of its first item that is not in its cell, or not handed out.
    pub fn state(&mut self) -> State {
        let (state, ticket, ..) = self.look();
        match state {
            raw::INSERTING => State::Inserting(ticket),
            raw::DELETING => State::Deleting(ticket),
            _ => State::Idle,
        }
    }

    /// How many items of the open burst are not in their cells, or not handed out: 0 if none is open.
    pub fn unfinished(&mut self) -> u64 {
        self.look().2
    }

    /// How many seats the bundle has, which is the most items of one burst.
    pub fn width(&mut self) -> u64 {
        self.look().3
    }

    /// How many calls are left of its stint. Each item of a burst is one.
    pub fn left(&mut self) -> u64 {
        self.look().4
    }

    fn look(&mut self) -> (u32, u64, u64, u64, u64) {
        let (mut state, mut ticket, mut open, mut width, mut left) = (0, 0, 0, 0, 0);
        // A bundle is not refused.
        unsafe { raw::fak_c_bundle_state(&mut self.0, &mut state, &mut ticket, &mut open, &mut width, &mut left) };
        (state, ticket, open, width, left)
    }
}

fn burst(ticket: u64, count: u64, left: u64) -> Burst {
    Burst {
        ticket,
        count: count as usize,
        left: left as usize,
    }
}
