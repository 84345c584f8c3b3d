//! The numbers that an object may be opened with. A call that opens is refused as `Fault::BadLimit` exactly if one of these is false.
//! A `BoxSeat` is opened together with one more seat.

/// The most seats of an object.
pub const MOST_SEATS: usize = 1_024;
/// The most cells of a queue, or of the wait queue of a semaphore.
pub const MOST_CELLS: u64 = 1 << 24;
/// The most calls of all seats of an object together.
pub const MOST_CALLS: u64 = 1 << 50;
/// The most that a semaphore or a credit begins at, and the highest bound of a room.
pub const MOST_START: u64 = 1 << 32;
/// The most entries of a file table.
pub const MOST_ENTRIES: u64 = 16;
/// The most that one claim of a room asks for.
pub const MOST_AMOUNT: u64 = 1_024;
/// The ends that a channel has besides those of its handles: one that closes it and drops what is left, and one for tries of handles whose
/// own end is in a call.
pub const CHANNEL_KEEPS: usize = 2;

/// Whether an object may have this many seats.
pub const fn is_seats(n: usize) -> bool {
    1 <= n && n <= MOST_SEATS
}

/// Whether a queue may have n seats for single calls, 0 or more, and m bundles of `width` seats each.
pub const fn is_bundles(n: usize, m: usize, width: u64) -> bool {
    n <= MOST_SEATS && 1 <= m && 1 <= width && width <= ((MOST_SEATS - n) / m) as u64
}

/// Whether each of n seats may make `stint` calls.
pub const fn is_stint(n: usize, stint: u64) -> bool {
    1 <= n && 1 <= stint && stint <= MOST_CALLS / n as u64
}

/// Whether a queue, or the wait queue of a semaphore, may have this many cells.
pub const fn is_size(size: u64) -> bool {
    1 <= size && size <= MOST_CELLS
}

/// Whether a semaphore or a credit may begin at this number, and a room have it as its bound.
pub const fn is_start(start: u64) -> bool {
    start <= MOST_START
}

/// Whether a file table may have this many entries.
pub const fn is_entries(entries: u64) -> bool {
    1 <= entries && entries <= MOST_ENTRIES
}

/// Whether a claim of a room may ask for this amount.
pub const fn is_amount(amount: u64) -> bool {
    1 <= amount && amount <= MOST_AMOUNT
}

/// Whether a channel may have this many ends for its handles.
pub const fn is_channel_ends(ends: usize) -> bool {
    2 <= ends && ends <= MOST_SEATS - CHANNEL_KEEPS
}

/// Whether each end of a channel of this size may make `stint` calls: the channel's own ends must be able to close it, and to drop as many
/// items as it has cells.
pub const fn is_channel_stint(ends: usize, size: usize, stint: u64) -> bool {
    is_channel_ends(ends) && is_size(size as u64) && size as u64 + 2 * ends as u64 + 16 <= stint && is_stint(ends + CHANNEL_KEEPS, stint)
}
