//! What `fak_c.h` and `fak_channel.h` declare.

#[cfg(feature = "std")]
use crate::channel::Words;
use core::ffi::c_void;
use core::ptr::null_mut;

#[repr(C)]
pub struct Handle {
    before: [u64; 8],
    at: *mut c_void,
    after: [u64; 7],
}

impl Handle {
    pub const EMPTY: Handle = Handle {
        before: [0; 8],
        at: null_mut(),
        after: [0; 7],
    };
}

pub const OK: i32 = 0;
pub const NOT_YET: i32 = 1;
pub const FULL: i32 = 2;
pub const EMPTY: i32 = 3;
pub const CLOSED: i32 = 4;
pub const WORN: i32 = 5;
pub const BAD_LIMIT: i32 = 8;
pub const MEMORY: i32 = 9;
pub const PARKS: i32 = 10;
pub const WAKES: i32 = 11;
pub const BUSY: i32 = 12;
#[cfg(feature = "std")]
pub const SLEEPS: i32 = 13;
#[cfg(feature = "std")]
pub const GAVE_UP: i32 = 14;

pub const INSERTING: u32 = 1;
pub const DELETING: u32 = 2;

pub const PARKING: u32 = 1;
pub const WAKING: u32 = 2;

pub const READING: u32 = 1;
pub const WRITING: u32 = 2;

extern "C" {
    pub fn fak_c_leave(seat: *mut Handle) -> i32;

    pub fn fak_c_open(seats: *mut Handle, n: usize, size: u64, stint: u64) -> i32;
    pub fn fak_c_claim_insert(seat: *mut Handle, item: u64, ticket: *mut u64) -> i32;
    pub fn fak_c_insert(seat: *mut Handle, item: u64, ticket: *mut u64) -> i32;
    pub fn fak_c_try_fill(seat: *mut Handle) -> i32;
    pub fn fak_c_claim_delete(seat: *mut Handle, ticket: *mut u64) -> i32;
    pub fn fak_c_delete(seat: *mut Handle, ticket: *mut u64, item: *mut u64) -> i32;
    pub fn fak_c_try_take(seat: *mut Handle, item: *mut u64) -> i32;
    pub fn fak_c_pause(seat: *mut Handle) -> i32;
    pub fn fak_c_shut(seat: *mut Handle, was_open: *mut bool) -> i32;
    pub fn fak_c_count(seat: *mut Handle, items: *mut i64) -> i32;
    pub fn fak_c_in_use(seat: *mut Handle, cells: *mut i64, is_shut: *mut bool) -> i32;
    pub fn fak_c_drained(seat: *mut Handle, is_drained: *mut bool) -> i32;
    pub fn fak_c_state(seat: *mut Handle, state: *mut u32, ticket: *mut u64, left: *mut u64) -> i32;

    pub fn fak_c_open_bundles(seats: *mut Handle, n: usize, bundles: *mut Handle, m: usize, width: u64, size: u64, stint: u64) -> i32;
    pub fn fak_c_insert_burst(bundle: *mut Handle, items: *const u64, n: usize, ticket: *mut u64, count: *mut u64) -> i32;
    pub fn fak_c_try_fill_burst(bundle: *mut Handle, left: *mut u64) -> i32;
    pub fn fak_c_delete_burst(
        bundle: *mut Handle,
        items: *mut u64,
        n: usize,
        ticket: *mut u64,
        count: *mut u64,
        taken: *mut u64,
    ) -> i32;
    pub fn fak_c_try_take_burst(bundle: *mut Handle, items: *mut u64, n: usize, taken: *mut u64, left: *mut u64) -> i32;
    pub fn fak_c_bundle_state(
        bundle: *mut Handle,
        state: *mut u32,
        ticket: *mut u64,
        open: *mut u64,
        width: *mut u64,
        left: *mut u64,
    ) -> i32;

    pub fn fak_c_sem_open(seats: *mut Handle, n: usize, start: u64, size: u64, stint: u64) -> i32;
    pub fn fak_c_sem_claim_down(seat: *mut Handle, item: u64) -> i32;
    pub fn fak_c_sem_try_park(seat: *mut Handle) -> i32;
    pub fn fak_c_sem_claim_up(seat: *mut Handle) -> i32;
    pub fn fak_c_sem_try_wake(seat: *mut Handle, item: *mut u64) -> i32;
    pub fn fak_c_sem_state(seat: *mut Handle, state: *mut u32, left: *mut u64) -> i32;

    pub fn fak_c_room_open(seats: *mut Handle, n: usize, bound: u64, stint: u64) -> i32;
    pub fn fak_c_room_tir(seat: *mut Handle, amount: u64, found: *mut i64) -> i32;
    pub fn fak_c_room_release(seat: *mut Handle, amount: u64, found: *mut i64) -> i32;
    pub fn fak_c_room_state(seat: *mut Handle, held: *mut u64, left: *mut u64) -> i32;

    pub fn fak_c_credit_open(seats: *mut Handle, n: usize, start: u64, stint: u64) -> i32;
    pub fn fak_c_credit_debit(seat: *mut Handle, found: *mut i64) -> i32;
    pub fn fak_c_credit_credit(seat: *mut Handle, found: *mut i64) -> i32;
    pub fn fak_c_credit_value(seat: *mut Handle, value: *mut i64, left: *mut u64) -> i32;

    pub fn fak_c_files_open(seats: *mut Handle, n: usize, entries: u64, stint: u64) -> i32;
    pub fn fak_c_files_try_read(seat: *mut Handle, count: *mut i64) -> i32;
    pub fn fak_c_files_try_write(seat: *mut Handle, count: *mut i64) -> i32;
    pub fn fak_c_files_get(seat: *mut Handle, entry: u64, inode: *mut u64, uses: *mut u64) -> i32;
    pub fn fak_c_files_set_inode(seat: *mut Handle, entry: u64, to: u64) -> i32;
    pub fn fak_c_files_set_uses(seat: *mut Handle, entry: u64, to: u64) -> i32;
    pub fn fak_c_files_end(seat: *mut Handle) -> i32;
    pub fn fak_c_files_hold(seat: *mut Handle, hold: *mut u32) -> i32;
}

#[cfg(feature = "std")]
extern "C" {
    pub fn fak_channel_open(ends: *mut Handle, n: usize, size: u64, stint: u64) -> i32;
    pub fn fak_channel_begin_send(end: *mut Handle, item: *const Words) -> i32;
    pub fn fak_channel_begin_receive(end: *mut Handle) -> i32;
    pub fn fak_channel_begin_try_send(end: *mut Handle, item: *const Words) -> i32;
    pub fn fak_channel_begin_try_receive(end: *mut Handle) -> i32;
    pub fn fak_channel_begin_close(end: *mut Handle) -> i32;
    pub fn fak_channel_step(end: *mut Handle, item: *mut Words, number: *mut u64) -> i32;
    pub fn fak_channel_give_up(end: *mut Handle, item: *mut Words) -> i32;
    pub fn fak_channel_len(end: *mut Handle, items: *mut u64) -> i32;
    pub fn fak_channel_is_closed(end: *mut Handle, is_closed: *mut bool) -> i32;
    pub fn fak_channel_state(end: *mut Handle, number: *mut u64, state: *mut u32, left: *mut u64) -> i32;
}
