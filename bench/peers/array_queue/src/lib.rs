//! `ArrayQueue<u64>` through four calls for C, so that it is in one program with the others.

use crossbeam_queue::ArrayQueue;

/// Opens a queue of `size` cells.
#[no_mangle]
pub extern "C" fn array_queue_open(size: usize) -> *mut ArrayQueue<u64> {
    Box::into_raw(Box::new(ArrayQueue::new(size)))
}

/// # Safety
/// The queue is open, and no other call on it is made from now on.
#[no_mangle]
pub unsafe extern "C" fn array_queue_close(queue: *mut ArrayQueue<u64>) {
    drop(Box::from_raw(queue));
}

/// False if there is no room.
///
/// # Safety
/// The queue is open.
#[no_mangle]
pub unsafe extern "C" fn array_queue_put(queue: *const ArrayQueue<u64>, item: u64) -> bool {
    (*queue).push(item).is_ok()
}

/// False if there is no item.
///
/// # Safety
/// The queue is open, and `item` may be written.
#[no_mangle]
pub unsafe extern "C" fn array_queue_get(queue: *const ArrayQueue<u64>, item: *mut u64) -> bool {
    match (*queue).pop() {
        Some(found) => {
            *item = found;
            true
        }
        None => false,
    }
}
