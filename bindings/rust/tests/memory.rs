//! What seats allocate, and that it comes back. The program brings the heap's three functions, which count.

use fak_seats::{Bundle, CreditSeat, Fault, FileSeat, RoomSeat, Seat, SemSeat, Step};
use std::alloc::{alloc, dealloc, Layout};
use std::ptr::NonNull;
use std::sync::atomic::{AtomicUsize, Ordering::SeqCst};
use std::sync::Mutex;
use std::thread::spawn;

// The bytes of one seat.
const DESK: usize = 280;
// Each part has its size before it.
const HEAD: usize = 16;

static LIVE: AtomicUsize = AtomicUsize::new(0);
static MADE: AtomicUsize = AtomicUsize::new(0);
static FAILING: AtomicUsize = AtomicUsize::new(0);
// The heap is one for all tests, so one test counts at a time.
static ALONE: Mutex<()> = Mutex::new(());

#[repr(C)]
pub struct Answer {
    found: bool,
    at: *mut u8,
}

const REFUSAL: Answer = Answer {
    found: false,
    at: NonNull::dangling().as_ptr(),
};

fn layout(size: usize) -> Layout {
    Layout::from_size_align(HEAD + size, HEAD).unwrap()
}

#[no_mangle]
pub extern "C" fn rattle_alloc(size: usize, align: usize) -> Answer {
    assert!(align <= HEAD);
    if MADE.fetch_add(1, SeqCst) + 1 == FAILING.load(SeqCst) {
        return REFUSAL;
    }
    // SAFETY: the layout is not empty, and the head is aligned and lies in it.
    unsafe {
        let head = alloc(layout(size));
        if head.is_null() {
            return REFUSAL;
        }
        LIVE.fetch_add(size, SeqCst);
        head.cast::<usize>().write(size);
        Answer {
            found: true,
            at: head.add(HEAD),
        }
    }
}

#[no_mangle]
pub extern "C" fn rattle_realloc(_part: *mut u8, _kept: usize, _size: usize, _align: usize) -> Answer {
    REFUSAL
}

/// # Safety
/// The part is one that `rattle_alloc` has returned.
#[no_mangle]
pub unsafe extern "C" fn rattle_dealloc(part: *mut u8) {
    let head = part.sub(HEAD);
    let size = head.cast::<usize>().read();
    LIVE.fetch_sub(size, SeqCst);
    dealloc(head, layout(size));
}

// Opens while the allocation of this number fails; with 0 none does.
fn opened<S>(failing: usize, open: impl Fn() -> Result<S, Fault>) -> Result<S, Fault> {
    MADE.store(0, SeqCst);
    FAILING.store(failing, SeqCst);
    let seats = open();
    FAILING.store(0, SeqCst);
    seats
}

// Each allocation fails in turn, until all succeed. Then the seats are dropped one by one, one of them on another thread.
fn memory_comes_back<S: Send + 'static>(open: impl Fn() -> Result<[S; 3], Fault>) {
    let _alone = ALONE.lock().unwrap();
    let before = LIVE.load(SeqCst);
    let mut failing = 1;
    let [a, b, c] = loop {
        match opened(failing, &open) {
            Ok(seats) => break seats,
            Err(fault) => assert_eq!(fault, Fault::Memory),
        }
        assert_eq!(LIVE.load(SeqCst), before);
        failing += 1;
    };
    let all = LIVE.load(SeqCst);
    assert!(failing > 4 && all > before + 3 * DESK);
    drop(a);
    assert_eq!(LIVE.load(SeqCst), all - DESK);
    spawn(move || drop(b)).join().unwrap();
    assert_eq!(LIVE.load(SeqCst), all - 2 * DESK);
    drop(c);
    assert_eq!(LIVE.load(SeqCst), before);
}

#[test]
fn memory_of_each_kind_comes_back() {
    memory_comes_back(|| Seat::open::<3>(100, 9));
    memory_comes_back(|| SemSeat::open::<3>(1, 100, 9));
    memory_comes_back(|| RoomSeat::open::<3>(5, 9));
    memory_comes_back(|| CreditSeat::open::<3>(5, 9));
    memory_comes_back(|| FileSeat::open::<3>(5, 9));
}

#[test]
fn memory_of_a_queue_with_items_comes_back() {
    memory_comes_back(|| {
        let mut seats = Seat::open::<3>(100, 99)?;
        for item in 0..50 {
            assert_eq!(seats[0].insert(item), Ok(Step::Done(item)));
        }
        Ok(seats)
    });
}

// A channel keeps all its memory until its last handle is gone: a dropped handle gives its end back.
#[cfg(feature = "std")]
#[test]
fn memory_of_a_channel_comes_back() {
    let _alone = ALONE.lock().unwrap();
    let before = LIVE.load(SeqCst);
    let mut failing = 1;
    let (sender, receiver) = loop {
        match opened(failing, || fak_seats::channel::bounded::<u64>(100, 4)) {
            Ok(handles) => break handles,
            Err(fault) => assert_eq!(fault, Fault::Memory),
        }
        assert_eq!(LIVE.load(SeqCst), before);
        failing += 1;
    };
    let all = LIVE.load(SeqCst);
    assert!(failing > 4 && all > before + 6 * DESK);
    (0..50).for_each(|item| sender.clone().send(item).unwrap());
    assert_eq!((receiver.clone().recv(), LIVE.load(SeqCst)), (Ok(0), all));
    spawn(move || drop(receiver)).join().unwrap();
    assert_eq!(LIVE.load(SeqCst), all);
    drop(sender);
    assert_eq!(LIVE.load(SeqCst), before);
}

// One of two seats has begun something, so that it is not given up. Neither is its object.
fn nothing_is_freed<S>(open: impl Fn() -> Result<[S; 2], Fault>, begin: impl Fn(&mut S)) {
    let _alone = ALONE.lock().unwrap();
    let [mut open_seat, other] = opened(0, open).unwrap();
    begin(&mut open_seat);
    let all = LIVE.load(SeqCst);
    drop(open_seat);
    assert_eq!(LIVE.load(SeqCst), all);
    drop(other);
    assert_eq!(LIVE.load(SeqCst), all - DESK);
}

#[test]
fn a_seat_in_mid_call_keeps_its_object() {
    nothing_is_freed(|| SemSeat::open::<2>(0, 4, 9), |seat| assert_eq!(seat.down(7), Ok(Step::NotYet)));
    nothing_is_freed(|| RoomSeat::open::<2>(4, 9), |seat| assert_eq!(seat.claim(1), Ok(0)));
    nothing_is_freed(|| FileSeat::open::<2>(4, 9), |seat| assert_eq!(seat.try_read(), Ok(())));
}

#[test]
fn a_refused_opening_takes_nothing() {
    let _alone = ALONE.lock().unwrap();
    let before = LIVE.load(SeqCst);
    assert_eq!(opened(0, || Seat::open::<2>(0, 9)).err(), Some(Fault::BadLimit));
    assert_eq!(opened(0, || Seat::open::<1025>(1, 9)).err(), Some(Fault::BadLimit));
    assert_eq!(LIVE.load(SeqCst), before);
}

// Each allocation of a queue with bundles fails in turn. What it allocates comes back with its last handle, with items in it too.
#[test]
fn memory_of_bundles_comes_back() {
    let _alone = ALONE.lock().unwrap();
    let before = LIVE.load(SeqCst);
    let mut failing = 1;
    let (seats, mut bundles) = loop {
        match opened(failing, || Bundle::open::<1, 2>(5, 100, 9)) {
            Ok(all) => break all,
            Err(fault) => assert_eq!(fault, Fault::Memory),
        }
        assert_eq!(LIVE.load(SeqCst), before);
        failing += 1;
    };
    let all = LIVE.load(SeqCst);
    assert!(failing > 4 && all > before);
    assert_eq!(bundles[0].insert_burst(&[1, 2, 3]).map(|burst| burst.count), Ok(3));
    assert_eq!(LIVE.load(SeqCst), all);
    let [first, second] = bundles;
    drop(first);
    drop(seats);
    assert!(LIVE.load(SeqCst) > before && LIVE.load(SeqCst) < all);
    spawn(move || drop(second)).join().unwrap();
    assert_eq!(LIVE.load(SeqCst), before);
}
