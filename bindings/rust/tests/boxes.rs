//! Queues of boxes: items of any type go from thread to thread, and each is dropped once, whatever calls its seats had open.

mod common;

use common::{Token, TOKEN_DROPS};
use fak_seats::{BoxSeat, Fault, State, Step};
use std::panic::{catch_unwind, AssertUnwindSafe};
use std::sync::atomic::{AtomicUsize, Ordering::SeqCst};
use std::sync::Arc;
use std::thread::{scope, spawn, yield_now};

// An item that counts its drop.
struct Counted {
    number: u64,
    drops: Arc<AtomicUsize>,
}

impl Drop for Counted {
    fn drop(&mut self) {
        self.drops.fetch_add(1, SeqCst);
    }
}

// A counter, and what makes its items.
fn counted() -> (Arc<AtomicUsize>, impl Fn(u64) -> Box<Counted>) {
    let drops = Arc::new(AtomicUsize::new(0));
    let of_items = Arc::clone(&drops);
    let make = move |number| {
        Box::new(Counted {
            number,
            drops: Arc::clone(&of_items),
        })
    };
    (drops, make)
}

fn put<T: Send>(seat: &mut BoxSeat<T>, mut item: Box<T>) {
    loop {
        match seat.insert(item) {
            Ok(Step::Done(_)) => return,
            Ok(Step::NotYet) => break,
            Err(refused) => {
                assert_eq!(refused.fault, Fault::Full);
                item = refused.item;
            }
        }
        yield_now();
    }
    while seat.try_fill() == Ok(Step::NotYet) {
        yield_now();
    }
}

fn get<T: Send>(seat: &mut BoxSeat<T>) -> Box<T> {
    loop {
        let tried = match seat.state() {
            State::Idle => seat.delete(),
            _ => seat.try_take(),
        };
        match tried {
            Ok(Step::Done(item)) => return item,
            Ok(Step::NotYet) | Err(Fault::Empty) => yield_now(),
            Err(fault) => panic!("{fault}"),
        }
    }
}

#[test]
fn texts_go_from_thread_to_thread() {
    let mut seats = BoxSeat::<String>::open(2, 8).unwrap();
    let mut sender = seats.pop().unwrap();
    let thread = spawn(move || {
        for number in 0..20_000 {
            put(&mut sender, Box::new(format!("line {number}")));
        }
        assert_eq!((sender.shut(), sender.shut()), (Ok(true), Ok(false)));
        assert_eq!(sender.insert(Box::new(String::new())).unwrap_err().fault, Fault::Closed);
    });
    for number in 0..20_000 {
        assert!(!seats[0].is_drained());
        assert_eq!(*get(&mut seats[0]), format!("line {number}"));
    }
    thread.join().unwrap();
    assert_eq!((seats[0].count(), seats[0].in_use().is_shut, seats[0].is_drained()), (0, true, true));
}

// Items may borrow what lives as long as their seats.
#[test]
fn items_borrow_from_the_threads_scope() {
    let words = ["one".to_string(), "two".to_string()];
    let mut seats = BoxSeat::<&str>::open(2, 2).unwrap();
    let mut sender = seats.pop().unwrap();
    scope(|threads| {
        threads.spawn(|| words.iter().for_each(|word| put(&mut sender, Box::new(word.as_str()))));
    });
    assert_eq!((*get(&mut seats[0]), *get(&mut seats[0])), ("one", "two"));
}

#[test]
fn a_refused_item_comes_back() {
    let (drops, make) = counted();
    let mut seats = BoxSeat::open(1, 2).unwrap();
    let seat = &mut seats[0];
    assert_eq!(seat.insert(make(1)).unwrap(), Step::Done(0));
    assert_eq!(seat.claim_insert(make(2)).unwrap(), 1);
    assert_eq!((seat.state(), seat.delete().err()), (State::Inserting(1), Some(Fault::WrongState)));
    let refused = seat.insert(make(3)).unwrap_err();
    assert_eq!((refused.fault, refused.item.number), (Fault::WrongState, 3));
    assert_eq!((seat.try_fill(), seat.try_fill()), (Ok(Step::Done(())), Err(Fault::WrongState)));
    let refused = seat.insert(refused.item).unwrap_err();
    assert_eq!((refused.fault, refused.item.number, drops.load(SeqCst)), (Fault::Full, 3, 0));
    assert_eq!((refused.to_string(), format!("{refused:?}")), ("the queue is full".into(), "Refused { fault: Full, .. }".into()));
    drop(refused);
    assert_eq!(drops.load(SeqCst), 1);
    let Ok(Step::Done((ticket, item))) = seat.delete_with_ticket() else {
        panic!("no item");
    };
    assert_eq!((ticket, item.number, seat.claim_delete(), seat.state()), (0, 1, Ok(1), State::Deleting(1)));
    let left = seat.left();
    assert!(matches!(seat.try_take(), Ok(Step::Done(item)) if item.number == 2));
    assert_eq!((seat.delete().err(), seat.left(), left), (Some(Fault::Empty), left, (1 << 49) - 4));
    drop(item);
    assert_eq!(drops.load(SeqCst), 3);
}

#[test]
fn what_is_left_is_dropped_at_the_close() {
    let (drops, make) = counted();
    let mut seats = BoxSeat::open(3, 1_000).unwrap();
    for number in 0..1_000 {
        put(&mut seats[number as usize % 3], make(number));
    }
    assert_eq!(get(&mut seats[0]).number, 0);
    let last = seats.pop().unwrap();
    drop(seats);
    assert_eq!(drops.load(SeqCst), 1);
    spawn(move || drop(last)).join().unwrap();
    assert_eq!(drops.load(SeqCst), 1_000);
}

#[test]
fn items_without_bytes_are_dropped_too() {
    let mut seats = BoxSeat::open(1, 4).unwrap();
    (0..4).for_each(|_| put(&mut seats[0], Box::new(Token)));
    drop(get(&mut seats[0]));
    drop(seats);
    assert_eq!(TOKEN_DROPS.load(SeqCst), 4);
}

// Six seats of a queue of two cells, which two items have gone into. The first seat has claimed an insertion whose cell is not yet
// free, and the second the deletion that would free it.
fn two_in_calls(make: &impl Fn(u64) -> Box<Counted>) -> Vec<BoxSeat<Counted>> {
    let mut seats = BoxSeat::open(6, 2).unwrap();
    put(&mut seats[0], make(0));
    put(&mut seats[0], make(1));
    assert_eq!(seats[1].claim_delete(), Ok(0));
    assert_eq!(get(&mut seats[4]).number, 1);
    assert_eq!(seats[0].insert(make(2)).unwrap(), Step::NotYet);
    assert!(matches!(seats[4].insert(make(9)), Err(refused) if refused.fault == Fault::Full));
    seats
}

// Whatever the order in which the seats are dropped, each item is dropped once, and at the latest by the last seat.
#[test]
fn seats_in_a_call_lose_no_item() {
    for order in [[0, 1, 2, 3, 4, 5], [5, 4, 3, 2, 1, 0], [1, 0, 2, 3, 4, 5], [4, 5, 0, 1, 2, 3], [2, 3, 1, 5, 0, 4]] {
        let (drops, make) = counted();
        let mut seats: Vec<_> = two_in_calls(&make).into_iter().map(Some).collect();
        assert_eq!(drops.load(SeqCst), 2);
        for seat in order {
            assert!(drops.load(SeqCst) < 4);
            drop(seats[seat].take());
        }
        assert_eq!(drops.load(SeqCst), 4);
    }
}

// The first seat has claimed an insertion and not made it, and the item after it was put in. The deletion of the third seat waits for
// the first. So that seat, dropped before the first, can't end its call.
#[test]
fn a_deletion_that_waits_is_ended_at_the_close() {
    for (first, second) in [(0, 2), (2, 0)] {
        let (drops, make) = counted();
        let mut seats = BoxSeat::open(3, 4).unwrap();
        assert_eq!(seats[0].claim_insert(make(0)).unwrap(), 0);
        put(&mut seats[1], make(1));
        assert!(matches!(seats[2].delete(), Ok(Step::NotYet)));
        let mut seats: Vec<_> = seats.into_iter().map(Some).collect();
        drop(seats[first].take());
        drop(seats[second].take());
        assert_eq!(drops.load(SeqCst), if first == 0 { 1 } else { 0 });
        drop(seats);
        assert_eq!(drops.load(SeqCst), 2);
    }
}

// An item whose drop panics, if it is to, and counts its drop all the same.
struct Panics(bool, #[allow(dead_code)] Box<Counted>);

impl Drop for Panics {
    fn drop(&mut self) {
        assert!(!self.0, "this item panics");
    }
}

// Drops the seats of a queue of four items, of which those of the bits that are set panic. Or the first two items are not yet put in,
// and open deletions have claimed them: these end last. Returns whether a panic came out, and how many items were dropped.
fn drops_with_panics(panicking: usize, in_calls: bool) -> (bool, usize) {
    let (drops, make) = counted();
    let item = |number: usize| Box::new(Panics(panicking >> number & 1 == 1, make(0)));
    let mut seats = BoxSeat::open(5, 4).unwrap();
    for (number, seat) in seats[..2].iter_mut().enumerate() {
        assert_eq!(seat.claim_insert(item(number)).unwrap(), number as u64);
        assert!(in_calls || seat.try_fill() == Ok(Step::Done(())));
    }
    (2..4).for_each(|number| put(&mut seats[2], item(number)));
    if in_calls {
        assert_eq!((seats[3].claim_delete(), seats[4].claim_delete()), (Ok(0), Ok(1)));
        seats.reverse();
    }
    let panics = catch_unwind(AssertUnwindSafe(|| drop(seats))).is_err();
    (panics, drops.load(SeqCst))
}

// An item whose drop panics keeps no other from its drop, whether it is in the queue or an open call has claimed it.
#[test]
fn a_drop_that_panics_loses_no_other_box() {
    for in_calls in [false, true] {
        assert_eq!(drops_with_panics(0, in_calls), (false, 4));
        (0..4).for_each(|number| assert_eq!(drops_with_panics(1 << number, in_calls), (true, 4)));
    }
}

// Nor do several.
#[cfg(feature = "std")]
#[test]
fn drops_that_panic_lose_no_box() {
    for in_calls in [false, true] {
        (1..16).for_each(|panicking| assert_eq!(drops_with_panics(panicking, in_calls), (true, 4)));
    }
}

// Two seats have taken nothing out yet, and can: the drop of each drops its item, and both panic.
#[cfg(feature = "std")]
#[test]
fn seats_whose_items_panic_lose_no_box() {
    let (drops, make) = counted();
    let mut seats = BoxSeat::open(3, 4).unwrap();
    (0..3).for_each(|number| put(&mut seats[0], Box::new(Panics(true, make(number)))));
    assert_eq!((seats[0].claim_delete(), seats[1].claim_delete()), (Ok(0), Ok(1)));
    assert!(catch_unwind(AssertUnwindSafe(|| drop(seats))).is_err());
    assert_eq!(drops.load(SeqCst), 3);
}

// Threads put in and take out until they are told to stop, and drop their seats as they are.
#[test]
fn threads_that_stop_anywhere_lose_no_item() {
    for round in 0..20 {
        let (drops, make) = counted();
        let make = Arc::new(make);
        let seats = BoxSeat::open(4, 3).unwrap();
        let threads: Vec<_> = seats
            .into_iter()
            .enumerate()
            .map(|(thread, mut seat)| {
                let make = Arc::clone(&make);
                spawn(move || {
                    for number in 0..500 + round * thread as u64 {
                        if thread % 2 == 0 {
                            drop(seat.insert(make(number)));
                            let _ = seat.try_fill();
                        } else {
                            drop(seat.delete());
                            drop(seat.try_take());
                        }
                    }
                    500 * u64::from(thread % 2 == 0) + round * thread as u64 * u64::from(thread % 2 == 0)
                })
            })
            .collect();
        let made: u64 = threads.into_iter().map(|thread| thread.join().unwrap()).sum();
        assert_eq!(drops.load(SeqCst) as u64, made);
    }
}

#[test]
fn openings_of_boxes_have_limits() {
    assert_eq!(BoxSeat::<u8>::open(0, 4).err(), Some(Fault::BadLimit));
    assert_eq!(BoxSeat::<u8>::open(1_024, 4).err(), Some(Fault::BadLimit));
    assert_eq!(BoxSeat::<u8>::open(2, 0).err(), Some(Fault::BadLimit));
    let mut seats = BoxSeat::<u8>::open(1_023, 4).unwrap();
    assert_eq!((seats.len(), seats[1_022].left()), (1_023, 1 << 40));
    seats[0].pause();
}
