//! Large objects: arrays of seats on either side of the limit, a queue of many cells, and 128 threads.

use fak_seats::{CreditSeat, Fault, FileSeat, RoomSeat, Seat, SemSeat, Step};
use std::thread::{spawn, yield_now, Builder};

const CALLS: u64 = 1 << 50;

// Runs it on a thread whose stack has room for the arrays.
fn with_room(test: impl FnOnce() + Send + 'static) {
    Builder::new().stack_size(16 << 20).spawn(test).unwrap().join().unwrap();
}

#[test]
fn each_kind_has_large_limits() {
    with_room(|| {
        assert!(Seat::open::<1024>(4097, CALLS / 1024).is_ok());
        assert!(SemSeat::open::<1024>(1, 4097, CALLS / 1024).is_ok());
        assert!(RoomSeat::open::<1024>(1 << 32, CALLS / 1024).is_ok());
        assert!(CreditSeat::open::<1024>(1 << 32, CALLS / 1024).is_ok());
        assert!(FileSeat::open::<1024>(16, CALLS / 1024).is_ok());
    });
}

#[test]
fn more_seats_are_refused() {
    with_room(|| {
        assert_eq!(Seat::open::<1025>(1, 1).err(), Some(Fault::BadLimit));
        assert_eq!(SemSeat::open::<1025>(0, 1, 1).err(), Some(Fault::BadLimit));
        assert_eq!(RoomSeat::open::<1025>(1, 1).err(), Some(Fault::BadLimit));
        assert_eq!(CreditSeat::open::<1025>(1, 1).err(), Some(Fault::BadLimit));
        assert_eq!(FileSeat::open::<1025>(1, 1).err(), Some(Fault::BadLimit));
    });
}

#[test]
fn a_queue_of_many_cells_is_filled_and_emptied() {
    let cells = 1 << 20;
    let [mut a, mut b] = Seat::open::<2>(cells, CALLS / 2).unwrap();
    for ticket in 0..cells {
        assert_eq!(a.insert(3 * ticket), Ok(Step::Done(ticket)));
    }
    assert_eq!(b.insert(1), Err(Fault::Full));
    for ticket in 0..cells {
        assert_eq!(b.delete(), Ok(Step::Done(3 * ticket)));
    }
    assert_eq!(a.delete(), Err(Fault::Empty));
}

fn put(seat: &mut Seat, item: u64) {
    let mut filled = matches!(seat.insert(item).unwrap(), Step::Done(_));
    while !filled {
        yield_now();
        filled = seat.try_fill().unwrap() == Step::Done(());
    }
}

fn get(seat: &mut Seat) -> u64 {
    let mut tried = seat.delete();
    loop {
        tried = match tried {
            Ok(Step::Done(item)) => return item,
            Ok(Step::NotYet) => seat.try_take(),
            Err(Fault::Empty) => seat.delete(),
            Err(fault) => panic!("{fault:?}"),
        };
        yield_now();
    }
}

// Each item is taken out once, so the sum is that of all items.
#[test]
fn threads_have_128_seats() {
    let items = 50;
    let seats = Seat::open::<128>(5000, CALLS / 128).unwrap();
    let threads = seats.map(|mut seat| {
        spawn(move || {
            (0..items).map(|item| {
                put(&mut seat, item);
                get(&mut seat)
            }).sum::<u64>()
        })
    });
    let sum: u64 = threads.map(|thread| thread.join().unwrap()).iter().sum();
    assert_eq!(sum, 128 * items * (items - 1) / 2);
}
