//! Seats on threads. The calls are in `rows.rs`.

use fak_seats::{CreditSeat, Fault, FileSeat, RoomSeat, Seat, SemSeat, Step};
use std::thread::{spawn, yield_now};
use std::time::{Duration, Instant};

// Tries a step until it is done.
fn done<T>(mut step: impl FnMut() -> Result<Step<T>, Fault>) -> T {
    loop {
        match step() {
            Ok(Step::Done(value)) => return value,
            Ok(Step::NotYet) => yield_now(),
            Err(fault) => panic!("{fault:?}"),
        }
    }
}

fn put(seat: &mut Seat, item: u64) {
    loop {
        match seat.insert(item) {
            Ok(Step::Done(_)) => return,
            Ok(Step::NotYet) => return done(|| seat.try_fill()),
            Err(Fault::Full) => yield_now(),
            Err(fault) => panic!("{fault:?}"),
        }
    }
}

fn get(seat: &mut Seat) -> u64 {
    loop {
        match seat.delete() {
            Ok(Step::Done(item)) => return item,
            Ok(Step::NotYet) => return done(|| seat.try_take()),
            Err(Fault::Empty) => yield_now(),
            Err(fault) => panic!("{fault:?}"),
        }
    }
}

#[test]
fn each_item_once_in_order() {
    let [mut a, mut b] = Seat::open::<2>(64, 1 << 30).unwrap();
    let producer = spawn(move || {
        for item in 0..50_000 {
            a.pause();
            put(&mut a, item);
        }
        assert_eq!(a.shut(), Ok(true));
        assert_eq!(a.shut(), Ok(false));
        assert_eq!(a.insert(7), Err(Fault::Closed));
    });
    for item in 0..50_000 {
        assert_eq!(get(&mut b), item);
    }
    producer.join().unwrap();
    assert_eq!(b.delete(), Err(Fault::Empty));
}

#[test]
fn a_parked_item_is_woken_on_another_thread() {
    let [mut a, mut b] = SemSeat::open::<2>(1, 4, 100).unwrap();
    assert_eq!(a.down(8), Ok(Step::Done(())));
    assert_eq!(a.down(9), Ok(Step::NotYet));
    assert_eq!(a.down(10), Err(Fault::WrongState));
    let waker = spawn(move || {
        assert_eq!(b.up(), Ok(Step::NotYet));
        let woken = done(|| b.try_wake());
        assert_eq!(b.up(), Ok(Step::Done(())));
        woken
    });
    done(|| a.try_park());
    assert_eq!(waker.join().unwrap(), 9);
}

#[test]
fn a_room_is_never_over_its_bound() {
    let seats = RoomSeat::open::<4>(7, 1 << 30).unwrap();
    let threads = seats.map(|mut seat| {
        spawn(move || {
            for _ in 0..5_000 {
                match seat.claim(3) {
                    Ok(found) => {
                        assert!(found <= 4);
                        assert_eq!((seat.held(), seat.release(4)), (3, Err(Fault::BadLimit)));
                        assert!(seat.release(3).unwrap() >= 3);
                    }
                    Err(Fault::AtBound(found)) => assert!(found > 4),
                    Err(fault) => panic!("{fault:?}"),
                }
            }
        })
    });
    for thread in threads {
        thread.join().unwrap();
    }
}

#[test]
fn a_credit_counts_every_call() {
    let [mut own, mut other] = CreditSeat::open::<2>(5, 1 << 30).unwrap();
    let thread = spawn(move || {
        for _ in 0..5_000 {
            other.credit().unwrap();
        }
    });
    for _ in 0..2_000 {
        own.debit().unwrap();
    }
    thread.join().unwrap();
    assert_eq!(own.value(), 3_005);
}

#[test]
fn a_writer_is_alone() {
    let [mut own, mut other] = FileSeat::open::<2>(2, 1 << 30).unwrap();
    let thread = spawn(move || {
        for _ in 0..5_000 {
            add_one(&mut other);
        }
    });
    for _ in 0..5_000 {
        add_one(&mut own);
    }
    thread.join().unwrap();
    own.try_read().unwrap();
    assert_eq!(own.get(1), Ok((0, 10_000)));
    assert_eq!((own.get(2), own.set_uses(1, 0)), (Err(Fault::WrongState), Err(Fault::WrongState)));
    own.end().unwrap();
    assert_eq!(own.end(), Err(Fault::WrongState));
}

fn add_one(seat: &mut FileSeat) {
    while let Err(fault) = seat.try_write() {
        assert!(matches!(fault, Fault::Busy(_)));
        yield_now();
    }
    let (inode, uses) = seat.get(1).unwrap();
    seat.set_inode(1, inode).unwrap();
    seat.set_uses(1, uses + 1).unwrap();
    seat.end().unwrap();
}

#[test]
#[ignore = "with the archive by --backend rattle nothing spins"]
fn a_seat_that_meets_others_pauses() {
    let mut seats = Seat::open::<2>(1_024, 1 << 30).unwrap();
    let mut long_pauses = 0;
    for turn in 0..480 {
        let seat = &mut seats[turn % 2];
        if turn % 2 == 0 {
            put(seat, 7);
        } else {
            assert_eq!(get(seat), 7);
        }
        let begun = Instant::now();
        seat.pause();
        if begun.elapsed() >= Duration::from_micros(1) {
            long_pauses += 1;
        }
    }
    assert!(long_pauses >= 4);
}
