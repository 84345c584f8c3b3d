//! Limits, and the texts of faults. The calls are in `rows.rs`.

use fak_seats::{limits, CreditSeat, Fault, FileSeat, RoomSeat, Seat, SemSeat, Step};
use std::error::Error;

#[test]
fn limits_say_which_number_is_out_of_range() {
    for n in [0, 1, 1_024, 1_025, usize::MAX] {
        for stint in [0, 1, limits::MOST_CALLS / (n as u64).max(1), limits::MOST_CALLS / (n as u64).max(1) + 1, u64::MAX] {
            for number in [0, 1, 16, 17, (1 << 32) + 1] {
                let fits = limits::is_seats(n) && limits::is_stint(n, stint);
                let is_opened = |result: Result<usize, Fault>, number_fits| match result {
                    Ok(seats) => fits && number_fits && seats == n,
                    Err(fault) => fault == Fault::BadLimit && !(fits && number_fits),
                };
                assert!(is_opened(Seat::open_vec(n, number, stint).map(|all| all.len()), limits::is_size(number)));
                assert!(is_opened(SemSeat::open_vec(n, number, 4, stint).map(|all| all.len()), limits::is_start(number)));
                assert!(is_opened(RoomSeat::open_vec(n, number, stint).map(|all| all.len()), limits::is_start(number)));
                assert!(is_opened(CreditSeat::open_vec(n, number, stint).map(|all| all.len()), limits::is_start(number)));
                assert!(is_opened(FileSeat::open_vec(n, number, stint).map(|all| all.len()), limits::is_entries(number)));
            }
        }
    }
    let [mut room] = RoomSeat::open::<1>(4_000, 9).unwrap();
    assert_eq!((room.claim(1_024), room.claim(1_025)), (Ok(0), Err(Fault::BadLimit)));
    assert!(limits::is_amount(1_024) && !limits::is_amount(1_025) && !limits::is_amount(0));
    assert_eq!(room.release(1_024), Ok(1_024));
}

#[test]
fn steps_change_their_values() {
    assert_eq!((Step::Done(2).map(|two| two + 1), Step::NotYet.map(|two: u8| two + 1)), (Step::Done(3), Step::NotYet));
}

#[test]
fn faults_are_errors_with_texts() {
    let texts = [
        (Fault::Full, "the queue is full"),
        (Fault::Empty, "the queue is empty"),
        (Fault::Closed, "the queue is shut"),
        (Fault::AtBound(-3), "the claim does not fit: the room's count was -3"),
        (Fault::Busy(2), "others hold the file table: 2 was left"),
        (Fault::Worn, "the stint is used up"),
        (Fault::WrongState, "the seat is in another state, or there is no such entry"),
        (Fault::BadLimit, "a number is out of range"),
        (Fault::Memory, "out of memory"),
    ];
    for (fault, text) in texts {
        let error: Box<dyn Error> = Box::new(fault);
        assert_eq!(error.to_string(), text);
    }
}
