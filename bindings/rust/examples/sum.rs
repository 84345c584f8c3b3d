//! One thread sends the numbers from 1 to 1,000 to another, through a queue of 16 cells, and shuts it. The other adds them up.

use fak_seats::{Fault, Seat, Step};
use std::thread::{spawn, yield_now};

/// Inserts the item. A queue that is shut, or a stint that is used up, is a fault.
fn insert(seat: &mut Seat, item: u64) -> Result<(), Fault> {
    let mut filled = loop {
        match seat.insert(item) {
            Err(Fault::Full) => yield_now(),
            inserted => break inserted?.map(|_ticket| ()),
        }
    };
    while filled == Step::NotYet {
        yield_now();
        filled = seat.try_fill()?;
    }
    Ok(())
}

/// Deletes the oldest item, if there is one.
fn delete(seat: &mut Seat) -> Result<Option<u64>, Fault> {
    let mut taken = match seat.delete() {
        Err(Fault::Empty) => return Ok(None),
        deleted => deleted?,
    };
    loop {
        match taken {
            Step::Done(item) => return Ok(Some(item)),
            Step::NotYet => yield_now(),
        }
        taken = seat.try_take()?;
    }
}

fn main() -> Result<(), Fault> {
    let [mut sender, mut receiver] = Seat::open::<2>(16, 10_000)?;
    let thread = spawn(move || {
        (1..=1_000).try_for_each(|item| insert(&mut sender, item))?;
        sender.shut()
    });
    let (mut sum, mut taken) = (0, 0);
    while taken < 1_000 {
        match delete(&mut receiver)? {
            Some(item) => (sum, taken) = (sum + item, taken + 1),
            None => yield_now(),
        }
    }
    thread.join().expect("the sender does not panic")?;
    println!("the sum is {sum}");
    Ok(())
}
