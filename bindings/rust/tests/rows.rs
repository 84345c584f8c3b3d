//! The rows of the tests in C, as calls of this crate. `crates/fak_c/capi/tests/rows.h` says what a row is. Left out are sections for C
//! alone, ends of a channel, and rows that the types exclude: calls without a seat, and refused moves and leaves.
#![cfg(feature = "std")]

use fak_seats::channel::{self, Receiver, Sender};
use fak_seats::{Bundle, CreditSeat, Fault, FileSeat, Hold, RoomSeat, Seat, SemSeat, SemState, State, Step};
use std::collections::HashMap;
use std::fmt::Debug;
use std::fs::{read_dir, read_to_string};
use std::time::Duration;

const FOLDER: &str = concat!(env!("CARGO_MANIFEST_DIR"), "/../../crates/fak_c/capi/tests/rows");
// Handles from `A` on have numbers from here on.
const UPPER: usize = 1_025;
// A word that no row has: a place of a burst that nothing was written to.
const UNWRITTEN: u64 = 0xA5A5_A5A5_A5A5_A5A5;

type Item = [u64; 4];

// The code of a call, and what C writes.
type Found = (&'static str, Vec<u64>);

#[derive(Default)]
struct Handles {
    queue: HashMap<usize, Seat>,
    bundle: HashMap<usize, Bundle>,
    semaphore: HashMap<usize, SemSeat>,
    room: HashMap<usize, RoomSeat>,
    credit: HashMap<usize, CreditSeat>,
    files: HashMap<usize, FileSeat>,
    channel: HashMap<usize, (Sender<Item>, Receiver<Item>)>,
}

// The words of a row before `=`, without the call's name.
struct Call {
    at: usize,
    count: usize,
    other: (usize, usize),
    numbers: Vec<u64>,
}

// A number by operations from left to right, or a name.
fn number_of(word: &str) -> u64 {
    match word {
        "no" | "IDLE" | "NOTHING" => return 0,
        "yes" | "INSERTING" | "PARKING" | "READING" => return 1,
        "DELETING" | "WAKING" | "WRITING" => return 2,
        _ => {}
    }
    let end = |text: &str| text.find(|letter: char| !letter.is_ascii_digit()).unwrap_or(text.len());
    let (first, mut rest) = word.split_at(end(word));
    let mut number = first.parse().unwrap_or(0u64);
    while !rest.is_empty() {
        let (operand, after) = rest[1..].split_at(end(&rest[1..]));
        let operand: u64 = operand.parse().unwrap();
        number = match &rest[..1] {
            "+" => number.wrapping_add(operand),
            "-" => number.wrapping_sub(operand),
            "*" => number.wrapping_mul(operand),
            "/" => number / operand,
            "^" => number.wrapping_pow(operand as u32),
            _ => panic!("{word} is no number"),
        };
        rest = after;
    }
    number
}

// The first of the handles that a word names, and how many they are.
fn handles_of(word: &str) -> Option<(usize, usize)> {
    let (letter, count) = word.split_once(':').unwrap_or((word, "1"));
    let letter = letter.bytes().next().filter(|first| letter.len() == 1 && first.is_ascii_alphabetic())?;
    let first = if letter.is_ascii_lowercase() { letter - b'a' } else { letter - b'A' };
    Some((usize::from(first) + if letter.is_ascii_lowercase() { 0 } else { UPPER }, count.parse().unwrap()))
}

// What a fault is in C.
fn refused(fault: Fault) -> Found {
    match fault {
        Fault::Full => ("FULL", vec![]),
        Fault::AtBound(found) => ("FULL", vec![found as u64]),
        Fault::Empty => ("EMPTY", vec![]),
        Fault::Closed => ("CLOSED", vec![]),
        Fault::Busy(count) => ("BUSY", vec![count as u64]),
        Fault::Worn => ("WORN", vec![]),
        Fault::WrongState => ("WRONG_STATE", vec![]),
        Fault::BadLimit => ("BAD_LIMIT", vec![]),
        Fault::Memory => ("MEMORY", vec![]),
    }
}

fn made<T>(result: Result<T, Fault>, words: impl FnOnce(T) -> Vec<u64>) -> Found {
    result.map_or_else(refused, |value| ("OK", words(value)))
}

// A call that may stay open, with this code and these words.
fn stepped<T>(result: Result<Step<T>, Fault>, open: Found, words: impl FnOnce(T) -> Vec<u64>) -> Found {
    match result {
        Ok(Step::Done(value)) => ("OK", words(value)),
        Ok(Step::NotYet) => open,
        Err(fault) => refused(fault),
    }
}

// How a burst has ended, of which this many are left.
fn burst(left: usize, words: Vec<u64>) -> Found {
    (if left == 0 { "OK" } else { "NOT_YET" }, words)
}

fn words_of(state: State) -> (u64, u64) {
    match state {
        State::Idle => (0, 0),
        State::Inserting(ticket) => (1, ticket),
        State::Deleting(ticket) => (2, ticket),
    }
}

// The first places of a burst, of which the others were not written.
fn taken(items: &[u64], count: usize) -> impl Iterator<Item = u64> + '_ {
    assert!(items[count..].iter().all(|item| *item == UNWRITTEN));
    items[..count].iter().copied()
}

// Makes a call that is never refused.
fn look_at(seat: &mut Seat, name: &str) -> Vec<u64> {
    match name {
        "pause" => {
            seat.pause();
            vec![]
        }
        "state" => {
            let (state, ticket) = words_of(seat.state());
            vec![state, ticket, seat.left()]
        }
        "count" => vec![seat.count() as u64],
        "in_use" => vec![seat.in_use().cells as u64, u64::from(seat.in_use().is_shut)],
        "drained" => vec![u64::from(seat.is_drained())],
        _ => panic!("there is no call {name}"),
    }
}

// Notes the seats of an opening.
fn opened<S>(call: &Call, handles: &mut HashMap<usize, S>, seats: Result<Vec<S>, Fault>) -> Found {
    made(seats, |seats| {
        handles.extend((call.at..).zip(seats));
        vec![]
    })
}

impl Handles {
    // Makes a call. None if the types exclude it.
    fn call(&mut self, name: &str, call: &Call) -> Option<Found> {
        match name.split_once('_') {
            Some(("sem", name)) => self.call_semaphore(name, call),
            Some(("room", name)) => self.call_room(name, call),
            Some(("credit", name)) => self.call_credit(name, call),
            Some(("files", name)) => self.call_files(name, call),
            Some(("channel", name)) => self.call_channel(name.strip_prefix("shared_")?, call),
            _ if name.ends_with("_burst") || name.contains("bundle") => self.call_bundle(name, call),
            _ if name == "leave" || name == "move" => self.give_up(name, call),
            _ => self.call_queue(name, call),
        }
    }

    // A seat that leaves is dropped.
    fn give_up(&mut self, name: &str, call: &Call) -> Option<Found> {
        fn goes<S>(handles: &mut HashMap<usize, S>, is_move: bool, call: &Call) -> Option<()> {
            let seat = handles.remove(&call.at)?;
            if is_move {
                handles.insert(call.other.0, seat);
            }
            Some(())
        }
        let is_move = name == "move";
        goes(&mut self.queue, is_move, call)
            .or_else(|| goes(&mut self.bundle, is_move, call))
            .or_else(|| goes(&mut self.semaphore, is_move, call))
            .or_else(|| goes(&mut self.room, is_move, call))
            .or_else(|| goes(&mut self.credit, is_move, call))
            .or_else(|| goes(&mut self.files, is_move, call))
            .map(|()| ("OK", vec![]))
    }

    fn call_queue(&mut self, name: &str, call: &Call) -> Option<Found> {
        let numbers = &call.numbers;
        if name == "open" {
            return Some(opened(call, &mut self.queue, Seat::open_vec(call.count, numbers[0], numbers[1])));
        }
        let seat = self.queue.get_mut(&call.at)?;
        Some(match name {
            "claim_insert" => made(seat.claim_insert(numbers[0]), |ticket| vec![ticket]),
            "insert" | "put" => {
                let result = seat.insert(numbers[0]);
                stepped(result, ("NOT_YET", vec![words_of(seat.state()).1]), |ticket| vec![ticket])
            }
            "try_fill" => stepped(seat.try_fill(), ("NOT_YET", vec![]), |()| vec![]),
            "claim_delete" => made(seat.claim_delete(), |ticket| vec![ticket]),
            "delete" | "get" => {
                let result = seat.delete_with_ticket();
                stepped(result, ("NOT_YET", vec![words_of(seat.state()).1]), |(ticket, item)| vec![ticket, item])
            }
            "try_take" => stepped(seat.try_take(), ("NOT_YET", vec![]), |item| vec![item]),
            "shut" => made(seat.shut(), |was_open| vec![u64::from(was_open)]),
            _ => ("OK", look_at(seat, name)),
        })
    }

    fn call_bundle(&mut self, name: &str, call: &Call) -> Option<Found> {
        let numbers = &call.numbers;
        if name == "open_bundles" {
            let opened = Bundle::open_vec(call.count, call.other.1, numbers[0], numbers[1], numbers[2]);
            return Some(made(opened, |(seats, bundles)| {
                self.queue.extend((call.at..).zip(seats));
                self.bundle.extend((call.other.0..).zip(bundles));
                vec![]
            }));
        }
        let bundle = self.bundle.get_mut(&call.at)?;
        let mut items = vec![UNWRITTEN; numbers.first().map_or(0, |n| *n as usize)];
        let result = match name {
            "insert_burst" => bundle.insert_burst(numbers).map(|made| burst(made.left, vec![made.ticket, made.count as u64])),
            "try_fill_burst" => bundle.try_fill_burst().map(|left| burst(left, vec![left as u64])),
            "delete_burst" => bundle.delete_burst(&mut items).map(|made| {
                let count = made.count - made.left;
                burst(made.left, [made.ticket, made.count as u64, count as u64].into_iter().chain(taken(&items, count)).collect())
            }),
            "try_take_burst" => bundle.try_take_burst(&mut items).map(|count| {
                let left = bundle.unfinished();
                burst(left as usize, [count as u64, left].into_iter().chain(taken(&items, count)).collect())
            }),
            "bundle_state" => {
                let (state, ticket) = words_of(bundle.state());
                Ok(("OK", vec![state, ticket, bundle.unfinished(), bundle.width(), bundle.left()]))
            }
            _ => panic!("there is no call {name}"),
        };
        Some(result.unwrap_or_else(refused))
    }

    fn call_semaphore(&mut self, name: &str, call: &Call) -> Option<Found> {
        let numbers = &call.numbers;
        if name == "open" {
            return Some(opened(call, &mut self.semaphore, SemSeat::open_vec(call.count, numbers[0], numbers[1], numbers[2])));
        }
        let seat = self.semaphore.get_mut(&call.at)?;
        Some(match name {
            "claim_down" => stepped(seat.down(numbers[0]), ("PARKS", vec![]), |()| vec![]),
            "try_park" => stepped(seat.try_park(), ("NOT_YET", vec![]), |()| vec![]),
            "claim_up" => stepped(seat.up(), ("WAKES", vec![]), |()| vec![]),
            "try_wake" => stepped(seat.try_wake(), ("NOT_YET", vec![]), |item| vec![item]),
            "state" => {
                let state = [SemState::Idle, SemState::Parking, SemState::Waking].iter().position(|state| *state == seat.state());
                ("OK", vec![state.unwrap() as u64, seat.left()])
            }
            _ => panic!("there is no call {name}"),
        })
    }

    fn call_room(&mut self, name: &str, call: &Call) -> Option<Found> {
        let numbers = &call.numbers;
        if name == "open" {
            return Some(opened(call, &mut self.room, RoomSeat::open_vec(call.count, numbers[0], numbers[1])));
        }
        let seat = self.room.get_mut(&call.at)?;
        Some(match name {
            "tir" => made(seat.claim(numbers[0]), |found| vec![found as u64]),
            "release" => made(seat.release(numbers[0]), |found| vec![found as u64]),
            "state" => ("OK", vec![seat.held(), seat.left()]),
            _ => panic!("there is no call {name}"),
        })
    }

    fn call_credit(&mut self, name: &str, call: &Call) -> Option<Found> {
        let numbers = &call.numbers;
        if name == "open" {
            return Some(opened(call, &mut self.credit, CreditSeat::open_vec(call.count, numbers[0], numbers[1])));
        }
        let seat = self.credit.get_mut(&call.at)?;
        Some(match name {
            "debit" => made(seat.debit(), |found| vec![found as u64]),
            "credit" => made(seat.credit(), |found| vec![found as u64]),
            "value" => ("OK", vec![seat.value() as u64, seat.left()]),
            _ => panic!("there is no call {name}"),
        })
    }

    fn call_files(&mut self, name: &str, call: &Call) -> Option<Found> {
        let numbers = &call.numbers;
        if name == "open" {
            return Some(opened(call, &mut self.files, FileSeat::open_vec(call.count, numbers[0], numbers[1])));
        }
        let seat = self.files.get_mut(&call.at)?;
        Some(match name {
            "try_read" => made(seat.try_read(), |()| vec![]),
            "try_write" => made(seat.try_write(), |()| vec![]),
            "get" => made(seat.get(numbers[0]), |(inode, uses)| vec![inode, uses]),
            "set_inode" => made(seat.set_inode(numbers[0], numbers[1]), |()| vec![]),
            "set_uses" => made(seat.set_uses(numbers[0], numbers[1]), |()| vec![]),
            "end" => made(seat.end(), |()| vec![]),
            "hold" => {
                let hold = [Hold::Nothing, Hold::Reading, Hold::Writing].iter().position(|hold| *hold == seat.hold());
                ("OK", vec![hold.unwrap() as u64])
            }
            _ => panic!("there is no call {name}"),
        })
    }

    // A shared channel is a sender and a receiver.
    fn call_channel(&mut self, name: &str, call: &Call) -> Option<Found> {
        let numbers = &call.numbers;
        if name == "open" {
            let opened = channel::open(numbers[2] as usize, (numbers[0] + numbers[1]) as usize, numbers[3]);
            return Some(opened.map_or_else(refused, |handles| {
                self.channel.insert(call.at, handles);
                ("OK", vec![])
            }));
        }
        let (sender, receiver) = self.channel.get(&call.at)?;
        let is_timed = name.ends_with("_until");
        let timeout = if numbers.first() == Some(&u64::MAX) { Duration::MAX } else { Duration::ZERO };
        let mut item: Item = [0; 4];
        item.iter_mut().zip(&numbers[usize::from(is_timed).min(numbers.len())..]).for_each(|(word, number)| *word = *number);
        Some(match name {
            "send" => sent(item, sender.send(item).map_err(|error| (format!("{error:?}"), error.into_inner()))),
            "try_send" => sent(item, sender.try_send(item).map_err(|error| (format!("{error:?}"), error.into_inner()))),
            "send_until" => sent(item, sender.send_timeout(item, timeout).map_err(|error| (format!("{error:?}"), error.into_inner()))),
            "receive" => received(receiver.recv()),
            "try_receive" => received(receiver.try_recv()),
            "receive_until" => received(receiver.recv_timeout(timeout)),
            "close" => (if sender.close() { "OK" } else { "CLOSED" }, vec![]),
            "len" => ("OK", vec![receiver.len() as u64]),
            "is_closed" => ("OK", vec![u64::from(receiver.is_closed())]),
            _ => panic!("there is no call {name}"),
        })
    }
}

// The code of a channel's error, by its name.
fn code_of(error: &str) -> &'static str {
    match error.trim_end_matches("(..)") {
        "Full" => "FULL",
        "Empty" => "EMPTY",
        "Closed" => "CLOSED",
        "Worn" => "WORN",
        "Timeout" => "GAVE_UP",
        _ => panic!("there is no error {error}"),
    }
}

// An item that is refused comes back.
fn sent(item: Item, result: Result<(), (String, Item)>) -> Found {
    result.map_or_else(
        |(error, back)| {
            assert_eq!(back, item);
            (code_of(&error), vec![])
        },
        |()| ("OK", vec![]),
    )
}

fn received<E: Debug>(result: Result<Item, E>) -> Found {
    result.map_or_else(|error| (code_of(&format!("{error:?}")), vec![]), |item| ("OK", item.to_vec()))
}

// Whether a call found what the row has. What the row has as `-` may be anything.
fn is_wanted(found: &Found, code: &str, values: &[&str]) -> bool {
    let (found_code, words) = found;
    let are_equal = |(at, word): (usize, &u64)| values.get(at).is_some_and(|value| *value == "-" || number_of(value) == *word);
    *found_code == code && values.len() <= words.len() && words.iter().enumerate().all(are_equal)
}

// Makes the calls of a row: an opening once, any other call with each of its handles. Returns whether there is such a call.
fn run_row(handles: &mut Handles, place: &str, row: &str) -> bool {
    let (before, after) = row.split_once(" = ").unwrap();
    let mut words = before.split(' ');
    let (first, count) = handles_of(words.next().unwrap()).unwrap();
    let name = words.next().unwrap();
    let (others, numbers): (Vec<&str>, Vec<&str>) = words.partition(|word| handles_of(word).is_some());
    let (code, values) = after.split_once(' ').unwrap_or((after, ""));
    let values: Vec<&str> = values.split_whitespace().collect();
    if code == "NO_SEAT" || (code != "OK" && ["leave", "move"].contains(&name)) {
        return false;
    }
    let is_opening = name.contains("open");
    for at in first..first + if is_opening { 1 } else { count } {
        let call = Call {
            at,
            count,
            other: others.first().and_then(|word| handles_of(word)).unwrap_or_default(),
            numbers: numbers.iter().map(|word| number_of(word)).collect(),
        };
        let found = handles.call(name, &call).unwrap_or_else(|| panic!("{place}: there is no seat: {row}"));
        assert!(is_wanted(&found, code, &values), "{place}: does not hold: {row}\n  found: {found:?}");
    }
    true
}

// Runs the rows of a file, and returns how many these are.
fn run_file(name: &str) -> usize {
    let (mut handles, mut skips, mut rows) = (Handles::default(), false, 0);
    for (line, row) in read_to_string(format!("{FOLDER}/{name}")).unwrap().lines().enumerate() {
        if row.is_empty() {
            (handles, skips) = (Handles::default(), false);
        } else if row.starts_with('#') {
            skips |= row.starts_with("# (C)");
        } else if !skips {
            rows += usize::from(run_row(&mut handles, &format!("{name}:{}", line + 1), row));
        }
    }
    rows
}

#[test]
fn each_row_holds() {
    for entry in read_dir(FOLDER).unwrap() {
        let name = entry.unwrap().file_name().into_string().unwrap();
        if !["channel_ends.rows", "channel_steps.rows"].contains(&name.as_str()) {
            let rows = run_file(&name);
            println!("{name}: {rows} rows");
            assert!(rows > 0);
        }
    }
}
