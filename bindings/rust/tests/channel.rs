//! What the handles of a channel do besides the calls in `rows.rs`: times, closes, worn ends, and texts.
#![cfg(feature = "std")]

use fak_seats::channel::{bounded, open, Receiver, RecvError, RecvTimeoutError};
use fak_seats::channel::{SendError, SendTimeoutError, Sender, TryRecvError, TrySendError};
use fak_seats::limits::{is_channel_ends, is_channel_stint, CHANNEL_KEEPS, MOST_CALLS, MOST_CELLS, MOST_SEATS};
use fak_seats::Fault;
use std::fs::read_to_string;
use std::thread::{scope, sleep, spawn};
use std::time::{Duration, Instant};

const SHORT: Duration = Duration::from_millis(30);
const LONG: Duration = Duration::from_secs(600);

#[test]
fn handles_tell_how_full_the_channel_is() {
    let (sender, receiver) = bounded(2, 2).unwrap();
    assert_eq!((sender.capacity(), receiver.capacity()), (2, 2));
    for length in 0..=2 {
        assert_eq!((sender.len(), receiver.len()), (length, length));
        assert_eq!((sender.is_empty(), receiver.is_empty()), (length == 0, length == 0));
        assert_eq!((sender.is_full(), receiver.is_full()), (length == 2, length == 2));
        assert_eq!(sender.try_send(7).is_ok(), length < 2);
    }
}

// Whether the call took at least this long.
fn lasts(least: Duration, call: impl FnOnce()) -> bool {
    let begun = Instant::now();
    call();
    begun.elapsed() >= least
}

#[test]
fn a_full_channel_is_given_up_in_time() {
    let (sender, _receiver) = bounded(1, 2).unwrap();
    let deadline = Instant::now() + LONG;
    assert_eq!(sender.send_deadline(1, deadline), Ok(()));
    assert!(lasts(SHORT, || assert_eq!(sender.send_timeout(3, SHORT), Err(SendTimeoutError::Timeout(3)))));
    assert!(lasts(SHORT, || assert_eq!(sender.send_deadline(4, Instant::now() + SHORT), Err(SendTimeoutError::Timeout(4)))));
    assert_eq!((sender.send_deadline(6, Instant::now()), sender.len()), (Err(SendTimeoutError::Timeout(6)), 1));
    assert!(sender.close());
    assert_eq!(sender.send_deadline(8, deadline), Err(SendTimeoutError::Closed(8)));
}

#[test]
fn an_empty_channel_is_given_up_in_time() {
    let (sender, receiver) = bounded::<u8>(1, 2).unwrap();
    let deadline = Instant::now() + LONG;
    assert!(lasts(SHORT, || assert_eq!(receiver.recv_timeout(SHORT), Err(RecvTimeoutError::Timeout))));
    assert!(lasts(SHORT, || assert_eq!(receiver.recv_deadline(Instant::now() + SHORT), Err(RecvTimeoutError::Timeout))));
    assert_eq!(receiver.recv_deadline(Instant::now()), Err(RecvTimeoutError::Timeout));
    // What gave up takes no item later.
    sender.send(7).unwrap();
    assert_eq!((receiver.len(), receiver.recv_deadline(deadline), receiver.close()), (1, Ok(7), true));
    assert_eq!(receiver.recv_deadline(deadline), Err(RecvTimeoutError::Closed));
}

#[test]
fn the_last_sender_closes() {
    let (sender, receiver) = bounded(2, 4).unwrap();
    let second = sender.clone();
    sender.send(1).unwrap();
    drop(sender);
    assert!(!receiver.is_closed());
    second.send(2).unwrap();
    drop(second);
    assert!(receiver.is_closed());
    assert_eq!((receiver.recv(), receiver.recv(), receiver.recv()), (Ok(1), Ok(2), Err(RecvError::Closed)));
}

#[test]
fn the_last_receiver_closes() {
    let (sender, receiver) = bounded(2, 4).unwrap();
    let second = receiver.clone();
    drop(receiver);
    assert_eq!((sender.send(1), second.recv(), sender.send(2)), (Ok(()), Ok(1), Ok(())));
    drop(second);
    assert_eq!((sender.is_closed(), sender.len(), sender.send(3)), (true, 0, Err(SendError::Closed(3))));
}

// How often the call can be made.
fn made(mut call: impl FnMut() -> bool) -> usize {
    (0..1_000).take_while(|_| call()).count()
}

#[test]
fn a_worn_sender_refuses() {
    let (sender, receiver) = open(1, 4, 40).unwrap();
    let receivers = [receiver.clone(), receiver];
    let mut turn = 0;
    let sent = made(|| {
        turn = 1 - turn;
        sender.send(0).is_ok() && receivers[turn].recv().is_ok()
    });
    assert!((20..=40).contains(&sent));
    assert_eq!((sender.send(5), sender.try_send(6)), (Err(SendError::Worn(5)), Err(TrySendError::Worn(6))));
    assert_eq!(sender.send_timeout(7, LONG), Err(SendTimeoutError::Worn(7)));
    assert_eq!(sender.send_deadline(8, Instant::now() + LONG), Err(SendTimeoutError::Worn(8)));
    assert_eq!((sender.is_closed(), sender.len(), sender.clone().send(9), receivers[0].recv()), (false, 0, Ok(()), Ok(9)));
    // The worn end still closes the channel.
    drop(sender);
    assert_eq!((receivers[0].recv(), receivers[1].recv()), (Err(RecvError::Closed), Err(RecvError::Closed)));
}

#[test]
fn a_worn_receiver_refuses() {
    let (sender, receiver) = open(2, 4, 40).unwrap();
    let senders = [sender.clone(), sender];
    let mut turn = 0;
    let received = made(|| {
        turn = 1 - turn;
        senders[turn].send(7).is_ok() && receiver.recv().is_ok()
    });
    assert!((20..=40).contains(&received));
    assert_eq!((receiver.recv(), receiver.try_recv()), (Err(RecvError::Worn), Err(TryRecvError::Worn)));
    assert_eq!(receiver.recv_timeout(LONG), Err(RecvTimeoutError::Worn));
    assert_eq!(receiver.recv_deadline(Instant::now() + LONG), Err(RecvTimeoutError::Worn));
    assert_eq!((receiver.iter().next(), receiver.try_iter().next()), (None, None));
    assert_eq!((receiver.len(), receiver.clone().recv(), receiver.len()), (1, Ok(7), 0));
}

#[test]
fn openings_have_limits() {
    let most_ends = MOST_SEATS - CHANNEL_KEEPS;
    assert_eq!(bounded::<u8>(0, 2).err(), Some(Fault::BadLimit));
    assert_eq!(bounded::<u8>(MOST_CELLS as usize + 1, 2).err(), Some(Fault::BadLimit));
    assert_eq!(bounded::<u8>(1, 1).err(), Some(Fault::BadLimit));
    assert_eq!(bounded::<u8>(1, most_ends + 1).err(), Some(Fault::BadLimit));
    assert_eq!(bounded::<u8>(1, usize::MAX).err(), Some(Fault::BadLimit));
    assert_eq!(bounded::<u8>(usize::MAX, 2).err(), Some(Fault::BadLimit));
    assert!(bounded::<u8>(1, 2).is_ok() && bounded::<u8>(1, most_ends).is_ok());
    assert!(is_channel_ends(2) && is_channel_ends(most_ends) && !is_channel_ends(1) && !is_channel_ends(most_ends + 1));
    let (least, most) = (10 + 2 * 3 + 16, MOST_CALLS / 5);
    for (stint, is_right) in [(0, false), (least - 1, false), (least, true), (most, true), (most + 1, false), (u64::MAX, false)] {
        assert_eq!((is_channel_stint(3, 10, stint), open::<u8>(10, 3, stint).is_ok()), (is_right, is_right));
    }
}

#[test]
fn each_refusal_has_its_words() {
    assert_eq!(SendError::Closed(1).to_string(), "the channel is closed");
    assert_eq!(SendError::Worn(1).to_string(), "the stint of the end is used up");
    assert_eq!(TrySendError::Full(1).to_string(), "the channel is full");
    assert_eq!(TrySendError::Closed(1).to_string(), "the channel is closed");
    assert_eq!(TrySendError::Worn(1).to_string(), "the stint of the end is used up");
    assert_eq!(SendTimeoutError::Timeout(1).to_string(), "timed out while the channel was full");
    assert_eq!(SendTimeoutError::Closed(1).to_string(), "the channel is closed");
    assert_eq!(SendTimeoutError::Worn(1).to_string(), "the stint of the end is used up");
    assert_eq!(RecvError::Closed.to_string(), "the channel is closed and empty");
    assert_eq!(RecvError::Worn.to_string(), "the stint of the end is used up");
    assert_eq!(TryRecvError::Empty.to_string(), "the channel is empty");
    assert_eq!(TryRecvError::Closed.to_string(), "the channel is closed and empty");
    assert_eq!(TryRecvError::Worn.to_string(), "the stint of the end is used up");
    assert_eq!(RecvTimeoutError::Timeout.to_string(), "timed out while the channel was empty");
    assert_eq!(RecvTimeoutError::Closed.to_string(), "the channel is closed and empty");
    assert_eq!(RecvTimeoutError::Worn.to_string(), "the stint of the end is used up");
    let text = |error: &dyn std::error::Error| format!("{error:?}");
    assert_eq!((text(&SendError::Closed(1)), text(&TrySendError::Full(1))), ("Closed(..)".into(), "Full(..)".into()));
    assert_eq!((text(&SendTimeoutError::Timeout(1)), text(&RecvError::Worn)), ("Timeout(..)".into(), "Worn".into()));
    assert_eq!((text(&TryRecvError::Empty), text(&RecvTimeoutError::Timeout)), ("Empty".into(), "Timeout".into()));
}

#[test]
fn each_refusal_says_which_it_is() {
    let (send, try_send, timed_send) = (SendError::Worn(7), TrySendError::Full(8), SendTimeoutError::Timeout(9));
    assert_eq!((send.is_closed(), send.is_worn(), send.into_inner()), (false, true, 7));
    assert_eq!((try_send.is_full(), try_send.is_closed(), try_send.is_worn(), try_send.into_inner()), (true, false, false, 8));
    assert_eq!((timed_send.is_timeout(), timed_send.is_closed(), timed_send.is_worn(), timed_send.into_inner()), (true, false, false, 9));
    assert_eq!((RecvError::Closed.is_closed(), RecvError::Closed.is_worn()), (true, false));
    assert_eq!((TryRecvError::Worn.is_empty(), TryRecvError::Worn.is_closed(), TryRecvError::Worn.is_worn()), (false, false, true));
    let timeout = RecvTimeoutError::Timeout;
    assert_eq!((timeout.is_timeout(), timeout.is_closed(), timeout.is_worn()), (true, false, false));
}

#[test]
fn iterators_end_with_the_channel() {
    let (sender, receiver) = bounded(8, 2).unwrap();
    (1..=6).for_each(|item| sender.send(item).unwrap());
    assert_eq!(receiver.try_iter().collect::<Vec<_>>(), [1, 2, 3, 4, 5, 6]);
    assert_eq!(receiver.try_iter().next(), None);
    (1..=4).for_each(|item| sender.send(item).unwrap());
    assert_eq!(receiver.iter().next(), Some(1));
    drop(sender);
    assert_eq!((&receiver).into_iter().next(), Some(2));
    let mut rest = receiver.into_iter();
    assert_eq!((rest.next(), rest.next(), rest.next(), rest.next()), (Some(3), Some(4), None, None));
}

#[test]
fn handles_have_names() {
    let (sender, receiver) = bounded::<u8>(1, 2).unwrap();
    assert_eq!((format!("{sender:?}"), format!("{receiver:?}")), ("Sender { .. }".into(), "Receiver { .. }".into()));
    assert_eq!((format!("{:?}", receiver.iter()), format!("{:?}", receiver.try_iter())), ("Iter { .. }".into(), "TryIter { .. }".into()));
    assert_eq!(format!("{:?}", receiver.into_iter()), "IntoIter { .. }");
}

#[test]
fn a_sleeping_sender_wakes_up() {
    let (sender, receiver) = bounded(1, 2).unwrap();
    sender.send(1).unwrap();
    let thread = spawn(move || (sender.send(2), sender.send_timeout(3, LONG), sender.send_timeout(4, Duration::MAX)));
    for item in 1..=4 {
        sleep(SHORT);
        assert_eq!(receiver.recv(), Ok(item));
    }
    assert_eq!(thread.join().unwrap(), (Ok(()), Ok(()), Ok(())));
}

#[test]
fn a_sleeping_receiver_wakes_up() {
    let (sender, receiver) = bounded(1, 2).unwrap();
    let thread = spawn(move || (receiver.recv(), receiver.recv_timeout(LONG), receiver.recv_timeout(Duration::MAX), receiver.recv()));
    for item in 1..=3 {
        sleep(SHORT);
        sender.send(item).unwrap();
    }
    sleep(SHORT);
    drop(sender);
    assert_eq!(thread.join().unwrap(), (Ok(1), Ok(2), Ok(3), Err(RecvError::Closed)));
}

// Both close a channel that threads sleep at, and all of them wake up.
fn close_wakes(ends: usize, close_senders: impl Fn(Receiver<u64>), close_receivers: impl Fn(Sender<u64>)) {
    let (sender, receiver) = bounded(1, ends).unwrap();
    sender.send(0).unwrap();
    scope(|threads| {
        for item in 1..=5 {
            let sender = sender.clone();
            threads.spawn(move || assert_eq!(sender.send(item), Err(SendError::Closed(item))));
        }
        sleep(SHORT);
        close_senders(receiver);
    });
    let (sender, receiver) = bounded(1, ends).unwrap();
    scope(|threads| {
        for _ in 0..5 {
            let receiver = receiver.clone();
            threads.spawn(move || assert_eq!(receiver.recv(), Err(RecvError::Closed)));
        }
        sleep(SHORT);
        close_receivers(sender);
    });
}

#[test]
fn a_close_wakes_all() {
    for ends in [2, 4, 12] {
        close_wakes(ends, drop, drop);
        close_wakes(ends, |receiver| assert!(receiver.close()), |sender| assert!(sender.close()));
    }
}

// The nanoseconds that this thread was on a processor.
fn processor_time() -> u64 {
    let said = read_to_string("/proc/thread-self/schedstat").unwrap();
    said.split(' ').next().unwrap().parse().unwrap()
}

#[test]
fn a_sleeper_takes_no_processor_time() {
    let (sender, receiver) = bounded::<u8>(1, 2).unwrap();
    sender.send(0).unwrap();
    let before = processor_time();
    assert_eq!(sender.send_timeout(1, 10 * SHORT), Err(SendTimeoutError::Timeout(1)));
    receiver.recv().unwrap();
    assert_eq!(receiver.recv_timeout(10 * SHORT), Err(RecvTimeoutError::Timeout));
    assert!(processor_time() - before < SHORT.as_nanos() as u64);
}
