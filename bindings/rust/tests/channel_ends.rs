//! Ends: which handle has which, who shares one, and how they come back.
#![cfg(feature = "std")]

use fak_seats::channel::{bounded, open, Receiver, RecvError, RecvTimeoutError, SendTimeoutError, Sender, TryRecvError, TrySendError};
use std::panic::{RefUnwindSafe, UnwindSafe};
use std::sync::Barrier;
use std::thread::{scope, sleep};
use std::time::{Duration, Instant};

const SHORT: Duration = Duration::from_millis(30);
const LONG: Duration = Duration::from_secs(600);

#[test]
fn handles_go_to_other_threads() {
    fn is_shared<H: Send + Sync + UnwindSafe + RefUnwindSafe>() {}
    is_shared::<Sender<u8>>();
    is_shared::<Receiver<u8>>();
    is_shared::<Sender<Box<dyn FnOnce() + Send>>>();
}

#[test]
fn there_are_as_many_clones_of_their_own_as_ends() {
    let (sender, receiver) = bounded::<u8>(1, 5).unwrap();
    let (second, fourth) = (sender.try_clone().unwrap(), receiver.try_clone().unwrap());
    let third = second.try_clone().unwrap();
    assert!(sender.try_clone().is_none() && receiver.try_clone().is_none());
    drop(fourth);
    let fourth = sender.try_clone().unwrap();
    assert!(receiver.try_clone().is_none());
    assert!(sender.same_channel(&third) && fourth.same_channel(&second));
    let (other, _) = bounded::<u8>(1, 2).unwrap();
    assert!(!sender.same_channel(&other));
    // Those that share an end give none back.
    drop((sender.clone(), receiver.clone()));
    assert!(sender.try_clone().is_none() && receiver.same_channel(&receiver.clone()));
}

#[test]
fn a_shared_end_comes_back_with_its_last_handle() {
    let (sender, receiver) = bounded::<u8>(1, 2).unwrap();
    let shares = [sender.clone(), sender.clone(), sender.clone()];
    let receivers = [receiver.clone(), receiver];
    drop(sender);
    assert!(shares[0].try_clone().is_none());
    for (number, share) in shares.iter().enumerate() {
        assert_eq!((share.send(number as u8), receivers[number % 2].recv()), (Ok(()), Ok(number as u8)));
    }
    drop(shares);
    assert_eq!(receivers[0].recv(), Err(RecvError::Closed));
    let receiver = receivers[0].try_clone().unwrap();
    assert_eq!(receiver.recv(), Err(RecvError::Closed));
}

// Passes this many items.
fn pass(sender: &Sender<u64>, receiver: &Receiver<u64>, items: u64) {
    for item in 0..items {
        assert_eq!(sender.send(item), Ok(()));
        assert_eq!(receiver.recv(), Ok(item));
    }
}

#[test]
fn a_clone_gets_the_free_end_with_the_most_calls() {
    for is_worn_first in [true, false] {
        let (sender, receiver) = open(1, 5, 60).unwrap();
        let (worn, fresh, second) = (sender.clone(), sender.clone(), receiver.clone());
        pass(&worn, &receiver, 40);
        if is_worn_first {
            drop(worn);
            drop(fresh);
        } else {
            drop(fresh);
            drop(worn);
        }
        pass(&sender.clone(), &second, 40);
    }
}

#[test]
fn who_shares_the_end_of_a_sleeping_sender_is_told() {
    let (sender, receiver) = bounded(1, 2).unwrap();
    let share = sender.clone();
    sender.send(1).unwrap();
    scope(|threads| {
        let sleeper = threads.spawn(|| sender.send(2));
        sleep(SHORT);
        assert_eq!(share.try_send(3), Err(TrySendError::Full(3)));
        let begun = Instant::now();
        assert_eq!(share.send_timeout(3, SHORT), Err(SendTimeoutError::Timeout(3)));
        assert!(begun.elapsed() >= SHORT);
        assert_eq!(share.send_deadline(3, begun), Err(SendTimeoutError::Timeout(3)));
        assert_eq!((share.len(), share.is_closed()), (1, false));
        let waiting = threads.spawn(|| share.send(3));
        sleep(SHORT);
        // Either may have had the end first.
        let mut received = [receiver.recv(), receiver.recv(), receiver.recv()].map(Result::unwrap);
        received.sort_unstable();
        assert_eq!((sleeper.join().unwrap(), waiting.join().unwrap(), received), (Ok(()), Ok(()), [1, 2, 3]));
    });
}

#[test]
fn who_shares_the_end_of_a_sleeping_receiver_is_told() {
    let (sender, receiver) = bounded::<u8>(1, 2).unwrap();
    let share = receiver.clone();
    scope(|threads| {
        let sleeper = threads.spawn(|| receiver.recv());
        sleep(SHORT);
        assert_eq!(share.try_recv(), Err(TryRecvError::Empty));
        let begun = Instant::now();
        assert_eq!(share.recv_timeout(SHORT), Err(RecvTimeoutError::Timeout));
        assert!(begun.elapsed() >= SHORT);
        let waiting = threads.spawn(|| share.recv());
        sleep(SHORT);
        assert_eq!((sender.send(1), sender.send(2)), (Ok(()), Ok(())));
        let mut received = [sleeper, waiting].map(|thread| thread.join().unwrap().unwrap());
        received.sort_unstable();
        assert_eq!(received, [1, 2]);
    });
    // A thread that waits for the end of a sleeper sees the close too.
    scope(|threads| {
        let sleepers = [&receiver, &share, &share].map(|receiver| threads.spawn(|| receiver.recv_timeout(LONG)));
        sleep(SHORT);
        assert!(share.close());
        for sleeper in sleepers {
            assert_eq!(sleeper.join().unwrap(), Err(RecvTimeoutError::Closed));
        }
    });
}

// Many threads, of which each borrows the two handles of a channel with two ends.
#[test]
fn threads_share_handles_by_reference() {
    let (sender, receiver) = bounded(3, 2).unwrap();
    let begin = Barrier::new(16);
    let sum: u64 = scope(|threads| {
        let receivers: Vec<_> = (0..8)
            .map(|_| {
                threads.spawn(|| {
                    begin.wait();
                    (0..1_000).map(|_| receiver.recv().unwrap()).sum::<u64>()
                })
            })
            .collect();
        for thread in 0..8 {
            let (sender, begin) = (&sender, &begin);
            threads.spawn(move || {
                begin.wait();
                (0..1_000).for_each(|item| sender.send(1_000 * thread + item).unwrap());
            });
        }
        receivers.into_iter().map(|receiver| receiver.join().unwrap()).sum()
    });
    assert_eq!((sum, receiver.try_recv()), ((0..8_000).sum(), Err(TryRecvError::Empty)));
}

// Handles come and go on many threads, some with ends of their own and some without, and calls go on meanwhile.
#[test]
fn handles_come_and_go() {
    let (sender, receiver) = bounded::<u64>(4, 6).unwrap();
    let received: u64 = scope(|threads| {
        let receivers: Vec<_> = (0..4)
            .map(|_| {
                let mut receiver = receiver.clone();
                threads.spawn(move || {
                    let mut received = 0;
                    while receiver.recv().is_ok() {
                        received += 1;
                        receiver = if received % 3 == 0 { receiver.clone() } else { receiver.try_clone().unwrap_or(receiver) };
                    }
                    received
                })
            })
            .collect();
        for _ in 0..4 {
            let mut sender = sender.clone();
            threads.spawn(move || {
                for item in 0..2_000 {
                    sender.send(item).unwrap();
                    sender = if item % 3 == 0 { sender.clone() } else { sender.try_clone().unwrap_or(sender) };
                }
            });
        }
        drop(sender);
        receivers.into_iter().map(|receiver| receiver.join().unwrap()).sum()
    });
    assert_eq!((received, receiver.recv()), (8_000, Err(RecvError::Closed)));
    // All ends except that of the last handle are free again.
    let clones: Vec<_> = std::iter::from_fn(|| receiver.try_clone()).collect();
    assert_eq!(clones.len(), 5);
}
