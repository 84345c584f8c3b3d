//! What users of other bounded channels expect, as the tests of those channels have it.
#![cfg(feature = "std")]

use fak_seats::channel::{bounded, Receiver, RecvError, RecvTimeoutError, SendError, SendTimeoutError, Sender, TryRecvError, TrySendError};
use std::cell::RefCell;
use std::sync::atomic::{AtomicUsize, Ordering::SeqCst};
use std::sync::Barrier;
use std::thread::{scope, sleep, spawn};
use std::time::Duration;

fn ms(milliseconds: u64) -> Duration {
    Duration::from_millis(milliseconds)
}

#[test]
fn each_capacity_is_kept() {
    for size in 1..10 {
        let (sender, receiver) = bounded(size, 2).unwrap();
        assert_eq!((sender.capacity(), receiver.capacity()), (size, size));
        (0..size).for_each(|item| assert_eq!((sender.len(), sender.try_send(item)), (item, Ok(()))));
        assert_eq!((sender.is_full(), sender.try_send(99)), (true, Err(TrySendError::Full(99))));
        (0..size).for_each(|item| assert_eq!((receiver.len(), receiver.try_recv()), (size - item, Ok(item))));
        assert_eq!((receiver.is_empty(), receiver.try_recv()), (true, Err(TryRecvError::Empty)));
    }
}

#[test]
fn try_recv_finds_what_comes_and_the_end() {
    let (sender, receiver) = bounded(100, 2).unwrap();
    let step = Barrier::new(2);
    scope(|threads| {
        threads.spawn(|| {
            assert_eq!(receiver.try_recv(), Err(TryRecvError::Empty));
            step.wait();
            step.wait();
            assert_eq!((receiver.try_recv(), receiver.try_recv()), (Ok(7), Err(TryRecvError::Empty)));
            step.wait();
            step.wait();
            assert_eq!(receiver.try_recv(), Err(TryRecvError::Closed));
        });
        step.wait();
        sender.send(7).unwrap();
        step.wait();
        step.wait();
        drop(sender);
        step.wait();
    });
}

#[test]
fn recv_timeout_is_over_before_and_not_after() {
    let (sender, receiver) = bounded(100, 2).unwrap();
    let step = Barrier::new(2);
    scope(|threads| {
        threads.spawn(|| {
            assert_eq!(receiver.recv_timeout(ms(50)), Err(RecvTimeoutError::Timeout));
            step.wait();
            assert_eq!(receiver.recv_timeout(ms(100_000)), Ok(7));
            assert_eq!(receiver.recv_timeout(ms(100_000)), Err(RecvTimeoutError::Closed));
        });
        step.wait();
        sleep(ms(50));
        sender.send(7).unwrap();
        drop(sender);
    });
}

#[test]
fn a_sender_waits_for_room() {
    let (sender, receiver) = bounded(2, 2).unwrap();
    let step = Barrier::new(2);
    scope(|threads| {
        threads.spawn(|| {
            (1..=2).for_each(|item| sender.send(item).unwrap());
            assert_eq!(sender.try_send(3), Err(TrySendError::Full(3)));
            assert_eq!(sender.send_timeout(3, ms(50)), Err(SendTimeoutError::Timeout(3)));
            step.wait();
            assert_eq!((sender.send_timeout(4, ms(100_000)), sender.send(5)), (Ok(()), Ok(())));
            step.wait();
            assert_eq!(sender.send(6), Err(SendError::Closed(6)));
        });
        step.wait();
        sleep(ms(50));
        assert_eq!((receiver.recv(), receiver.recv(), receiver.recv()), (Ok(1), Ok(2), Ok(4)));
        assert_eq!(receiver.recv(), Ok(5));
        drop(receiver);
        step.wait();
    });
}

// A length never exceeds the number of cells, whatever others do.
#[test]
fn a_length_is_one_of_a_moment() {
    let (sender, receiver) = bounded(100, 3).unwrap();
    scope(|threads| {
        threads.spawn(|| {
            for item in 0..10_000 {
                let length = receiver.len();
                assert!(length <= 100);
                assert_eq!(receiver.recv(), Ok(item));
            }
        });
        threads.spawn(|| {
            for item in 0..10_000 {
                sender.send(item).unwrap();
                assert!(sender.len() <= 100);
            }
        });
    });
    assert_eq!((sender.len(), receiver.len()), (0, 0));
}

#[test]
fn one_sends_and_one_receives() {
    let (sender, receiver) = bounded(3, 2).unwrap();
    scope(|threads| {
        threads.spawn(move || {
            (0..50_000).for_each(|item| assert_eq!(receiver.recv(), Ok(item)));
            assert_eq!(receiver.recv(), Err(RecvError::Closed));
        });
        threads.spawn(move || (0..50_000).for_each(|item| sender.send(item).unwrap()));
    });
}

#[test]
fn many_send_and_many_receive() {
    let (sender, receiver) = bounded::<usize>(3, 2).unwrap();
    let counts: Vec<_> = (0..10_000).map(|_| AtomicUsize::new(0)).collect();
    scope(|threads| {
        for _ in 0..4 {
            threads.spawn(|| {
                (0..10_000).for_each(|_| {
                    counts[receiver.recv().unwrap()].fetch_add(1, SeqCst);
                })
            });
            threads.spawn(|| (0..10_000).for_each(|item| sender.send(item).unwrap()));
        }
    });
    assert!(counts.iter().all(|count| count.load(SeqCst) == 4));
}

#[test]
fn a_channel_for_one_item() {
    for _ in 0..500 {
        let (sender, receiver) = bounded(1, 2).unwrap();
        scope(|threads| {
            threads.spawn(|| assert_eq!(receiver.recv(), Ok(0)));
            threads.spawn(|| sender.send(0).unwrap());
        });
    }
}

// A server that receives questions by one channel and replies by another, while the client polls.
#[test]
fn a_poller_hears_the_answer() {
    let (requests, asked) = bounded(1, 2).unwrap();
    let (answers, heard) = bounded(1, 2).unwrap();
    scope(|threads| {
        threads.spawn(move || {
            let mut sum = 0;
            loop {
                sum += heard.try_iter().sum::<u64>();
                if sum >= 200 {
                    return;
                }
                let _ = requests.try_send(());
            }
        });
        asked.iter().for_each(|()| {
            let _ = answers.try_send(1);
        });
    });
}

// Both give up again and again, until both are there at once.
#[test]
fn two_that_give_up_meet() {
    let (sender, receiver) = bounded(2, 2).unwrap();
    scope(|threads| {
        threads.spawn(|| {
            for item in 0..50 {
                if item % 2 == 0 {
                    sleep(ms(3));
                }
                while sender.send_timeout(item, ms(1)).is_err() {}
            }
        });
        threads.spawn(|| {
            for item in 0..50 {
                if item % 2 == 0 {
                    sleep(ms(3));
                }
                let received = std::iter::repeat_with(|| receiver.recv_timeout(ms(1))).find_map(Result::ok);
                assert_eq!(received, Some(item));
            }
        });
    });
}

// Who has sent an item finds one, if nobody takes more than it has sent.
#[test]
fn a_try_finds_what_was_sent() {
    for ends in [2, 8] {
        let (sender, receiver) = bounded(1, ends).unwrap();
        scope(|threads| {
            for _ in 0..4 {
                let (sender, receiver) = (sender.clone(), receiver.clone());
                threads.spawn(move || {
                    for _ in 0..5_000 {
                        sender.send(0).unwrap();
                        assert_eq!(receiver.try_recv(), Ok(0));
                    }
                });
            }
        });
    }
}

#[test]
fn an_iterator_may_stop_and_go_on() {
    let (sender, receiver) = bounded(20, 2).unwrap();
    let (answers, answer) = bounded(1, 2).unwrap();
    let thread = spawn(move || {
        let mut count = 0;
        for item in &receiver {
            if count >= 3 {
                break;
            }
            count += item;
        }
        answers.send(count).unwrap();
        receiver.iter().sum::<i32>()
    });
    (0..4).for_each(|_| sender.send(2).unwrap());
    assert_eq!(answer.recv(), Ok(4));
    (0..5).for_each(|_| sender.send(10).unwrap());
    drop(sender);
    assert_eq!(thread.join().unwrap(), 2 + 50);
}

#[test]
fn a_try_iterator_takes_what_is_there() {
    let (sender, receiver) = bounded(4, 2).unwrap();
    (1..=3).for_each(|item| sender.send(item).unwrap());
    assert_eq!((receiver.try_iter().collect::<Vec<_>>(), receiver.is_closed()), (vec![1, 2, 3], false));
    sender.send(4).unwrap();
    drop(sender);
    assert_eq!((receiver.try_iter().collect::<Vec<_>>(), receiver.try_recv()), (vec![4], Err(TryRecvError::Closed)));
}

// The drop of a thread's own data calls the channel while the thread ends.
#[test]
fn calls_go_on_while_a_thread_ends() {
    struct Last(Sender<u8>, Receiver<u8>);
    impl Drop for Last {
        fn drop(&mut self) {
            assert_eq!(self.1.recv_timeout(ms(1)), Err(RecvTimeoutError::Timeout));
            self.0.send(1).unwrap();
            assert_eq!((self.0.send_timeout(2, ms(1)), self.1.recv()), (Err(SendTimeoutError::Timeout(2)), Ok(1)));
            self.0.send(3).unwrap();
        }
    }
    thread_local!(static LAST: RefCell<Option<Last>> = const { RefCell::new(None) });
    let (sender, receiver) = bounded(1, 4).unwrap();
    let last = Last(sender.clone(), receiver.clone());
    spawn(move || LAST.set(Some(last))).join().unwrap();
    assert_eq!((receiver.recv_timeout(ms(100_000)), receiver.try_recv()), (Ok(3), Err(TryRecvError::Empty)));
}

// A panicking thread drops its handles, and others see that.
#[test]
fn a_thread_that_panics_closes_its_side() {
    let (sender, receiver) = bounded(1, 3).unwrap();
    let second = sender.clone();
    let thread = spawn(move || {
        sender.send(1).unwrap();
        let _ = &second;
        assert!(second.is_closed(), "this thread panics");
    });
    assert!(thread.join().is_err());
    assert_eq!((receiver.recv(), receiver.recv()), (Ok(1), Err(RecvError::Closed)));
}
