//! Storms: more threads than processors use every call, channels are closed meanwhile, and each item ends once.
#![cfg(feature = "std")]

use fak_seats::channel::{bounded, Receiver, RecvTimeoutError, SendTimeoutError, Sender, TryRecvError, TrySendError};
use std::sync::atomic::{AtomicU32, AtomicU64, Ordering::SeqCst};
use std::thread::{scope, sleep, yield_now};
use std::time::{Duration, Instant};

// Numbers that look random, from a seed.
struct Dice(u64);

impl Dice {
    fn throw(&mut self, sides: u64) -> u64 {
        self.0 = self.0.wrapping_mul(6_364_136_223_846_793_005).wrapping_add(1_442_695_040_888_963_407);
        (self.0 >> 33) % sides
    }

    fn time(&mut self) -> Duration {
        Duration::from_micros(self.throw(200))
    }
}

// What became of each item: it counts each way in which it ended.
struct Fates {
    received: Vec<AtomicU32>,
    refused: Vec<AtomicU32>,
    dropped: Vec<AtomicU32>,
}

// An item. Many bytes move it into a box.
struct Item<'a, const MORE: usize> {
    number: usize,
    fates: &'a Fates,
    more: [u8; MORE],
}

impl<const MORE: usize> Drop for Item<'_, MORE> {
    fn drop(&mut self) {
        assert!(self.more.iter().all(|&byte| byte == self.number as u8));
        self.fates.dropped[self.number].fetch_add(1, SeqCst);
    }
}

impl Fates {
    fn of(items: usize) -> Fates {
        let counters = || (0..items).map(|_| AtomicU32::new(0)).collect();
        Fates {
            received: counters(),
            refused: counters(),
            dropped: counters(),
        }
    }

    // Each item was dropped once, and not both received and refused: how many were received, and how many were refused.
    fn count(&self) -> (usize, usize) {
        let at = |fates: &[AtomicU32], item: usize| fates[item].load(SeqCst);
        for item in 0..self.dropped.len() {
            assert_eq!(at(&self.dropped, item), 1);
            assert!(at(&self.received, item) + at(&self.refused, item) <= 1);
        }
        let sum = |fates: &[AtomicU32]| fates.iter().map(|fate| fate.load(SeqCst) as usize).sum();
        (sum(&self.received), sum(&self.refused))
    }
}

// Sends the item by one of the calls, and again if it was refused because the channel was full. False once the channel is closed.
fn send<'a, const MORE: usize>(sender: &Sender<Item<'a, MORE>>, mut item: Item<'a, MORE>, dice: &mut Dice) -> bool {
    loop {
        let refused = match dice.throw(4) {
            0 => sender.send(item).map_err(|error| (true, error.into_inner())),
            1 => sender.try_send(item).map_err(|error| (matches!(error, TrySendError::Closed(_)), error.into_inner())),
            2 => sender.send_timeout(item, dice.time()).map_err(|error| (matches!(error, SendTimeoutError::Closed(_)), error.into_inner())),
            _ => sender.send_deadline(item, Instant::now() + dice.time()).map_err(|error| (error.is_closed(), error.into_inner())),
        };
        match refused {
            Ok(()) => return true,
            Err((true, item)) => {
                item.fates.refused[item.number].fetch_add(1, SeqCst);
                return false;
            }
            Err((false, back)) => item = back,
        }
    }
}

// Receives by one of the calls, until there is an item or the channel is closed and empty.
fn receive<'a, const MORE: usize>(receiver: &Receiver<Item<'a, MORE>>, dice: &mut Dice) -> Option<Item<'a, MORE>> {
    loop {
        match dice.throw(4) {
            0 => return receiver.recv().ok(),
            1 => match receiver.try_recv() {
                Err(TryRecvError::Empty) => {}
                received => return received.ok(),
            },
            2 => match receiver.recv_timeout(dice.time()) {
                Err(RecvTimeoutError::Timeout) => {}
                received => return received.ok(),
            },
            _ => match receiver.recv_deadline(Instant::now() + dice.time()) {
                Err(error) if error.is_timeout() => {}
                received => return received.ok(),
            },
        }
    }
}

// Threads that send some items each, and as many threads that receive. It ends when all items were sent, or earlier by a close.
struct Storm {
    threads: usize,
    each: usize,
    size: usize,
    ends: usize,
    seed: u64,
    closes: bool,
}

impl Storm {
    fn rages<const MORE: usize>(&self) {
        let fates = Fates::of(self.threads * self.each);
        let (sender, receiver) = bounded(self.size, self.ends).unwrap();
        scope(|threads| {
            for thread in 0..self.threads {
                let (sender, fates) = (sender.clone(), &fates);
                let mut dice = Dice(self.seed + thread as u64);
                threads.spawn(move || {
                    for number in thread * self.each..(thread + 1) * self.each {
                        let more = [number as u8; MORE];
                        send(&sender, Item { number, fates, more }, &mut dice);
                    }
                });
                let receiver = receiver.clone();
                let mut dice = Dice(self.seed + 1_000 + thread as u64);
                threads.spawn(move || {
                    // Some stop early.
                    let most = if self.closes { 1 + dice.throw(4 * self.each as u64) } else { u64::MAX };
                    for _ in 0..most {
                        let Some(item) = receive(&receiver, &mut dice) else {
                            return;
                        };
                        item.fates.received[item.number].fetch_add(1, SeqCst);
                    }
                });
            }
            if self.closes {
                drop(receiver);
                sleep(Duration::from_millis(self.seed % 7));
                sender.close();
            }
            drop(sender);
        });
        let (received, refused) = fates.count();
        let all = self.threads * self.each;
        assert!(self.closes || (received, refused) == (all, 0), "{received} received, {refused} refused of {all}");
    }
}

#[test]
fn each_item_of_a_storm_is_received_once() {
    for (seed, size, ends) in [(1, 1, 32), (2, 3, 32), (3, 64, 32), (4, 1, 2), (5, 16, 3), (6, 2, 9)] {
        let storm = Storm {
            threads: 12,
            each: 300,
            size,
            ends,
            seed,
            closes: false,
        };
        storm.rages::<8>();
    }
}

#[test]
fn each_item_of_a_storm_with_a_close_ends_once() {
    for seed in 0..60 {
        let storm = Storm {
            threads: 8,
            each: 200,
            size: [1, 2, 7, 64][seed as usize % 4],
            ends: [2, 3, 9, 40][seed as usize / 4 % 4],
            seed,
            closes: true,
        };
        storm.rages::<16>();
        storm.rages::<100>();
    }
}

// Three threads with handles of their own, which yield until it is their round and then call at once. Returns how often the call succeeded.
fn at_once<H: Clone + Send>(handle: &H, call: fn(&H) -> bool, prepare: impl Fn()) -> u64 {
    const ROUNDS: u64 = 200;
    let (round, ended, done) = (AtomicU64::new(0), AtomicU64::new(0), AtomicU64::new(0));
    scope(|threads| {
        for _ in 0..3 {
            let (handle, round, ended, done) = (handle.clone(), &round, &ended, &done);
            threads.spawn(move || {
                for number in 1..=ROUNDS {
                    while round.load(SeqCst) < number {
                        yield_now();
                    }
                    done.fetch_add(u64::from(call(&handle)), SeqCst);
                    ended.fetch_add(1, SeqCst);
                }
            });
        }
        for number in 1..=ROUNDS {
            prepare();
            round.store(number, SeqCst);
            while ended.load(SeqCst) < 3 * number {
                yield_now();
            }
        }
    });
    done.into_inner()
}

// Three try for the last item, or for the last cell: one gets it, and the others return, though nobody would wake them.
#[test]
fn tries_that_race_return() {
    for ends in [2, 8] {
        let (sender, receiver) = bounded(1, ends).unwrap();
        assert_eq!(at_once(&receiver, |receiver| receiver.try_recv().is_ok(), || sender.send(1).unwrap()), 200);
        sender.send(1).unwrap();
        assert_eq!(at_once(&sender, |sender| sender.try_send(1).is_ok(), || assert!(receiver.recv().is_ok())), 200);
    }
}

// Each receiver gets the items of a sender in the order in which they were sent.
#[test]
fn items_of_a_sender_stay_in_order() {
    for ends in [2, 12] {
        let (sender, receiver) = bounded(5, ends).unwrap();
        scope(|threads| {
            for thread in 0..5 {
                let sender = sender.clone();
                threads.spawn(move || (0..2_000).for_each(|item| sender.send((thread, item)).unwrap()));
                let receiver = receiver.clone();
                threads.spawn(move || {
                    let mut last = [-1; 5];
                    for (thread, item) in receiver {
                        let thread: usize = thread;
                        assert!(item > last[thread]);
                        last[thread] = item;
                    }
                });
            }
            drop((sender, receiver));
        });
    }
}

// A ring of threads, each of which waits for the one before it: if one wake-up is lost, the ring hangs.
#[test]
fn a_token_goes_round() {
    for threads in [2, 5, 24] {
        let channels: Vec<_> = (0..threads).map(|_| bounded::<u64>(1, 2).unwrap()).collect();
        channels[0].0.send(0).unwrap();
        scope(|spawned| {
            for thread in 0..threads {
                let (receiver, sender) = (&channels[thread].1, &channels[(thread + 1) % threads].0);
                spawned.spawn(move || {
                    for round in 0..1_000 {
                        assert_eq!(receiver.recv(), Ok(round * threads as u64 + thread as u64));
                        sender.send(round * threads as u64 + thread as u64 + 1).unwrap();
                    }
                });
            }
        });
        assert_eq!(channels[0].1.try_recv(), Ok(1_000 * threads as u64));
    }
}

// Receivers whose time is over just before or just after the item comes: a call that gave up loses no item. Now and then no item comes for
// so long that all give up.
#[test]
fn deadlines_race_with_wake_ups() {
    let (sender, receiver) = bounded::<u64>(1, 6).unwrap();
    let (received, timeouts) = (AtomicU64::new(0), AtomicU64::new(0));
    scope(|threads| {
        for seed in 0..4 {
            let (receiver, received, timeouts) = (receiver.clone(), &received, &timeouts);
            threads.spawn(move || {
                let mut dice = Dice(seed);
                loop {
                    match receiver.recv_timeout(dice.time() / 4) {
                        Ok(item) => received.fetch_add(item, SeqCst),
                        Err(RecvTimeoutError::Timeout) => timeouts.fetch_add(1, SeqCst),
                        Err(_) => return,
                    };
                }
            });
        }
        let mut dice = Dice(9);
        for item in 1..=2_000 {
            sender.send(item).unwrap();
            sleep(if item % 100 == 0 { Duration::from_millis(2) } else { dice.time() / 8 });
        }
        drop(sender);
    });
    assert_eq!(received.load(SeqCst), 2_000 * 2_001 / 2);
    assert!(timeouts.load(SeqCst) > 0);
}
