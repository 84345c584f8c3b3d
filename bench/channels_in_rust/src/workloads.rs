//! What the channels do while they are measured. Each run checks the count and the sum of its items.

use crate::peers::{Peer, Receives, Sends};
use std::fs::{read_dir, read_link, read_to_string, DirEntry};
use std::sync::atomic::{AtomicUsize, Ordering::SeqCst};
use std::sync::Barrier;
use std::thread::{scope, sleep};
use std::time::{Duration, Instant};

/// Something that is measured.
pub struct Workload {
    pub name: &'static str,
    /// A figure of one run, with this number of items.
    pub run: fn(&Peer, u64) -> f64,
}

pub const WORKLOADS: [Workload; 8] = [
    Workload { name: "one thread", run: alone },
    Workload {
        name: "1 pair",
        run: |peer, items| pairs(peer, 1_024, 1, items),
    },
    Workload {
        name: "2 pairs",
        run: |peer, items| pairs(peer, 1_024, 2, items),
    },
    Workload {
        name: "4 pairs",
        run: |peer, items| pairs(peer, 1_024, 4, items),
    },
    Workload {
        name: "32 pairs, 8 cells",
        run: |peer, items| pairs(peer, 8, 32, items / 32),
    },
    Workload { name: "there and back", run: hand_over },
    Workload { name: "64 sleepers", run: |peer, _| sleepers(peer) },
    Workload { name: "idle, of a second", run: |peer, _| idle(peer) },
];

fn nanoseconds(time: Duration) -> f64 {
    time.as_nanos() as f64
}

// An item put in and taken out by one thread.
fn alone(peer: &Peer, items: u64) -> f64 {
    let (senders, receivers) = (peer.open)(1_024, 1, 1);
    let begun = Instant::now();
    for item in 0..items {
        assert!(senders[0].send(item));
        assert_eq!(receivers[0].recv(), Some(item));
    }
    nanoseconds(begun.elapsed()) / items as f64
}

// Sends the items, and returns when it began.
fn send_all(sender: &dyn Sends, items: u64) -> Instant {
    let begun = Instant::now();
    (0..items).for_each(|item| assert!(sender.send(item), "a receiver is gone"));
    begun
}

// Receives all items: their number, their sum, and when it ended.
fn receive_all(receiver: &dyn Receives) -> (u64, u64, Instant) {
    let (mut count, mut sum) = (0, 0);
    while let Some(item) = receiver.recv() {
        count += 1;
        sum += item;
    }
    (count, sum, Instant::now())
}

// An item, with as many senders as receivers.
fn pairs(peer: &Peer, size: usize, pairs: usize, each: u64) -> f64 {
    let (senders, receivers) = (peer.open)(size, pairs, pairs);
    let begin = Barrier::new(2 * pairs);
    let (begun, received): (Vec<_>, Vec<_>) = scope(|threads| {
        let send = |sender: Box<dyn Sends>| {
            let begin = &begin;
            threads.spawn(move || {
                begin.wait();
                send_all(&*sender, each)
            })
        };
        let receive = |receiver: Box<dyn Receives>| {
            let begin = &begin;
            threads.spawn(move || {
                begin.wait();
                receive_all(&*receiver)
            })
        };
        let senders: Vec<_> = senders.into_iter().map(send).collect();
        let receivers: Vec<_> = receivers.into_iter().map(receive).collect();
        (
            senders.into_iter().map(|thread| thread.join().expect("a sender ends")).collect(),
            receivers.into_iter().map(|thread| thread.join().expect("a receiver ends")).collect(),
        )
    });
    let items = pairs as u64 * each;
    let counted = received.iter().fold((0, 0), |all, one| (all.0 + one.0, all.1 + one.1));
    assert_eq!(counted, (items, items * (each - 1) / 2), "{}: an item was lost", peer.name);
    let (Some(begun), Some(ended)) = (begun.into_iter().min(), received.iter().map(|one| one.2).max()) else {
        return 0.0;
    };
    nanoseconds(ended - begun) / items as f64
}

// A hand-over to another thread and back, through channels of one cell.
fn hand_over(peer: &Peer, items: u64) -> f64 {
    let trips = (items / 4).max(1);
    let ((there, arrived), (back, returned)) = ((peer.open)(1, 1, 1), (peer.open)(1, 1, 1));
    scope(|threads| {
        threads.spawn(move || {
            while let Some(item) = arrived[0].recv() {
                assert!(back[0].send(item));
            }
        });
        let begun = Instant::now();
        for trip in 0..trips {
            assert!(there[0].send(trip));
            assert_eq!(returned[0].recv(), Some(trip), "{}: another item came than was sent", peer.name);
        }
        drop(there);
        nanoseconds(begun.elapsed()) / trips as f64
    })
}

const SLEEPERS: usize = 64;

// What it takes until each of many sleepers has received an item, for each of them.
fn sleepers(peer: &Peer) -> f64 {
    let (senders, receivers) = (peer.open)(SLEEPERS, 1, SLEEPERS);
    let awake = AtomicUsize::new(0);
    let begin = Barrier::new(SLEEPERS + 1);
    scope(|threads| {
        for receiver in receivers {
            let (awake, begin) = (&awake, &begin);
            threads.spawn(move || {
                begin.wait();
                assert_eq!(receiver.recv(), Some(7));
                awake.fetch_add(1, SeqCst);
            });
        }
        begin.wait();
        sleep(Duration::from_millis(20));
        let begun = Instant::now();
        (0..SLEEPERS).for_each(|_| assert!(senders[0].send(7)));
        while awake.load(SeqCst) < SLEEPERS {
            std::thread::yield_now();
        }
        nanoseconds(begun.elapsed()) / SLEEPERS as f64
    })
}

// The nanoseconds that the other threads of this process were on a processor.
fn processor_time() -> f64 {
    let own = read_link("/proc/thread-self").unwrap_or_default();
    let Ok(threads) = read_dir("/proc/self/task") else {
        return 0.0;
    };
    let others = threads.flatten().filter(|thread| Some(thread.file_name().as_os_str()) != own.file_name());
    let time_of = |thread: DirEntry| -> Option<f64> {
        let said = read_to_string(thread.path().join("schedstat")).ok()?;
        said.split(' ').next()?.parse().ok()
    };
    others.filter_map(time_of).sum()
}

// The processor time that a sleeping receiver takes in a second.
fn idle(peer: &Peer) -> f64 {
    const THREADS: usize = 8;
    let (senders, receivers) = (peer.open)(1, 1, THREADS);
    let begin = Barrier::new(THREADS + 1);
    scope(|threads| {
        for receiver in receivers {
            let begin = &begin;
            threads.spawn(move || {
                begin.wait();
                receiver.recv()
            });
        }
        begin.wait();
        sleep(Duration::from_millis(50));
        let (begun, before) = (Instant::now(), processor_time());
        sleep(Duration::from_millis(200));
        let took = (processor_time() - before) / THREADS as f64;
        let second = nanoseconds(begun.elapsed()) / 1e9;
        drop(senders);
        took / second
    })
}
