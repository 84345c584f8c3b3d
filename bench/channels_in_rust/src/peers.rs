//! The channels that are measured, by one interface.

use fak_seats::{Fault, Seat, Step};
use std::cell::RefCell;
use std::collections::VecDeque;
use std::sync::atomic::{AtomicUsize, Ordering::SeqCst};
use std::sync::mpsc;
use std::sync::{Arc, Condvar, Mutex};
use std::thread::yield_now;

/// A handle that sends. Both calls sleep while they have to wait.
pub trait Sends: Send {
    /// False if nobody will receive the item.
    fn send(&self, item: u64) -> bool;
}

/// A handle that receives.
pub trait Receives: Send {
    /// None once all senders are gone and the channel is empty.
    fn recv(&self) -> Option<u64>;
}

pub type Senders = Vec<Box<dyn Sends>>;
pub type Receivers = Vec<Box<dyn Receives>>;

/// A kind of channel.
pub struct Peer {
    pub name: &'static str,
    /// Opens a channel: its cells, and the handles of senders and of receivers.
    pub open: fn(usize, usize, usize) -> (Senders, Receivers),
}

/// All that this program was built with.
pub fn peers() -> Vec<Peer> {
    vec![
        Peer {
            name: "library",
            open: |size, senders, receivers| open_library(size, senders, receivers, senders + receivers),
        },
        Peer {
            name: "library, 2 ends for all",
            open: |size, senders, receivers| open_library(size, senders, receivers, 2),
        },
        Peer {
            name: "queue, callers yield",
            open: open_queue,
        },
        #[cfg(feature = "crossbeam")]
        Peer { name: "crossbeam-channel", open: open_crossbeam },
        Peer { name: "sync_channel", open: open_sync_channel },
        Peer { name: "mutex and two condvars", open: open_monitor },
    ]
}

// The handle, and clones of it: n in all.
fn handles<H: Clone>(handle: H, n: usize) -> impl Iterator<Item = H> {
    let clones: Vec<H> = (1..n).map(|_| handle.clone()).collect();
    std::iter::once(handle).chain(clones)
}

// ---- this library

struct LibrarySender(fak_seats::channel::Sender<u64>);
struct LibraryReceiver(fak_seats::channel::Receiver<u64>);

impl Sends for LibrarySender {
    fn send(&self, item: u64) -> bool {
        self.0.send(item).is_ok()
    }
}

impl Receives for LibraryReceiver {
    fn recv(&self) -> Option<u64> {
        self.0.recv().ok()
    }
}

fn open_library(size: usize, senders: usize, receivers: usize, ends: usize) -> (Senders, Receivers) {
    let (sender, receiver) = fak_seats::channel::bounded(size, ends).expect("the numbers are in range");
    (
        handles(sender, senders).map(|sender| Box::new(LibrarySender(sender)) as Box<dyn Sends>).collect(),
        handles(receiver, receivers).map(|receiver| Box::new(LibraryReceiver(receiver)) as Box<dyn Receives>).collect(),
    )
}

// ---- the queue of this library, whose callers try again until they are served. None of them sleeps

struct QueueSender {
    seat: RefCell<Seat>,
    senders: Arc<AtomicUsize>,
}

struct QueueReceiver(RefCell<Seat>);

impl Sends for QueueSender {
    fn send(&self, item: u64) -> bool {
        let mut seat = self.seat.borrow_mut();
        let mut inserted = loop {
            match seat.insert(item) {
                Ok(Step::Done(_)) => return true,
                Ok(Step::NotYet) => break Step::NotYet,
                Err(Fault::Full) => yield_now(),
                Err(_) => return false,
            }
        };
        while inserted == Step::NotYet {
            yield_now();
            inserted = seat.try_fill().expect("a claimed insertion is not refused");
        }
        true
    }
}

impl Receives for QueueReceiver {
    fn recv(&self) -> Option<u64> {
        let mut seat = self.0.borrow_mut();
        loop {
            match seat.delete() {
                Ok(Step::Done(item)) => return Some(item),
                Ok(Step::NotYet) => break,
                Err(_) if seat.is_drained() => return None,
                Err(_) => yield_now(),
            }
        }
        loop {
            if let Step::Done(item) = seat.try_take().expect("a claimed deletion is not refused") {
                return Some(item);
            }
            yield_now();
        }
    }
}

impl Drop for QueueSender {
    fn drop(&mut self) {
        if self.senders.fetch_sub(1, SeqCst) == 1 {
            self.seat.borrow_mut().shut().expect("the last sender has no open call");
        }
    }
}

fn open_queue(size: usize, senders: usize, receivers: usize) -> (Senders, Receivers) {
    let stint = fak_seats::limits::MOST_CALLS / 1_024;
    let mut seats = Seat::open_vec(senders + receivers, size as u64, stint).expect("the numbers are in range").into_iter();
    let left = Arc::new(AtomicUsize::new(senders));
    let sender = |seat| Box::new(QueueSender { seat: RefCell::new(seat), senders: Arc::clone(&left) }) as Box<dyn Sends>;
    (
        seats.by_ref().take(senders).map(sender).collect(),
        seats.map(|seat| Box::new(QueueReceiver(RefCell::new(seat))) as Box<dyn Receives>).collect(),
    )
}

// ---- crossbeam-channel

#[cfg(feature = "crossbeam")]
mod crossbeam {
    use super::{handles, Receivers, Receives, Senders, Sends};
    use crossbeam_channel::{bounded, Receiver, Sender};

    impl Sends for Sender<u64> {
        fn send(&self, item: u64) -> bool {
            Sender::send(self, item).is_ok()
        }
    }

    impl Receives for Receiver<u64> {
        fn recv(&self) -> Option<u64> {
            Receiver::recv(self).ok()
        }
    }

    pub fn open_crossbeam(size: usize, senders: usize, receivers: usize) -> (Senders, Receivers) {
        let (sender, receiver) = bounded(size);
        (
            handles(sender, senders).map(|sender| Box::new(sender) as Box<dyn Sends>).collect(),
            handles(receiver, receivers).map(|receiver| Box::new(receiver) as Box<dyn Receives>).collect(),
        )
    }
}
#[cfg(feature = "crossbeam")]
use crossbeam::open_crossbeam;

// ---- std's sync_channel, which has one receiver: several threads share it by a mutex

struct SharedReceiver(Arc<Mutex<mpsc::Receiver<u64>>>);

impl Sends for mpsc::SyncSender<u64> {
    fn send(&self, item: u64) -> bool {
        mpsc::SyncSender::send(self, item).is_ok()
    }
}

impl Receives for mpsc::Receiver<u64> {
    fn recv(&self) -> Option<u64> {
        mpsc::Receiver::recv(self).ok()
    }
}

impl Receives for SharedReceiver {
    fn recv(&self) -> Option<u64> {
        self.0.lock().expect("no receiver panics").recv().ok()
    }
}

fn open_sync_channel(size: usize, senders: usize, receivers: usize) -> (Senders, Receivers) {
    let (sender, receiver) = mpsc::sync_channel(size);
    let senders = handles(sender, senders).map(|sender| Box::new(sender) as Box<dyn Sends>).collect();
    if receivers == 1 {
        return (senders, vec![Box::new(receiver)]);
    }
    let shared = Arc::new(Mutex::new(receiver));
    (senders, handles(shared, receivers).map(|shared| Box::new(SharedReceiver(shared)) as Box<dyn Receives>).collect())
}

// ---- a ring under a mutex, with a condition for items and one for room

struct Monitor {
    state: Mutex<State>,
    items: Condvar,
    room: Condvar,
    size: usize,
}

struct State {
    ring: VecDeque<u64>,
    senders: usize,
}

struct MonitorSender(Arc<Monitor>);
struct MonitorReceiver(Arc<Monitor>);

impl Sends for MonitorSender {
    fn send(&self, item: u64) -> bool {
        let monitor = &*self.0;
        let state = monitor.state.lock().expect("nobody panics");
        let mut state = monitor.room.wait_while(state, |state| state.ring.len() == monitor.size).expect("nobody panics");
        state.ring.push_back(item);
        drop(state);
        monitor.items.notify_one();
        true
    }
}

impl Receives for MonitorReceiver {
    fn recv(&self) -> Option<u64> {
        let monitor = &*self.0;
        let state = monitor.state.lock().expect("nobody panics");
        let mut state = monitor.items.wait_while(state, |state| state.ring.is_empty() && state.senders > 0).expect("nobody panics");
        let item = state.ring.pop_front();
        drop(state);
        monitor.room.notify_one();
        item
    }
}

impl Drop for MonitorSender {
    fn drop(&mut self) {
        let mut state = self.0.state.lock().expect("nobody panics");
        state.senders -= 1;
        if state.senders == 0 {
            self.0.items.notify_all();
        }
    }
}

fn open_monitor(size: usize, senders: usize, receivers: usize) -> (Senders, Receivers) {
    let monitor = Arc::new(Monitor {
        state: Mutex::new(State { ring: VecDeque::with_capacity(size), senders }),
        items: Condvar::new(),
        room: Condvar::new(),
        size,
    });
    (
        handles(Arc::clone(&monitor), senders).map(|monitor| Box::new(MonitorSender(monitor)) as Box<dyn Sends>).collect(),
        handles(monitor, receivers).map(|monitor| Box::new(MonitorReceiver(monitor)) as Box<dyn Receives>).collect(),
    )
}
