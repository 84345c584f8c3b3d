//! Items of a channel: of any type, and each dropped once.
#![cfg(feature = "std")]

mod common;

use common::{Token, TOKEN_DROPS};
use fak_seats::channel::{bounded, Receiver, Sender};
use std::alloc::{GlobalAlloc, Layout, System};
use std::fmt::Debug;
use std::mem::forget;
use std::panic::{catch_unwind, panic_any, AssertUnwindSafe};
use std::rc::Rc;
use std::sync::atomic::{AtomicUsize, Ordering::SeqCst};
use std::sync::{Arc, Weak};
use std::thread::{scope, spawn};

// An item that counts its drop, of one word and some bytes more.
#[derive(Clone)]
struct Counted<const MORE: usize> {
    drops: Arc<AtomicUsize>,
    more: [u8; MORE],
}

impl<const MORE: usize> Drop for Counted<MORE> {
    fn drop(&mut self) {
        assert!(self.more.iter().all(|&byte| byte == 7));
        self.drops.fetch_add(1, SeqCst);
    }
}

// A counter, and what makes its items.
fn counted<const MORE: usize>() -> (Arc<AtomicUsize>, impl Fn() -> Counted<MORE>) {
    let drops = Arc::new(AtomicUsize::new(0));
    let of_items = Arc::clone(&drops);
    let make = move || Counted {
        drops: Arc::clone(&of_items),
        more: [7; MORE],
    };
    (drops, make)
}

fn passes<T: Send + Sync + PartialEq + Clone + Debug>(items: &[T]) {
    let (sender, receiver) = bounded(2, 2).unwrap();
    scope(|threads| {
        threads.spawn(|| items.iter().for_each(|item| sender.send(item.clone()).unwrap()));
        items.iter().for_each(|item| assert_eq!(receiver.recv().as_ref(), Ok(item)));
    });
}

#[test]
fn items_of_each_type_pass() {
    #[derive(Clone, Debug, PartialEq)]
    #[repr(align(64))]
    struct Aligned(u8);
    passes(&[(), (), ()]);
    passes(&[1u8, 2, 3]);
    passes(&[true, false]);
    passes(&[Some('a'), None]);
    passes(&["one", "two", "three"]);
    passes(&[String::from("one"), String::from("two")]);
    passes(&[Box::new(1), Box::new(2), Box::new(3)]);
    passes(&[[1u64, 2, 3, 4], [u64::MAX; 4]]);
    passes(&[[1u64, 2, 3, 4, 5], [u64::MAX; 5]]);
    passes(&[(1u128, [1u8; 100]), (u128::MAX, [2; 100])]);
    passes(&[Aligned(1), Aligned(2), Aligned(3)]);
    passes(&[(1u8, vec![String::from("one")], 2u16), (3, Vec::new(), 4)]);
}

// Items of one thread need not be `Send`.
#[test]
fn items_may_stay_on_one_thread() {
    let (sender, receiver) = bounded(2, 2).unwrap();
    let item = Rc::new(7);
    sender.send(Rc::clone(&item)).unwrap();
    sender.send(Rc::clone(&item)).unwrap();
    assert!(receiver.recv().is_ok_and(|received| Rc::ptr_eq(&received, &item)));
    assert_eq!(Rc::strong_count(&item), 2);
    drop((sender, receiver));
    assert_eq!(Rc::strong_count(&item), 1);
}

#[test]
fn items_borrow_from_the_threads_scope() {
    let words = ["one".to_string(), "two".to_string()];
    let (sender, receiver) = bounded::<&str>(1, 2).unwrap();
    scope(|threads| {
        threads.spawn(|| words.iter().for_each(|word| sender.send(word).unwrap()));
        assert_eq!((receiver.recv(), receiver.recv()), (Ok("one"), Ok("two")));
    });
}

// What is left is dropped with the last receiver, whether before the last sender or after it. What is refused stays with the caller.
fn each_is_dropped_once<const MORE: usize>() {
    let (drops, make) = counted::<MORE>();
    let (sender, receiver) = bounded(4, 3).unwrap();
    (0..4).for_each(|_| assert!(sender.send(make()).is_ok()));
    let refused = sender.try_send(make()).unwrap_err();
    assert_eq!(drops.load(SeqCst), 0);
    drop(refused);
    drop(receiver.recv().unwrap());
    assert_eq!(drops.load(SeqCst), 2);
    let second = receiver.clone();
    drop(receiver);
    assert_eq!(drops.load(SeqCst), 2);
    drop(second);
    assert_eq!((drops.load(SeqCst), sender.len()), (5, 0));
    drop(sender.send(make()));
    assert_eq!(drops.load(SeqCst), 6);
    drop(sender);
    assert_eq!(drops.load(SeqCst), 6);

    let (sender, receiver) = bounded(4, 2).unwrap();
    (0..4).for_each(|_| assert!(sender.send(make()).is_ok()));
    drop(sender);
    assert_eq!(drops.load(SeqCst), 6);
    spawn(move || drop(receiver)).join().unwrap();
    assert_eq!(drops.load(SeqCst), 10);
}

#[test]
fn what_is_left_is_dropped_once() {
    each_is_dropped_once::<0>();
    each_is_dropped_once::<24>();
    each_is_dropped_once::<25>();
    each_is_dropped_once::<1_000>();
}

#[test]
fn items_without_bytes_are_dropped_too() {
    let (sender, receiver) = bounded(4, 2).unwrap();
    (0..4).for_each(|_| assert!(sender.send(Token).is_ok()));
    drop(receiver.recv());
    assert_eq!(TOKEN_DROPS.load(SeqCst), 1);
    drop((sender, receiver));
    assert_eq!(TOKEN_DROPS.load(SeqCst), 4);
}

// A receiver that stops early leaves its items to the next.
#[test]
fn an_iterator_drops_what_it_has_given_out() {
    let (drops, make) = counted::<0>();
    let (sender, receiver) = bounded(10, 2).unwrap();
    (0..10).for_each(|_| assert!(sender.send(make()).is_ok()));
    receiver.iter().take(3).for_each(drop);
    receiver.try_iter().take(2).for_each(drop);
    assert_eq!((drops.load(SeqCst), receiver.len()), (5, 5));
    let mut rest = receiver.into_iter();
    drop(rest.next());
    assert_eq!(drops.load(SeqCst), 6);
    drop(rest);
    assert_eq!((drops.load(SeqCst), sender.is_closed()), (10, true));
}

// The bytes of an item in a box, which nothing else here has.
const LARGE: usize = 12_347;
static LIVE: AtomicUsize = AtomicUsize::new(0);

// A heap that counts what has the size of a large item.
struct Heap;

// SAFETY: the calls are those of `System`.
unsafe impl GlobalAlloc for Heap {
    unsafe fn alloc(&self, layout: Layout) -> *mut u8 {
        LIVE.fetch_add(usize::from(layout.size() == LARGE), SeqCst);
        System.alloc(layout)
    }

    unsafe fn dealloc(&self, at: *mut u8, layout: Layout) {
        LIVE.fetch_sub(usize::from(layout.size() == LARGE), SeqCst);
        System.dealloc(at, layout);
    }
}

#[global_allocator]
static HEAP: Heap = Heap;

#[test]
fn boxes_of_items_are_freed() {
    let (sender, receiver) = bounded(4, 2).unwrap();
    (0..4u8).for_each(|byte| sender.send([byte; LARGE]).unwrap());
    assert_eq!(LIVE.load(SeqCst), 4);
    assert!(sender.try_send([4; LARGE]).is_err());
    assert!(receiver.recv().is_ok_and(|item| item == [0; LARGE]));
    assert_eq!(LIVE.load(SeqCst), 3);
    drop(receiver);
    assert!(sender.send([5; LARGE]).is_err());
    assert_eq!(LIVE.load(SeqCst), 0);
}

// An item whose drop panics, if it has a number, and counts its drop all the same.
struct Panics(Option<usize>, #[allow(dead_code)] Counted<0>);

impl Drop for Panics {
    fn drop(&mut self) {
        if let Some(number) = self.0 {
            panic!("item {number} panics");
        }
    }
}

// A receiver of a channel of five items. Those of the bits that are set panic.
fn with_panics(panicking: usize, make: &impl Fn() -> Counted<0>) -> Receiver<Panics> {
    let (sender, receiver) = bounded(5, 2).unwrap();
    for number in 0..5 {
        let panics = (panicking >> number & 1 == 1).then_some(number);
        assert!(sender.send(Panics(panics, make())).is_ok());
    }
    receiver
}

// Whichever items panic in their drops, each is dropped, and the first panic is the one that goes on.
#[test]
fn drops_that_panic_lose_no_item() {
    for panicking in 1..32usize {
        let (drops, make) = counted::<0>();
        let receiver = with_panics(panicking, &make);
        let panic = catch_unwind(AssertUnwindSafe(|| drop(receiver))).unwrap_err();
        let first = format!("item {} panics", panicking.trailing_zeros());
        assert_eq!((panic.downcast_ref(), drops.load(SeqCst)), (Some(&first), 5));
    }
}

// A thread that panics drops its receiver: no second panic comes out of that.
#[test]
fn drops_that_panic_while_a_thread_panics_end_there() {
    let (drops, make) = counted::<0>();
    let receiver = with_panics(0b10110, &make);
    let thread = spawn(move || {
        let _receiver = receiver;
        panic!("the thread panics");
    });
    assert_eq!(thread.join().unwrap_err().downcast_ref(), Some(&"the thread panics"));
    assert_eq!(drops.load(SeqCst), 5);
}

// Nor does it matter if what a drop panics with panics in its own drop.
#[test]
fn a_panic_that_panics_when_dropped_is_not_dropped() {
    struct Payload;
    impl Drop for Payload {
        fn drop(&mut self) {
            panic!("the payload panics");
        }
    }
    struct Throws(#[allow(dead_code)] Counted<0>);
    impl Drop for Throws {
        fn drop(&mut self) {
            panic_any(Payload);
        }
    }
    let (drops, make) = counted::<0>();
    let (sender, receiver) = bounded(3, 2).unwrap();
    (0..3).for_each(|_| assert!(sender.send(Throws(make())).is_ok()));
    let panic = catch_unwind(AssertUnwindSafe(|| drop(receiver))).unwrap_err();
    assert!(panic.is::<Payload>());
    forget(panic);
    assert_eq!(drops.load(SeqCst), 3);
}

// A channel whose items have its own handles ends with its last receiver.
#[test]
fn items_that_have_handles_of_the_channel_keep_no_memory() {
    struct Question {
        answers: Sender<Question>,
        _alive: Arc<()>,
    }
    let alive = Arc::new(());
    let watched: Weak<()> = Arc::downgrade(&alive);
    let (sender, receiver) = bounded::<Question>(4, 6).unwrap();
    for _ in 0..3 {
        let question = Question {
            answers: sender.clone(),
            _alive: Arc::clone(&alive),
        };
        assert!(sender.send(question).is_ok());
    }
    let question = receiver.recv().unwrap();
    assert!(question.answers.same_channel(&sender));
    drop((alive, question));
    drop(sender);
    assert!(!receiver.is_closed() && watched.upgrade().is_some());
    drop(receiver);
    assert!(watched.upgrade().is_none());
}

// The drop of an item makes calls on the channel that it is dropped from.
#[test]
fn a_drop_may_make_calls() {
    struct Calls(Sender<Calls>, Arc<AtomicUsize>);
    impl Drop for Calls {
        fn drop(&mut self) {
            assert!(self.0.is_closed() && !self.0.close() && self.0.len() < 4);
            self.1.fetch_add(1, SeqCst);
        }
    }
    let drops = Arc::new(AtomicUsize::new(0));
    let (sender, receiver) = bounded::<Calls>(4, 2).unwrap();
    (0..4).for_each(|_| assert!(sender.send(Calls(sender.clone(), Arc::clone(&drops))).is_ok()));
    drop(receiver);
    assert_eq!(drops.load(SeqCst), 4);
}

// Channels travel through channels.
#[test]
fn a_channel_passes_its_successor() {
    type Next = Receiver<Box<dyn std::any::Any + Send>>;
    let (sender, mut receiver) = bounded(1, 2).unwrap();
    let thread = spawn(move || {
        let mut sender: Sender<Box<dyn std::any::Any + Send>> = sender;
        for _ in 0..200 {
            let (next, receiver): (_, Next) = bounded(1, 2).unwrap();
            assert!(sender.send(Box::new(receiver)).is_ok());
            sender = next;
        }
    });
    for _ in 0..200 {
        let next: Box<Next> = receiver.recv().unwrap().downcast().unwrap();
        receiver = *next;
    }
    thread.join().unwrap();
    assert!(receiver.recv().is_err());
}
