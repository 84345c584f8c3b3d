//! Bundles: their limits, bursts compared with a plain list, and threads that share a queue by bursts. Each call and each code is in
//! `rows.rs`.

use fak_seats::{limits, Bundle, Burst, Fault, Seat, State, Step};
use std::collections::VecDeque;
use std::thread::{spawn, yield_now};

fn burst(ticket: u64, count: usize, left: usize) -> Result<Burst, Fault> {
    Ok(Burst { ticket, count, left })
}

#[test]
fn openings_have_limits() {
    for n in [0, 1, 2, 1_023, 1_024, 1_025, usize::MAX] {
        for m in [0, 1, 2, 512, 1_024, usize::MAX] {
            for width in [0, 1, 2, 512, 1_023, 1_024, u64::MAX] {
                let fits = limits::is_bundles(n, m, width);
                assert!(!fits || n + m * width as usize <= 1_024);
                let all = if fits { n + m * width as usize } else { 1 };
                for stint in [0, 1, limits::MOST_CALLS / all as u64, limits::MOST_CALLS / all as u64 + 1] {
                    match Bundle::open_vec(n, m, width, 4, stint) {
                        Ok((seats, mut bundles)) => {
                            assert!(fits && limits::is_stint(all, stint) && (seats.len(), bundles.len()) == (n, m));
                            assert_eq!((bundles[m - 1].width(), bundles[0].left()), (width, width * stint));
                        }
                        Err(fault) => assert!(fault == Fault::BadLimit && !(fits && limits::is_stint(all, stint))),
                    }
                }
            }
        }
    }
    assert!(Bundle::open::<0, 2>(3, 4, 5).is_ok());
    assert_eq!(Bundle::open::<1, 0>(3, 4, 5).err(), Some(Fault::BadLimit));
    assert_eq!(Bundle::open::<1, 1>(3, 0, 5).err(), Some(Fault::BadLimit));
    assert_eq!(Bundle::open::<1, 1>(3, (1 << 24) + 1, 5).err(), Some(Fault::BadLimit));
}

// What was filled can be taken out meanwhile.
#[test]
fn a_burst_of_insertions_goes_on_in_another_thread() {
    let ([mut seat], [mut a, mut b]) = Bundle::open::<1, 2>(3, 3, 9).unwrap();
    let mut out = [0; 3];
    assert_eq!((a.insert_burst(&[1, 2, 3]), b.delete_burst(&mut out[..1])), (burst(0, 3, 0), burst(0, 1, 0)));
    assert_eq!((seat.claim_delete(), b.delete_burst(&mut out)), (Ok(1), burst(2, 1, 0)));
    assert_eq!((a.insert_burst(&[4, 5, 6]), a.state(), a.unfinished()), (burst(3, 2, 1), State::Inserting(4), 1));
    assert_eq!((b.delete_burst(&mut out), out[0], a.try_fill_burst()), (burst(3, 1, 0), 4, Ok(1)));
    let a = spawn(move || {
        assert_eq!((seat.try_take(), a.try_fill_burst(), a.state()), (Ok(Step::Done(2)), Ok(0), State::Idle));
        a
    });
    let mut a = a.join().unwrap();
    assert_eq!((a.try_fill_burst(), b.delete_burst(&mut out), out[0]), (Err(Fault::WrongState), burst(4, 1, 0), 5));
}

// Drawn numbers, by a generator of congruences.
struct Drawn(u64);

impl Drawn {
    fn below(&mut self, bound: u64) -> u64 {
        self.0 = self.0.wrapping_mul(6_364_136_223_846_793_005).wrapping_add(1_442_695_040_888_963_407);
        (self.0 >> 33) % bound
    }
}

#[test]
fn random_bursts_are_those_of_a_list() {
    let mut drawn = Drawn(1);
    for (size, width) in [(1, 1), (1, 5), (3, 2), (7, 7), (16, 4), (50, 9)] {
        let ([mut seat], mut bundles) = Bundle::open::<1, 3>(width, size, 1 << 30).unwrap();
        let (mut list, mut put, mut got) = (VecDeque::new(), 0, 0);
        for call in 0..3_000 {
            let bundle = &mut bundles[drawn.below(3) as usize];
            let n = 1 + drawn.below(12) as usize;
            if drawn.below(8) == 0 {
                assert_eq!(seat.count(), list.len() as i64);
            } else if (drawn.below(4) > 0) == (call / 64 % 2 == 0) {
                let items: Vec<u64> = (0..n).map(|_| drawn.below(1 << 31)).collect();
                let count = n.min(width as usize).min(size as usize - list.len());
                let wanted = if count == 0 { Err(Fault::Full) } else { burst(put, count, 0) };
                assert_eq!(bundle.insert_burst(&items), wanted);
                list.extend(&items[..count]);
                put += count as u64;
            } else {
                let mut items = [u64::MAX; 12];
                let count = n.min(width as usize).min(list.len());
                let wanted = if count == 0 { Err(Fault::Empty) } else { burst(got, count, 0) };
                assert_eq!(bundle.delete_burst(&mut items[..n]), wanted);
                assert!(items[..count].iter().copied().eq(list.drain(..count)) && items[count..].iter().all(|item| *item == u64::MAX));
                got += count as u64;
            }
        }
    }
}

fn put_all(bundle: &mut Bundle, mut items: &[u64]) {
    while !items.is_empty() {
        match bundle.insert_burst(&items[..items.len().min(11)]) {
            Ok(Burst { count, mut left, .. }) => {
                while left > 0 {
                    yield_now();
                    left = bundle.try_fill_burst().unwrap();
                }
                items = &items[count..];
            }
            Err(Fault::Full) => yield_now(),
            Err(fault) => panic!("{fault:?}"),
        }
    }
}

// The burst's first ticket and its items, at most this many, and maybe none.
fn get_some(bundle: &mut Bundle, most: usize) -> (u64, Vec<u64>) {
    let mut items = vec![0; most];
    match bundle.delete_burst(&mut items) {
        Ok(Burst { ticket, count, left }) => {
            let mut taken = count - left;
            while taken < count {
                yield_now();
                taken += bundle.try_take_burst(&mut items[taken..]).unwrap();
            }
            items.truncate(count);
            (ticket, items)
        }
        Err(Fault::Empty) => (0, Vec::new()),
        Err(fault) => panic!("{fault:?}"),
    }
}

const EACH: u64 = 20_000;

// Two threads that insert by bursts and one by single calls, and two that delete by bursts. Sorted by tickets, the items of each producer
// are in its order, each once.
#[test]
fn threads_share_a_queue_by_bursts() {
    let ([mut single, mut closer], [mut a, mut b, mut c, mut d]) = Bundle::open::<2, 4>(8, 20, 1 << 30).unwrap();
    let items = |number: u64| (0..EACH).map(|item| number << 32 | item).collect::<Vec<_>>();
    let first = spawn(move || put_all(&mut a, &items(0)));
    let second = spawn(move || put_all(&mut b, &items(1)));
    let third = spawn(move || items(2).into_iter().for_each(|item| put_one(&mut single, item)));
    let consumers = [spawn(move || get_all(&mut c)), spawn(move || get_all(&mut d))];
    for producer in [first, second, third] {
        producer.join().unwrap();
    }
    assert_eq!(closer.shut(), Ok(true));
    let mut taken: Vec<(u64, u64)> = consumers.into_iter().flat_map(|consumer| consumer.join().unwrap()).collect();
    taken.sort_unstable();
    assert!(taken.iter().map(|(ticket, _)| *ticket).eq(0..3 * EACH));
    for number in 0..3 {
        assert!(taken.iter().map(|(_, item)| *item).filter(|item| item >> 32 == number).eq(items(number)));
    }
    assert!(closer.is_drained());
}

fn put_one(seat: &mut Seat, item: u64) {
    loop {
        match seat.insert(item) {
            Ok(Step::Done(_)) => return,
            Ok(Step::NotYet) => break,
            Err(fault) => assert_eq!(fault, Fault::Full),
        }
        yield_now();
    }
    while seat.try_fill() == Ok(Step::NotYet) {
        yield_now();
    }
}

// Two consumers take half of all items each, with their tickets.
fn get_all(bundle: &mut Bundle) -> Vec<(u64, u64)> {
    let mut all = Vec::new();
    let half = 3 * EACH as usize / 2;
    while all.len() < half {
        let (ticket, items) = get_some(bundle, 5.min(half - all.len()));
        if items.is_empty() {
            yield_now();
        }
        all.extend(items.into_iter().enumerate().map(|(i, item)| (ticket + i as u64, item)));
    }
    all
}
