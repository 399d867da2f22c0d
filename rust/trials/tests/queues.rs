//! The stand-in for `crossbeam_queue`: rows, random calls beside a list, and threads.

mod shared;

use blkq::erased::crossbeam_queue::RuledArrayQueue;
use shared::Numbers;
use std::collections::VecDeque;
use std::sync::atomic::{AtomicUsize, Ordering};
use std::thread;

#[test]
fn calls_by_hand() {
    let (queue, mut pass) = RuledArrayQueue::ruled(2).unwrap();
    assert_eq!(queue.capacity(), 2);
    assert!(queue.is_empty_as(&mut pass));
    assert_eq!(queue.pop_as(&mut pass), None);
    assert_eq!(queue.push_as(&mut pass, 'a'), Ok(()));
    assert!(!queue.is_empty_as(&mut pass));
    assert_eq!(queue.push_as(&mut pass, 'b'), Ok(()));
    assert_eq!(queue.push_as(&mut pass, 'c'), Err('c'));
    assert_eq!(queue.pop_as(&mut pass), Some('a'));
    assert_eq!(queue.push_as(&mut pass, 'd'), Ok(()));
    assert_eq!(queue.push_as(&mut pass, 'e'), Err('e'));
    assert_eq!(queue.pop_as(&mut pass), Some('b'));
    assert_eq!(queue.pop_as(&mut pass), Some('d'));
    assert_eq!(queue.pop_as(&mut pass), None);
    assert!(queue.is_empty_as(&mut pass));
}

#[test]
fn no_room_is_room_for_one() {
    let (queue, mut pass) = RuledArrayQueue::ruled(0).unwrap();
    assert_eq!(queue.capacity(), 1);
    for round in 0..5 {
        assert_eq!(queue.push_as(&mut pass, round), Ok(()));
        assert_eq!(queue.push_as(&mut pass, 9), Err(9));
        assert_eq!(queue.pop_as(&mut pass), Some(round));
        assert_eq!(queue.pop_as(&mut pass), None);
    }
}

#[test]
fn what_is_left_is_dropped() {
    struct Dropped<'a>(&'a AtomicUsize);
    impl Drop for Dropped<'_> {
        fn drop(&mut self) {
            self.0.fetch_add(1, Ordering::Relaxed);
        }
    }
    let count = AtomicUsize::new(0);
    let (queue, mut pass) = RuledArrayQueue::ruled(4).unwrap();
    for _ in 0..4 {
        assert!(queue.push_as(&mut pass, Dropped(&count)).is_ok());
    }
    drop(queue.pop_as(&mut pass));
    assert_eq!(count.load(Ordering::Relaxed), 1);
    assert!(queue.push_as(&mut pass, Dropped(&count)).is_ok());
    assert!(queue.push_as(&mut pass, Dropped(&count)).is_err());
    assert_eq!(count.load(Ordering::Relaxed), 2);
    drop(queue);
    assert_eq!(count.load(Ordering::Relaxed), 6);
}

#[test]
fn random_calls_beside_a_list() {
    for seed in 1..300 {
        let mut numbers = Numbers::from(seed);
        let room = 1 + numbers.below(6) as usize;
        let (queue, mut pass) = RuledArrayQueue::ruled(room).unwrap();
        let mut other = queue.another(&mut pass);
        let mut list = VecDeque::new();
        for _ in 0..500 {
            let pass = if numbers.below(2) == 0 { &mut pass } else { &mut other };
            if numbers.below(2) == 0 {
                let item = numbers.next();
                let has_room = list.len() < room;
                assert_eq!(queue.push_as(pass, item), if has_room { Ok(()) } else { Err(item) });
                list.extend(has_room.then_some(item));
            } else {
                assert_eq!(queue.pop_as(pass), list.pop_front());
            }
            assert_eq!(queue.is_empty_as(pass), list.is_empty());
        }
    }
}

/// Several threads push and pop: each item comes out once, and the items of one thread in their order.
#[test]
fn each_item_once_and_in_order() {
    const PUSHERS: usize = 3;
    const EACH: usize = 20_000;
    for room in [1, 3, 64] {
        let (queue, mut pass) = RuledArrayQueue::ruled(room).unwrap();
        let mut passes: Vec<_> = (0..2 * PUSHERS).map(|_| queue.another(&mut pass)).collect();
        let taken = AtomicUsize::new(0);
        let lists: Vec<Vec<(usize, usize)>> = thread::scope(|scope| {
            let (pushing, popping) = passes.split_at_mut(PUSHERS);
            for (pusher, pass) in pushing.iter_mut().enumerate() {
                let queue = &queue;
                scope.spawn(move || {
                    for number in 0..EACH {
                        while queue.push_as(pass, (pusher, number)).is_err() {
                            thread::yield_now();
                        }
                    }
                });
            }
            let poppers: Vec<_> =
                popping.iter_mut().map(|pass| scope.spawn(|| popped(&queue, pass, &taken, PUSHERS * EACH))).collect();
            poppers.into_iter().map(|popper| popper.join().unwrap()).collect()
        });
        let mut all: Vec<_> = lists.iter().flatten().copied().collect();
        all.sort_unstable();
        let wanted: Vec<_> = (0..PUSHERS).flat_map(|pusher| (0..EACH).map(move |number| (pusher, number))).collect();
        assert_eq!(all, wanted);
        for list in &lists {
            for pusher in 0..PUSHERS {
                let numbers: Vec<_> = list.iter().filter(|item| item.0 == pusher).collect();
                assert!(numbers.is_sorted());
            }
        }
    }
}

/// Pops until all threads together have popped so many.
fn popped<T>(
    queue: &RuledArrayQueue<T>,
    pass: &mut blkq::erased::crossbeam_queue::Pass<T>,
    taken: &AtomicUsize,
    all: usize,
) -> Vec<T> {
    let mut list = Vec::new();
    while taken.load(Ordering::Relaxed) < all {
        match queue.pop_as(pass) {
            Some(item) => {
                taken.fetch_add(1, Ordering::Relaxed);
                list.push(item);
            }
            None => thread::yield_now(),
        }
    }
    list
}
