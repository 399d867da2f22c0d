//! The stand-in for `crossbeam_queue`, on threads: a pop finds nothing only if there is nothing, and a push finds no room only if there
//! is none, also while other pushes and pops are under way.

use blkq::erased::crossbeam_queue::RuledArrayQueue;
use std::thread;

const THREADS: usize = 4;
const ROUNDS: usize = 20_000;

/// Each thread pushes before it pops. So there is room, and until it has popped there is an item.
#[test]
fn a_pop_behind_a_push_finds_an_item() {
    for room in [THREADS, THREADS + 1, 64] {
        let (queue, mut first) = RuledArrayQueue::ruled(room).unwrap();
        let passes: Vec<_> = (0..THREADS).map(|_| queue.another(&mut first)).collect();
        thread::scope(|scope| {
            for mut pass in passes {
                let queue = &queue;
                scope.spawn(move || {
                    for number in 0..ROUNDS {
                        assert_eq!(queue.push_as(&mut pass, number), Ok(()));
                        assert!(!queue.is_empty_as(&mut pass));
                        assert!(queue.pop_as(&mut pass).is_some());
                    }
                });
            }
        });
        assert!(queue.is_empty_as(&mut first));
    }
}

/// The queue is full at first, and each thread pushes only what it has popped. So there is room for it.
#[test]
fn a_push_behind_a_pop_has_room() {
    for room in [1, 3, 64] {
        let (queue, mut first) = RuledArrayQueue::ruled(room).unwrap();
        for number in 0..room {
            assert_eq!(queue.push_as(&mut first, number), Ok(()));
        }
        let passes: Vec<_> = (0..THREADS).map(|_| queue.another(&mut first)).collect();
        thread::scope(|scope| {
            for mut pass in passes {
                let queue = &queue;
                scope.spawn(move || {
                    for _ in 0..ROUNDS {
                        if let Some(number) = queue.pop_as(&mut pass) {
                            assert_eq!(queue.push_as(&mut pass, number), Ok(()));
                        }
                    }
                });
            }
        });
        let mut left: Vec<_> = std::iter::from_fn(|| queue.pop_as(&mut first)).collect();
        left.sort_unstable();
        assert!(left.into_iter().eq(0..room));
    }
}
