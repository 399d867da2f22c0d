//! The queues between the threads of a run: the room of each, and lists that are longer than their first room.

use crate::draw;
use blkq::erased::run_queues::{CompletionQueue, Numbered, RequestQueue, SpareQueue};
use std::thread;

const MOST_ROOM: usize = 1 << 17;

#[derive(Debug, PartialEq)]
struct Item(u32);

impl Numbered for Item {
    fn number(&self) -> u32 {
        self.0
    }
}

/// A queue of each kind has the room that it was made with, and takes as many items as that in a row.
#[test]
fn rooms() {
    draw(400, |sizes| {
        let room = sizes.count(1, MOST_ROOM);
        let items = sizes.count(1, room) as u32;
        let (spares, mut taker) = SpareQueue::new(room).unwrap();
        assert_eq!(spares.room(), room);
        let mut count = spares.put_count();
        (0..items).for_each(|spare| spares.put(&mut count, spare));
        assert!((0..items).all(|spare| spares.take(&mut taker) == spare));
        let (completions, mut collector) = CompletionQueue::new(room).unwrap();
        for number in 0..items {
            let token = completions.token(&mut collector, number);
            completions.tell(token, Item(number));
        }
        assert!((0..items).all(|number| completions.try_collect(&mut collector) == Some(Item(number))));
        assert_eq!(completions.try_collect(&mut collector), None);
    });
}

/// A consumer draws as many requests as are pushed, and the end mark, whatever room its list has at first.
#[test]
fn lists_that_grow() {
    draw(600, |sizes| {
        let (room, consumers) = (sizes.count(1, 1 << 10), sizes.count(1, 4));
        let (requests, first_room) = (sizes.small(0, 20_000), sizes.count(0, 20_000));
        let (queue, mut source) = RequestQueue::new(room, consumers).unwrap();
        let made: Vec<_> = (0..consumers).map(|_| queue.consumer(&mut source, first_room).unwrap()).collect();
        let back: Vec<_> = thread::scope(|scope| {
            let queue = &queue;
            let draws = made.into_iter().map(|mut consumer| {
                scope.spawn(move || {
                    while queue.draw(&mut consumer).unwrap().is_some() {}
                    consumer
                })
            });
            let threads: Vec<_> = draws.collect();
            (0..requests).for_each(|number| queue.push(&mut source, Item(number)));
            (0..consumers).for_each(|_| queue.end(&mut source));
            threads.into_iter().map(|thread| thread.join().unwrap()).collect()
        });
        back.into_iter().for_each(|consumer| queue.gather(&mut source, consumer).unwrap());
        let mut drawn = queue.finish(source).concat();
        drawn.sort_unstable();
        assert!(drawn.into_iter().eq(0..requests));
    });
}
