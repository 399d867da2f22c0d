//! Tests how the threads of a run hand requests, completions and spares to one another, with the queues of `run_queues`.

use blkq::erased::run_queues::{
    CompletionQueue, CompletionToken, Consumer, Numbered, RequestQueue, Source, SpareQueue, Taker,
};
use std::thread;

/// A number, with a value beside it.
#[derive(Debug, PartialEq)]
struct Valued {
    number: u32,
    value: u64,
}

impl Numbered for Valued {
    fn number(&self) -> u32 {
        self.number
    }
}

/// A number with ten times itself.
fn tenfold(number: u32) -> Valued {
    Valued { number, value: u64::from(number) * 10 }
}

/// Pushes requests through a queue with this room, and an end mark for each of the threads that draw them. Then
/// runs the last closure. Returns a list for each thread, of the requests that it drew.
fn drawn<T: Numbered + Send>(
    room: usize,
    threads: u32,
    requests: impl ExactSizeIterator<Item = T>,
    work: impl Fn(T) + Sync,
    last: impl FnOnce(),
) -> Vec<Vec<u32>> {
    let (queue, mut source) = RequestQueue::new(room, threads as usize).expect("memory");
    let count = requests.len();
    let consumers: Vec<_> = (0..threads).map(|_| queue.consumer(&mut source, count).expect("memory")).collect();
    let drain = |mut consumer: Consumer<T>| {
        while let Some(request) = queue.draw(&mut consumer).expect("room in the list") {
            work(request);
        }
        consumer
    };
    let back: Vec<Consumer<T>> = thread::scope(|scope| {
        let drawing: Vec<_> = consumers.into_iter().map(|consumer| scope.spawn(|| drain(consumer))).collect();
        push_all(&queue, &mut source, requests, threads);
        last();
        drawing.into_iter().map(|it| it.join().expect("a thread that ends")).collect()
    });
    for consumer in back {
        queue.gather(&mut source, consumer).expect("memory");
    }
    queue.finish(source)
}

fn push_all<T: Numbered>(
    queue: &RequestQueue<T>,
    source: &mut Source<T>,
    requests: impl Iterator<Item = T>,
    marks: u32,
) {
    for request in requests {
        queue.push(source, request);
    }
    for _ in 0..marks {
        queue.end(source);
    }
}

/// Each number below the count is in the lists once, and each list increases.
fn assert_draws(lists: &[Vec<u32>], count: u32) {
    assert!(lists.iter().all(|list| list.is_sorted()));
    let mut all = lists.concat();
    all.sort_unstable();
    assert!(all.into_iter().eq(0..count));
}

#[test]
fn four_threads() {
    for room in [1, 2, 64] {
        let requests = (0..2_000).map(tenfold).collect::<Vec<_>>().into_iter();
        let lists = drawn(room, 3, requests, |it| assert_eq!(it, tenfold(it.number)), || {});
        assert_eq!(lists.len(), 3);
        assert_draws(&lists, 2_000);
    }
}

#[test]
fn no_requests() {
    assert_eq!(drawn(1, 3, [].into_iter(), |_: Valued| {}, || {}), vec![vec![]; 3]);
}

/// A request: the token to hand one completion over.
struct Errand(CompletionToken<Valued>);

impl Numbered for Errand {
    fn number(&self) -> u32 {
        self.0.number()
    }
}

/// Two workers hand over a completion for each request, and this thread collects them.
#[test]
fn two_workers() {
    let (completions, mut collector) = CompletionQueue::new(200).expect("memory");
    let errands: Vec<_> = (0..200).map(|number| Errand(completions.token(&mut collector, number))).collect();
    let mut came = Vec::new();
    let tell = |Errand(token): Errand| {
        let completion = tenfold(token.number());
        completions.tell(token, completion);
    };
    let collect = || came.extend((0..200).map(|_| completions.collect(&mut collector)));
    let lists = drawn(3, 2, errands.into_iter(), tell, collect);
    assert_draws(&lists, 200);
    came.sort_unstable_by_key(|it| it.number);
    assert!(came.into_iter().eq((0..200).map(tenfold)));
}

/// A completion is there once it is handed over, and not before, whatever room the queue has.
#[test]
fn none_is_there_yet() {
    for room in (1..=100).chain([1_000]) {
        let (queue, mut collector) = CompletionQueue::new(room).expect("memory");
        assert_eq!(queue.try_collect(&mut collector), None);
        let token = queue.token(&mut collector, 0);
        assert_eq!(queue.try_collect(&mut collector), None);
        queue.tell(token, Valued { number: 0, value: 7 });
        assert_eq!(queue.try_collect(&mut collector), Some(Valued { number: 0, value: 7 }), "room for {room}");
        assert_eq!(queue.try_collect(&mut collector), None);
    }
}

/// One thread hands completions over and another collects them, through a queue with room for one.
#[test]
fn told_by_another() {
    let (queue, mut collector) = CompletionQueue::new(1).expect("memory");
    let tokens: Vec<_> = (0..1_000).map(|number| queue.token(&mut collector, number)).collect();
    thread::scope(|scope| {
        scope.spawn(|| {
            for token in tokens {
                let completion = tenfold(token.number());
                queue.tell(token, completion);
            }
        });
        assert!((0..1_000).map(|_| queue.collect(&mut collector)).eq((0..1_000).map(tenfold)));
    });
}

/// Takes a spare from one queue and puts it into the other, this many times.
fn take_and_put(from: &SpareQueue<u32>, taker: &mut Taker<u32>, to: &SpareQueue<u32>, times: u32) {
    let mut count = to.put_count();
    for _ in 0..times {
        to.put(&mut count, from.take(taker));
    }
}

/// Two threads hand one spare to each other.
#[test]
fn spares_go_round() {
    let (here, mut taker_here) = SpareQueue::new(2).expect("memory");
    let (there, mut taker_there) = SpareQueue::new(1).expect("memory");
    assert_eq!(here.room(), 2);
    here.put(&mut here.put_count(), 5);
    thread::scope(|scope| {
        scope.spawn(|| take_and_put(&there, &mut taker_there, &here, 1_000));
        take_and_put(&here, &mut taker_here, &there, 1_000);
    });
    assert_eq!(here.take(&mut taker_here), 5);
}
