//! The races.

use crate::erased::run_queues::{
    Collector, CompletionQueue, CompletionToken, Consumer, Numbered, RequestQueue, Source, SpareQueue, Taker,
};
use crate::erased::sync::late;
use orders::turns::{Failed, Play, Turns};
use real::sync::Mutex;

/// Goes through the orders of a play, in which no thread may wait for ever, and prints how many there are.
fn plays<P: Play>(name: &str, switches: usize, play: P) {
    match Turns::switches(switches).play(play) {
        Ok(played) => {
            println!("orders of {name}, {switches} switches: {} orders, {} steps", played.orders, played.steps);
        }
        Err(Failed::Stuck(schedule)) => panic!("{name}: a wake is lost:\n{}", schedule.join("\n")),
        Err(Failed::Panicked(why, schedule)) => panic!("{name}: {why}:\n{}", schedule.join("\n")),
        Err(Failed::Endless(schedule)) => panic!("{name}: no end:\n{}", schedule[..200].join("\n")),
    }
}

/// A number.
#[derive(Debug, PartialEq)]
struct Request(u32);

impl Numbered for Request {
    fn number(&self) -> u32 {
        self.0
    }
}

/// A thread's own part, which it takes before its first step.
type Part<T> = Mutex<Option<T>>;

fn part<T>(of: T) -> Part<T> {
    Mutex::new(Some(of))
}

fn taken<T>(part: &Part<T>) -> T {
    part.lock().expect("a part").take().expect("a part of one actor")
}

/// One thread pushes requests, of which the others draw so many each. Then they are held for ever, so that only time helps the rest.
struct Draws {
    room: usize,
    draws: &'static [u32],
}

struct Drawn {
    queue: RequestQueue<Request>,
    source: Part<Source<Request>>,
    consumers: Vec<Part<Consumer<Request>>>,
}

impl Drawn {
    fn new(room: usize, consumers: usize) -> Drawn {
        let (queue, mut source) = RequestQueue::new(room, consumers).expect("memory");
        let consumers = (0..consumers).map(|_| part(queue.consumer(&mut source, 8).expect("memory"))).collect();
        Drawn { queue, source: part(source), consumers }
    }

    /// Checks that each of so many requests is drawn once.
    fn end(self, requests: u32) {
        let mut source = taken(&self.source);
        self.consumers.iter().for_each(|it| self.queue.gather(&mut source, taken(it)).expect("memory"));
        let mut drawn = self.queue.finish(source).concat();
        drawn.sort_unstable();
        assert!(drawn.into_iter().eq(0..requests), "a request isn't drawn, or twice");
    }
}

impl Draws {
    fn requests(&self) -> u32 {
        self.draws.iter().sum()
    }
}

impl Play for Draws {
    type Parts = Drawn;

    fn actors(&self) -> usize {
        self.draws.len() + 1
    }

    fn parts(&self) -> Drawn {
        Drawn::new(self.room, self.draws.len())
    }

    fn act(&self, parts: &Drawn, actor: usize) {
        let queue = &parts.queue;
        let Some(part) = parts.consumers.get(actor) else {
            let mut source = taken(&parts.source);
            (0..self.requests()).for_each(|number| queue.push(&mut source, Request(number)));
            *parts.source.lock().expect("a part") = Some(source);
            return;
        };
        let mut consumer = taken(part);
        (0..self.draws[actor]).for_each(|_| assert!(queue.draw(&mut consumer).expect("room in the list").is_some()));
        *part.lock().expect("a part") = Some(consumer);
    }

    fn end(&self, parts: Drawn) {
        parts.end(self.requests());
    }
}

/// Goes through the orders of draws.
fn draws(room: usize, draws: &'static [u32], switches: usize) {
    plays(&format!("draws of {draws:?} requests with room for {room}"), switches, Draws { room, draws });
}

#[test]
fn one_draws() {
    for room in [1, 2, 4] {
        draws(room, &[3], 3);
    }
}

#[test]
fn two_draw() {
    draws(4, &[2, 1], 2);
    draws(1, &[1, 1], 2);
}

#[test]
fn three_draw() {
    draws(4, &[1, 1, 1], 1);
}

/// A run: one thread takes a tag for each request and pushes it, and the workers draw and put the tag back, until they draw an end mark.
/// None is held, so none waits for time to pass.
struct Run {
    tags: usize,
    workers: usize,
    requests: u32,
}

struct Running {
    line: Drawn,
    tags: SpareQueue<()>,
    taker: Part<Taker<()>>,
}

impl Run {
    fn submits(&self, parts: &Running) {
        let (mut source, mut taker) = (taken(&parts.line.source), taken(&parts.taker));
        for number in 0..self.requests {
            self.takes(parts, &mut source, &mut taker);
            parts.line.queue.push(&mut source, Request(number));
        }
        parts.line.queue.wake_if_all_sleep();
        (0..self.workers).for_each(|_| parts.line.queue.end(&mut source));
        parts.line.queue.wake_all();
        *parts.line.source.lock().expect("a part") = Some(source);
    }

    fn takes(&self, parts: &Running, source: &mut Source<Request>, taker: &mut Taker<()>) {
        if parts.tags.try_take(taker).is_some() {
            return;
        }
        parts.line.queue.wake_if_all_sleep();
        for _look in 0..parts.tags.looks() {
            if parts.tags.look(taker).is_some() {
                return;
            }
            parts.line.queue.wake_one_more(source);
        }
        parts.tags.take(taker);
    }

    fn works(&self, parts: &Running, part: &Part<Consumer<Request>>) {
        let (mut consumer, mut count) = (taken(part), parts.tags.put_count());
        loop {
            if parts.line.queue.is_empty(&mut consumer) {
                parts.tags.wake_taker();
            }
            if parts.line.queue.draw(&mut consumer).expect("room in the list").is_none() {
                break;
            }
            parts.tags.put(&mut count, ());
        }
        *part.lock().expect("a part") = Some(consumer);
    }
}

impl Play for Run {
    type Parts = Running;

    fn actors(&self) -> usize {
        self.workers + 1
    }

    fn parts(&self) -> Running {
        let (tags, taker) = SpareQueue::new(self.tags).expect("memory");
        let mut count = tags.put_count();
        (0..self.tags).for_each(|_| tags.put(&mut count, ()));
        Running { line: Drawn::new(self.tags, self.workers), tags, taker: part(taker) }
    }

    fn act(&self, parts: &Running, actor: usize) {
        late();
        match parts.line.consumers.get(actor) {
            Some(part) => self.works(parts, part),
            None => self.submits(parts),
        }
        assert_eq!(late(), 0, "a thread waits until a time limit passes");
    }

    fn end(&self, parts: Running) {
        parts.line.end(self.requests);
    }
}

#[test]
fn a_run_waits_for_no_time() {
    for (tags, workers, requests, switches) in [(1, 1, 3, 2), (2, 1, 4, 2), (3, 1, 4, 2), (1, 2, 2, 1), (4, 2, 5, 1)] {
        let name = format!("a run with {tags} tags, {workers} workers and {requests} requests");
        plays(&name, switches, Run { tags, workers, requests });
    }
}

/// Some threads put spares, and one takes them all.
struct Puts {
    room: usize,
    /// How many spares each thread puts.
    puts: &'static [u32],
}

struct Put {
    queue: SpareQueue<(usize, u32)>,
    taker: Part<Taker<(usize, u32)>>,
}

impl Play for Puts {
    type Parts = Put;

    fn actors(&self) -> usize {
        self.puts.len() + 1
    }

    fn parts(&self) -> Put {
        let (queue, taker) = SpareQueue::new(self.room).expect("memory");
        Put { queue, taker: part(taker) }
    }

    fn act(&self, parts: &Put, actor: usize) {
        let queue = &parts.queue;
        if let Some(puts) = self.puts.get(actor) {
            let mut count = queue.put_count();
            return (0..*puts).for_each(|spare| queue.put(&mut count, (actor, spare)));
        }
        let mut taker = taken(&parts.taker);
        let all: Vec<_> = (0..self.puts.iter().sum()).map(|_| queue.take(&mut taker)).collect();
        for (putter, puts) in self.puts.iter().enumerate() {
            let of_one = all.iter().filter(|it| it.0 == putter).map(|it| it.1);
            assert!(of_one.eq(0..*puts), "spares of one thread in another order: {all:?}");
        }
    }

    fn end(&self, _parts: Put) {}
}

#[test]
fn one_takes_what_others_put() {
    for (room, puts, switches) in [(1, &[3_u32][..], 3), (4, &[3], 3), (4, &[2, 1], 2), (1, &[1, 1], 2)] {
        plays(&format!("a taker and puts of {puts:?} spares with room for {room}"), switches, Puts { room, puts });
    }
}

/// Each thread but one reports a completion, and that one collects them: the first if it is there, and the others once they are.
struct Tells {
    room: usize,
    tells: u32,
}

struct Told {
    queue: CompletionQueue<Request>,
    tokens: Vec<Part<CompletionToken<Request>>>,
    collector: Part<Collector<Request>>,
}

impl Play for Tells {
    type Parts = Told;

    fn actors(&self) -> usize {
        self.tells as usize + 1
    }

    fn parts(&self) -> Told {
        let (queue, mut collector) = CompletionQueue::new(self.room).expect("memory");
        let tokens = (0..self.tells).map(|number| part(queue.token(&mut collector, number))).collect();
        Told { queue, tokens, collector: part(collector) }
    }

    fn act(&self, parts: &Told, actor: usize) {
        let queue = &parts.queue;
        if let Some(token) = parts.tokens.get(actor) {
            drop(queue.tell(taken(token), Request(actor as u32)));
            return;
        }
        let mut collector = taken(&parts.collector);
        let mut numbers: Vec<u32> = queue.try_collect(&mut collector).into_iter().map(|it| it.0).collect();
        while numbers.len() < self.tells as usize {
            numbers.push(queue.collect(&mut collector).0);
        }
        assert_eq!(queue.try_collect(&mut collector), None);
        numbers.sort_unstable();
        assert!(numbers.into_iter().eq(0..self.tells), "a completion isn't collected, or twice");
    }

    fn end(&self, _parts: Told) {}
}

#[test]
fn one_collects_what_others_tell() {
    for (room, tells, switches) in [(1, 2, 2), (2, 2, 2), (3, 3, 1)] {
        plays(&format!("{tells} completions with room for {room}"), switches, Tells { room, tells });
    }
}
