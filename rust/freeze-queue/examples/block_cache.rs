//! A block cache over a device. Eight threads and twelve tasks read blocks, while another thread changes the limits. Each miss is a
//! request with any free tag, and one of three threads completes it. At the end the device is removed, while twenty threads wait for
//! a tag. No read is wrong, each waiting thread returns, and no tag is lost. Each reader makes `BLOCK_CACHE_READS` reads.
use freeze_queue::{EnterError, Limits, OwnedRequest, Queue};
use std::collections::HashMap;
use std::env;
use std::error::Error;
use std::future::Future;
use std::pin::pin;
use std::sync::atomic::{AtomicBool, AtomicU64, Ordering};
use std::sync::{Arc, Mutex, mpsc};
use std::task::{Context, Poll, Wake, Waker};
use std::thread::{self, Thread};

const THREADS: u64 = 8;
const TASKS: u64 = 12;
const COMPLETERS: usize = 3;
const WAITERS: usize = 20;
/// The number of blocks of the device. Few of them fit into the cache.
const BLOCKS: u64 = 500;
const CACHED: usize = 50;
const SECTORS: u32 = 20;

/// The content of a sector of the device.
fn content(sector: u64) -> u64 {
    sector.wrapping_mul(0x9e37_79b9_7f4a_7c15)
}

/// The sum of the sectors of a block, by which a read is checked.
fn sum_of(block: u64) -> u64 {
    (0..u64::from(SECTORS)).fold(0, |sum, at| sum.wrapping_add(content(block * u64::from(SECTORS) + at)))
}

/// A place for the answer to a read, which wakes the task that waits for it.
#[derive(Default)]
struct Answer(Mutex<(Option<u64>, Option<Waker>)>);

impl Answer {
    fn fill(&self, sum: u64) {
        let mut place = self.0.lock().expect("nobody panics");
        place.0 = Some(sum);
        let waker = place.1.take();
        drop(place);
        waker.into_iter().for_each(Waker::wake);
    }

    fn poll(&self, context: &Context<'_>) -> Poll<u64> {
        let mut place = self.0.lock().expect("nobody panics");
        if let Some(sum) = place.0 {
            return Poll::Ready(sum);
        }
        place.1 = Some(context.waker().clone());
        Poll::Pending
    }
}

/// A read in flight. The thread that completes it drops its request, which leaves.
struct Read {
    request: OwnedRequest,
    block: u64,
    answer: Arc<Answer>,
}

struct Cache {
    queue: Arc<Queue>,
    cached: Mutex<HashMap<u64, u64>>,
    reads: mpsc::Sender<Read>,
    wrong: AtomicU64,
}

impl Cache {
    fn hit(&self, block: u64) -> Option<u64> {
        self.cached.lock().expect("nobody panics").get(&block).copied()
    }

    /// Sends the read of a block that isn't cached.
    fn send(&self, request: OwnedRequest, block: u64) -> Arc<Answer> {
        let answer = Arc::<Answer>::default();
        let read = Read { request, block, answer: Arc::clone(&answer) };
        self.reads.send(read).expect("the completers are there");
        answer
    }

    /// Caches a block. If the cache is full, it is cleared first.
    fn keep(&self, block: u64, sum: u64) {
        let mut cached = self.cached.lock().expect("nobody panics");
        if cached.len() >= CACHED {
            cached.clear();
        }
        cached.insert(block, sum);
    }

    /// Reads a block as a task.
    async fn read(&self, block: u64) -> Result<(), EnterError> {
        if let Some(sum) = self.hit(block) {
            self.check(block, sum);
            return Ok(());
        }
        let answer = self.send(self.queue.enter_any_async().await?, block);
        let sum = std::future::poll_fn(|context| answer.poll(context)).await;
        self.keep(block, sum);
        self.check(block, sum);
        Ok(())
    }

    /// Reads a block on a thread, which blocks in the queue until it has a tag.
    fn read_here(&self, block: u64) -> Result<(), EnterError> {
        let sum = if let Some(sum) = self.hit(block) {
            sum
        } else {
            let answer = self.send(self.queue.enter_any()?, block);
            block_on(std::future::poll_fn(|context| answer.poll(context)))
        };
        self.keep(block, sum);
        self.check(block, sum);
        Ok(())
    }

    fn check(&self, block: u64, sum: u64) {
        self.wrong.fetch_add(u64::from(sum != sum_of(block)), Ordering::Relaxed);
    }
}

/// Completes reads until no reader is left. Returns the number of pieces that were longer than the request's limits allow.
fn complete(reads: &Mutex<mpsc::Receiver<Read>>) -> u64 {
    let mut wrong = 0;
    loop {
        let next = reads.lock().expect("nobody panics").recv();
        let Ok(Read { request, block, answer }) = next else { return wrong };
        let mut sum = 0_u64;
        for piece in request.pieces(block * u64::from(SECTORS), SECTORS).expect("it is within the device") {
            wrong += u64::from(piece.sectors > request.limits().max);
            sum = (0..u64::from(piece.sectors)).fold(sum, |sum, at| sum.wrapping_add(content(piece.start + at)));
        }
        drop(request); // leaves, and its tag goes to the next waiter
        answer.fill(sum);
    }
}

struct Unparks(Thread);

impl Wake for Unparks {
    fn wake(self: Arc<Self>) {
        self.0.unpark();
    }
}

/// Polls a future on this thread, and parks the thread in between: a whole executor.
fn block_on<T>(future: impl Future<Output = T>) -> T {
    let waker = Waker::from(Arc::new(Unparks(thread::current())));
    let mut future = pin!(future);
    loop {
        match future.as_mut().poll(&mut Context::from_waker(&waker)) {
            Poll::Ready(done) => return done,
            Poll::Pending => thread::park(),
        }
    }
}

/// Polls all of these on this thread, whenever one of them is woken.
async fn join_all<F: Future<Output = Result<(), EnterError>>>(tasks: Vec<F>) {
    let mut tasks: Vec<_> = tasks.into_iter().map(|task| Some(Box::pin(task))).collect();
    std::future::poll_fn(|context| {
        for task in &mut tasks {
            let done = task.as_mut().is_some_and(|task| task.as_mut().poll(context).is_ready());
            if done {
                *task = None;
            }
        }
        if tasks.iter().all(Option::is_none) { Poll::Ready(()) } else { Poll::Pending }
    })
    .await;
}

fn block_of(reader: u64, read: u64) -> u64 {
    (content(reader * 1_000_003 + read) >> 40) % BLOCKS
}

/// Lets threads and tasks read while limits change. Returns the number of changes.
fn read_under_changes(cache: &Cache, reads: u64) -> u64 {
    let over = AtomicBool::new(false);
    thread::scope(|threads| {
        let change = threads.spawn(|| {
            let mut changes = 0;
            loop {
                let of_one = |limits: Limits| limits.with_max(1 + changes % 64).with_chunk(4 * (1 + changes % 64));
                cache.queue.update(of_one).expect("they are limits");
                changes += 1;
                if over.load(Ordering::Relaxed) {
                    return u64::from(changes);
                }
            }
        });
        let readers: Vec<_> = (0..THREADS)
            .map(|reader| {
                threads.spawn(move || {
                    (0..reads).for_each(|read| cache.read_here(block_of(reader, read)).expect("the device is there"));
                })
            })
            .collect();
        let task = async |reader| {
            for read in 0..reads {
                cache.read(block_of(reader, read)).await?;
            }
            Ok(())
        };
        block_on(join_all((THREADS..THREADS + TASKS).map(task).collect()));
        for reader in readers {
            reader.join().expect("it reads to its end");
        }
        over.store(true, Ordering::Relaxed);
        change.join().expect("each change is set")
    })
}

/// Removes the device, while all tags are in flight and threads wait for one. Returns the number of threads that got `Dying`.
fn remove_device(queue: &Queue) -> usize {
    let in_flight: Vec<OwnedRequest> = std::iter::from_fn(|| queue.try_enter_any().ok()).collect();
    thread::scope(|threads| {
        let waiters: Vec<_> = (0..WAITERS).map(|_| threads.spawn(|| queue.enter_any().map(drop))).collect();
        let freezing = queue.begin_freeze().expect("few freezes are there");
        drop(in_flight);
        freezing.wait().mark_dying();
        let ended = waiters.into_iter().map(|waiter| waiter.join().expect("it returns"));
        ended.filter(|ended| *ended == Err(EnterError::Dying)).count()
    })
}

fn main() -> Result<(), Box<dyn Error>> {
    let reads = env::var("BLOCK_CACHE_READS").ok().and_then(|text| text.parse().ok()).unwrap_or(500);
    let queue = Arc::new(Queue::builder(Limits::of_hardware(64)).slots(4).tags(6).build()?);
    let (sent, received) = mpsc::channel();
    let received = Arc::new(Mutex::new(received));
    let completers: Vec<_> = (0..COMPLETERS)
        .map(|_| {
            let received = Arc::clone(&received);
            thread::spawn(move || complete(&received))
        })
        .collect();
    let cache = Cache { queue: Arc::clone(&queue), cached: Mutex::default(), reads: sent, wrong: AtomicU64::new(0) };
    let changes = read_under_changes(&cache, reads);
    let wrong = cache.wrong.load(Ordering::Relaxed);
    drop(cache);
    let cut = completers.into_iter().map(|completer| completer.join().expect("it ends")).sum::<u64>();
    println!("{} reads, {wrong} wrong; {cut} pieces too long", (THREADS + TASKS) * reads);
    println!("limits changed meanwhile: {}", changes > 0);
    println!("{} of {WAITERS} threads sent away", remove_device(&queue));
    let queue = Arc::into_inner(queue).ok_or("a thread has the queue")?;
    queue.remove()?;
    println!("no tag lost");
    Ok(())
}
