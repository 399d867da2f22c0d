//! Where tags are kept: in a struct beside the queue, in a request that goes from thread to thread, and in a thread-local.
use freeze_queue::{Limits, OwnedRequest, Queue, Tag};
use std::cell::RefCell;
use std::error::Error;
use std::sync::{Arc, mpsc};
use std::thread;

/// Writes for one thread at a time. It has a tag of its own, so a write takes no lock.
struct Writer {
    queue: Arc<Queue>,
    tag: Tag,
    writes: u64,
}

impl Writer {
    fn new(queue: &Arc<Queue>) -> Result<Self, Box<dyn Error>> {
        let (queue, tag) = (Arc::clone(queue), queue.tag()?);
        Ok(Self { queue, tag, writes: 0 })
    }

    /// Returns the number of pieces. The request borrows two fields, so the third is free.
    fn write(&mut self, start: u64, sectors: u32) -> Result<usize, Box<dyn Error>> {
        let request = self.queue.enter(&mut self.tag)?;
        self.writes += 1;
        Ok(request.pieces(start, sectors)?.count()) // here the pieces go to the device
    }
}

/// A write that another thread completes: the request owns its tag, and borrows nothing.
struct Pending {
    request: OwnedRequest,
    start: u64,
    sectors: u32,
}

impl Pending {
    fn complete(self) -> Result<usize, Box<dyn Error>> {
        Ok(self.request.pieces(self.start, self.sectors)?.count())
    }
}

thread_local! {
    static KEPT: RefCell<Option<Tag>> = const { RefCell::new(None) };
}

/// Writes with the tag of the thread that calls, which takes one at its first write, and drops it as it ends.
fn write(queue: &Queue, start: u64, sectors: u32) -> Result<usize, Box<dyn Error>> {
    KEPT.with_borrow_mut(|kept| {
        let tag = match kept {
            Some(tag) => tag,
            None => kept.insert(queue.tag()?),
        };
        let request = queue.enter(tag)?;
        Ok(request.pieces(start, sectors)?.count())
    })
}

fn main() -> Result<(), Box<dyn Error>> {
    let queue = Arc::new(Queue::new(Limits::of_hardware(64).with_max(8))?);
    let mut writer = Writer::new(&queue)?;
    println!("a struct's tag: {} and {} pieces", writer.write(0, 20)?, writer.write(1000, 64)?);
    println!("{} writes", writer.writes);

    let (sender, completions) = mpsc::channel::<Pending>();
    let completer =
        thread::spawn(move || completions.iter().map(|it| it.complete().expect("it is below 4 TiB")).sum::<usize>());
    for number in 0..10 {
        let request = queue.enter_any()?; // waits while the queue is frozen, or each tag is taken
        sender.send(Pending { request, start: 100 * number, sectors: 16 })?;
    }
    drop(sender);
    println!("owned requests: {} pieces", completer.join().expect("the completer ends"));

    thread::scope(|threads| {
        let both = [0, 500].map(|start| {
            threads.spawn({
                let queue = &queue;
                move || {
                    write(queue, start, 24).expect("the queue stays") + write(queue, start, 8).expect("the queue stays")
                }
            })
        });
        println!("tags of threads: {:?} pieces", both.map(|it| it.join().expect("each write is done")));
    });
    Ok(())
}
