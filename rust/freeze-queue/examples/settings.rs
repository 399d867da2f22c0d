//! Changes the limits while four threads submit. Each request is cut by the limits of one setting, which don't change from its
//! entering to its leaving. The main thread freezes the queue, sets the limits and thaws it, a thousand times.
use freeze_queue::{Limits, Queue, Tag};
use std::error::Error;
use std::thread;

const REQUESTS: u64 = 20_000;
const CHANGES: u32 = 1000;
const SECTORS: u32 = 100;

/// In each setting `chunk` is four times `max`, or there are no chunks. So a request that saw two settings would be noticed.
fn setting(of: u32) -> Limits {
    let max = 1 + of % 64;
    Limits::of_hardware(64).with_max(max).with_chunk(if of % 3 == 0 { 0 } else { 4 * max })
}

fn is_one_setting(limits: &Limits) -> bool {
    limits.chunk == 0 || limits.chunk == 4 * limits.max
}

/// Returns the number of sectors that were sent, and the number of mistakes.
fn submit(queue: &Queue, tag: &mut Tag) -> (u64, u64) {
    let (mut sent, mut wrong) = (0, 0);
    for number in 0..REQUESTS {
        let request = queue.enter(tag).expect("the queue stays");
        wrong += u64::from(!is_one_setting(request.limits()));
        for piece in request.pieces(number * u64::from(SECTORS), SECTORS).expect("below 4 TiB") {
            wrong += u64::from(piece.sectors > request.limits().max);
            sent += u64::from(piece.sectors); // here the command goes to the device
        }
    }
    (sent, wrong)
}

fn main() -> Result<(), Box<dyn Error>> {
    let queue = Queue::builder(setting(63)).slots(4).tags(4).build()?;
    let mut tags = (0..4).map(|_| queue.tag()).collect::<Result<Vec<Tag>, _>>()?;
    thread::scope(|threads| {
        let submitters: Vec<_> = tags.iter_mut().map(|tag| threads.spawn(|| submit(&queue, tag))).collect();
        for change in 0..CHANGES {
            queue.freeze().expect("few freezes nest").set(setting(change)).expect("it is a setting");
        }
        for (number, thread) in submitters.into_iter().enumerate() {
            let (sent, wrong) = thread.join().expect("each request is sent");
            println!("thread {number}: {sent} sectors, {wrong} wrong");
        }
    });
    for tag in tags {
        drop(tag);
    }
    let last = queue.remove()?; // this freezes it once more
    println!("frozen {} times, drained {} times", last.kills, last.releases);
    println!("at most {} sectors, chunks of {}", last.limits.max, last.limits.chunk);
    Ok(())
}
