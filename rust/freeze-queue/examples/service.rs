//! A small service on the queue. Threads that come and go take any free tag for each request. A change of the limits gives up at its
//! deadline. At the end each thread returns, and the queue is removed.
use freeze_queue::{EnterError, Limits, Queue, UpdateError};
use std::error::Error;
use std::sync::Arc;
use std::thread;
use std::time::Duration;

const WORKERS: usize = 4;
const VISITORS: usize = 100;

/// Makes a request of 20 sectors, on any thread. Returns the number of sectors that were sent.
fn serve(queue: &Queue) -> Result<u64, EnterError> {
    let request = queue.enter_any()?; // waits for a tag, and while the queue is frozen
    let pieces = request.pieces(0, 20).expect("below 4 TiB");
    Ok(pieces.map(|piece| u64::from(piece.sectors)).sum()) // here each piece goes to the device
}

/// Serves until the service ends.
fn work(queue: &Queue) -> u64 {
    let mut sent = 0;
    while let Ok(sectors) = serve(queue) {
        sent += sectors;
    }
    sent
}

/// Changes one limit, or gives up at the timeout and sets nothing.
fn change(queue: &Queue, max: u32, timeout: Duration) -> Result<Limits, UpdateError> {
    queue.update_timeout(timeout, |limits| limits.with_max(max))
}

fn main() -> Result<(), Box<dyn Error>> {
    let queue = Arc::new(Queue::builder(Limits::of_hardware(64)).slots(4).tags(8).build()?);
    let hanging = queue.enter_any()?; // its device doesn't answer for a while
    if let Err(why) = change(&queue, 8, Duration::from_millis(50)) {
        println!("at most 8: {why}");
    }
    println!("at most {} sectors", queue.limits().max);
    drop(hanging);
    change(&queue, 8, Duration::MAX)?;
    println!("at most {} sectors", queue.limits().max);

    let workers: Vec<_> =
        (0..WORKERS).map(|_| Arc::clone(&queue)).map(|queue| thread::spawn(move || work(&queue))).collect();
    let mut sent = 0;
    for _ in 0..VISITORS {
        let queue = Arc::clone(&queue);
        sent += thread::spawn(move || serve(&queue)).join().expect("it serves one request")?;
    }
    queue.update(|limits| limits.with_max(5))?;

    queue.mark_dying(); // calls that wait to enter, and later ones, return Dying
    for worker in workers {
        sent += worker.join().expect("it works to the end");
    }
    let last = Arc::into_inner(queue).ok_or("a thread has the queue")?.remove()?;
    println!("frozen {} times, at most {} sectors, whole requests: {}", last.kills, last.limits.max, sent % 20 == 0);
    Ok(())
}
