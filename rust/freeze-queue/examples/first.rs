//! The program of README.md: limits that change before a request enters.
use freeze_queue::{Limits, Queue};

fn main() -> Result<(), Box<dyn std::error::Error>> {
    let queue = Queue::new(Limits::of_hardware(64))?; // the hardware takes 64 sectors
    let mut tag = queue.tag()?; // one request at a time
    queue.update(|limits| limits.with_max(8))?; // freezes, drains, sets, thaws
    let request = queue.enter(&mut tag)?; // waits while the queue is frozen
    for piece in request.pieces(1000, 20)? {
        println!("{} sectors from {}", piece.sectors, piece.start); // all under one setting
    }
    Ok(()) // the drop of the request leaves the queue
}
