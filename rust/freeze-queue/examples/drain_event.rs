//! Tells a loop that waits for file descriptors, for example with `poll` or `epoll`, that the queue is drained: the waker of the
//! future writes a byte to a socket, and the loop reads the other end. Here the loop has only this descriptor, so it reads from it
//! instead of calling `poll`.
use freeze_queue::{Limits, Queue};
use std::error::Error;
use std::future::Future;
use std::io::{Read, Write};
use std::os::unix::net::UnixStream;
use std::pin::pin;
use std::sync::Arc;
use std::task::{Context, Poll, Wake, Waker};
use std::thread;

/// An event. A byte signals it.
struct Event(UnixStream);

impl Wake for Event {
    fn wake(self: Arc<Self>) {
        // If the socket is full, the loop has enough to read. If it is closed, the loop has ended.
        let _ = (&self.0).write(&[1]);
    }
}

fn main() -> Result<(), Box<dyn Error>> {
    let queue = Queue::builder(Limits::of_hardware(64)).slots(1).tags(3).build()?;
    let requests = [queue.enter_any()?, queue.enter_any()?, queue.enter_any()?];
    let (mut events, signals) = UnixStream::pair()?;
    signals.set_nonblocking(true)?;
    let waker = Waker::from(Arc::new(Event(signals)));
    let mut context = Context::from_waker(&waker);
    let mut drained = pin!(queue.begin_freeze()?.drained());
    assert!(drained.as_mut().poll(&mut context).is_pending(), "three requests are in flight");
    let completes = thread::spawn(move || requests.into_iter().for_each(drop));
    let frozen = loop {
        events.read_exact(&mut [0])?; // a loop over several would call poll() first
        if let Poll::Ready(frozen) = drained.as_mut().poll(&mut context) {
            break frozen;
        }
    };
    println!("drained: {}", queue.is_drained());
    frozen.set(frozen.limits().with_max(8))?;
    println!("at most {} sectors from now on", frozen.limits().max);
    completes.join().expect("each request leaves");
    Ok(())
}
