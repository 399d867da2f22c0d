//! Requests that enter as tasks, without a runtime. One thread has 60 futures, and polls those that were woken, while another
//! thread freezes the queue, changes its limits and thaws it. A future that waits for the thaw is polled only when it is woken.
use freeze_queue::{EnterError, Limits, Queue, Tag};
use std::error::Error;
use std::future::Future;
use std::pin::Pin;
use std::sync::{Arc, mpsc};
use std::task::{Context, Wake, Waker};
use std::thread;

const TASKS: usize = 60;
const REQUESTS: u32 = 200;
const CHANGES: u32 = 500;

/// Puts the number of its task into the line of tasks to poll.
struct Polled {
    task: usize,
    line: mpsc::Sender<usize>,
}

impl Wake for Polled {
    fn wake(self: Arc<Self>) {
        // If the line is gone, each task is done.
        let _ = self.line.send(self.task);
    }
}

/// Sends requests, and returns the number of their sectors. After each request it lets the other tasks run.
async fn submit(queue: &Queue, tag: &mut Tag) -> Result<u64, EnterError> {
    let mut sent = 0;
    for _ in 0..REQUESTS {
        let request = queue.enter_async(tag).await?;
        sent += request.pieces(0, 100).expect("below 4 TiB").map(|piece| u64::from(piece.sectors)).sum::<u64>();
        drop(request);
        let mut is_first = true;
        std::future::poll_fn(|context| {
            context.waker().wake_by_ref();
            if std::mem::take(&mut is_first) { std::task::Poll::Pending } else { std::task::Poll::Ready(()) }
        })
        .await;
    }
    Ok(sent)
}

/// Polls each task that was woken, until all are done. Returns the number of sectors that they sent.
fn run<'f>(tasks: impl Iterator<Item = Pin<Box<dyn Future<Output = Result<u64, EnterError>> + 'f>>>) -> u64 {
    let (line, woken) = mpsc::channel();
    let mut tasks: Vec<_> = tasks.map(Some).collect();
    let wakers: Vec<Waker> =
        (0..tasks.len()).map(|task| Arc::new(Polled { task, line: line.clone() }).into()).collect();
    wakers.iter().for_each(Waker::wake_by_ref);
    let (mut sent, mut left) = (0, tasks.len());
    while left > 0 {
        let number = woken.recv().expect("the line is here");
        let Some(task) = &mut tasks[number] else { continue };
        if let std::task::Poll::Ready(done) = task.as_mut().poll(&mut Context::from_waker(&wakers[number])) {
            sent += done.expect("the device stays");
            tasks[number] = None;
            left -= 1;
        }
    }
    sent
}

fn main() -> Result<(), Box<dyn Error>> {
    let queue = Queue::builder(Limits::of_hardware(64)).slots(1).tags(60).build()?;
    let mut tags = (0..TASKS).map(|_| queue.tag()).collect::<Result<Vec<Tag>, _>>()?;
    let sent = thread::scope(|threads| {
        threads.spawn(|| {
            for change in 0..CHANGES {
                let frozen = queue.freeze().expect("few freezes nest");
                frozen.set(Limits::of_hardware(64).with_max(1 + change % 64)).expect("they are limits");
            }
        });
        run(tags.iter_mut().map(|tag| Box::pin(submit(&queue, tag)) as Pin<Box<dyn Future<Output = _>>>))
    });
    println!("{TASKS} tasks sent {sent} sectors");
    for tag in tags {
        drop(tag);
    }
    let last = queue.remove()?; // this freezes it once more
    println!("frozen {} times, at most {} sectors", last.kills, last.limits.max);
    Ok(())
}
