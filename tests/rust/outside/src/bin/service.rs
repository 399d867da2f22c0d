//! A service of tokio's tasks on the queue: a request of each, changes with a deadline, and the end.
use freeze_queue::{EnterError, Limits, Queue, UpdateError};
use std::error::Error;
use std::sync::Arc;
use std::time::Duration;
use tokio::task::{JoinSet, yield_now};
use tokio::time::timeout;

/// A request of 20 sectors: how many were sent.
async fn serve(queue: Arc<Queue>, start: u64) -> Result<u64, EnterError> {
    let request = queue.enter_any_async().await?; // waits for a tag, and while the queue is frozen
    let mut sent = 0;
    for piece in request.pieces(start, 20).expect("it is below 4 TiB") {
        yield_now().await; // here the piece goes to the device
        sent += u64::from(piece.sectors);
    }
    Ok(sent)
}

/// Changes one limit within a time, or returns None: then the old limits stay, and the queue is thawed.
async fn change(queue: &Queue, max: u32, within: Duration) -> Option<Result<Limits, UpdateError>> {
    timeout(within, queue.update_async(|limits| limits.with_max(max))).await.ok()
}

/// Ends the service. Returns how many sectors its tasks sent.
async fn end(queue: Arc<Queue>, mut tasks: JoinSet<Result<u64, EnterError>>) -> Result<u64, Box<dyn Error>> {
    queue.shut_down_async().await; // tasks that wait, or come later, get Dying
    let mut sent = 0;
    while let Some(ended) = tasks.join_next().await {
        sent += ended?.unwrap_or(0);
    }
    Arc::into_inner(queue).ok_or("a task has the queue")?.remove()?; // each task has given its tag back
    Ok(sent)
}

async fn run() -> Result<(), Box<dyn Error>> {
    let queue = Arc::new(Queue::builder(Limits::of_hardware(64)).tags(8).build()?);
    let hanging = queue.enter_any_async().await?; // its device doesn't answer for a while
    let changed = change(&queue, 8, Duration::from_millis(10)).await;
    println!("changed: {}, at most {} sectors, depth {}", changed.is_some(), queue.limits().max, queue.depth());
    drop(hanging);
    let mut tasks = JoinSet::new();
    for number in 0..1000 {
        tasks.spawn(serve(Arc::clone(&queue), 20 * number));
    }
    let changed = change(&queue, 8, Duration::from_secs(3600)).await.ok_or("an hour has passed")??;
    println!("at most {} sectors", changed.max);
    let sent = end(queue, tasks).await?;
    println!("whole requests: {}", sent % 20 == 0);
    Ok(())
}

fn main() -> Result<(), Box<dyn Error>> {
    tokio::runtime::Builder::new_multi_thread().worker_threads(4).enable_time().build()?.block_on(run())
}
