//! Five thousand tasks over eight tags, without a runtime. Each task waits for a tag in order of arrival, and holds its request across
//! an await. One more task freezes the queue now and then, awaits the drain, and changes the limits. The executor is one thread, with
//! a line of the tasks that were woken.
use freeze_queue::{Limits, Queue};
use std::cell::Cell;
use std::error::Error;
use std::future::{Future, poll_fn};
use std::pin::Pin;
use std::sync::{Arc, mpsc};
use std::task::{Context, Poll, Wake, Waker};

const TASKS: usize = 5_000;
const CHANGES: u32 = 100;
const TAGS: u32 = 8;

type Task<'t> = Pin<Box<dyn Future<Output = ()> + 't>>;

/// Puts the number of its task into the line.
struct Woken {
    task: usize,
    line: mpsc::Sender<usize>,
}

impl Wake for Woken {
    fn wake(self: Arc<Self>) {
        let _ = self.line.send(self.task); // if the line is gone, each task is done
    }
}

/// Polls each task that was woken, until all are done.
fn run(tasks: Vec<Task<'_>>) {
    let (line, woken) = mpsc::channel();
    let mut left = tasks.len();
    let mut tasks: Vec<_> = tasks
        .into_iter()
        .enumerate()
        .map(|(task, future)| {
            let waker = Waker::from(Arc::new(Woken { task, line: line.clone() }));
            waker.wake_by_ref();
            (Some(future), waker)
        })
        .collect();
    while left > 0 {
        let number = woken.recv().expect("the line is here");
        let (task, waker) = &mut tasks[number];
        if task.as_mut().is_some_and(|future| future.as_mut().poll(&mut Context::from_waker(waker)).is_ready()) {
            *task = None;
            left -= 1;
        }
    }
}

/// Lets the other tasks run.
async fn turn() {
    let mut is_first = true;
    poll_fn(|context| {
        context.waker().wake_by_ref();
        if std::mem::take(&mut is_first) { Poll::Pending } else { Poll::Ready(()) }
    })
    .await;
}

/// What the tasks count.
#[derive(Default)]
struct Counts {
    sectors: Cell<u64>,
    now: Cell<u32>,
    most: Cell<u32>,
}

async fn submit(queue: &Queue, counts: &Counts, start: u64) {
    let request = queue.enter_any_async().await.expect("the device stays");
    counts.now.set(counts.now.get() + 1);
    counts.most.set(counts.most.get().max(counts.now.get()));
    let before = *request.limits();
    turn().await;
    assert_eq!(*request.limits(), before);
    let pieces = request.pieces(start, 100).expect("it is within the device");
    counts.sectors.set(counts.sectors.get() + pieces.map(|piece| u64::from(piece.sectors)).sum::<u64>());
    counts.now.set(counts.now.get() - 1);
}

async fn change(queue: &Queue, counts: &Counts) {
    for change in 0..CHANGES {
        let frozen = queue.freeze_async().await.expect("few freezes nest");
        assert_eq!(counts.now.get(), 0, "no request is in flight");
        frozen.set(frozen.limits().with_max(1 + change % 64)).expect("they are limits");
        drop(frozen);
        turn().await;
    }
}

fn main() -> Result<(), Box<dyn Error>> {
    let queue = Queue::builder(Limits::of_hardware(64)).slots(1).tags(TAGS).build()?;
    let counts = Counts::default();
    let mut tasks: Vec<Task<'_>> = vec![Box::pin(change(&queue, &counts))];
    tasks.extend((0..TASKS as u64).map(|task| Box::pin(submit(&queue, &counts, task * 100)) as Task<'_>));
    run(tasks);
    println!("{TASKS} tasks sent {} sectors, at most {} requests at once", counts.sectors.get(), counts.most.get());
    let last = queue.remove()?; // this freezes it once more
    println!("frozen {} times, at most {} sectors", last.kills, last.limits.max);
    Ok(())
}
