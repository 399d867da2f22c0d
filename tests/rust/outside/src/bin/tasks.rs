//! Tasks of tokio in thousands, over the 63 tags of one queue, which guards a device. usage: tasks [TASKS REQUESTS CHANGES]
//!
//! Each task waits for a tag in line, enters, holds its request across awaits, and reads the device meanwhile. Another task changes the
//! device under freezes, which it awaits too. At the end the device comes back.

use freeze_queue::{Limits, Queue};
use std::env;
use std::sync::Arc;
use std::sync::atomic::{AtomicU64, Ordering::Relaxed};
use tokio::task::{JoinHandle, spawn, yield_now};

/// Two settings that belong together.
struct Device {
    version: u64,
    name: String,
    served: AtomicU64,
}

/// One request, which sees one version of the device from its entering to its leaving.
async fn serve(queue: &Queue<Device>) {
    let device = queue.enter_any_async().await.expect("a live device");
    let version = device.version;
    yield_now().await;
    assert_eq!((device.version, device.name.as_str()), (version, version.to_string().as_str()));
    device.served.fetch_add(1, Relaxed);
}

/// A change waits for the requests in flight.
async fn change(queue: &Queue<Device>) {
    let frozen = queue.freeze_async().await.expect("a freeze");
    let mut device = frozen.lock();
    device.version += 1;
    device.name = device.version.to_string();
}

async fn run(tasks: u64, requests: u64, changes: u64) -> Device {
    let device = Device { version: 0, name: "0".into(), served: AtomicU64::new(0) };
    let queue = Arc::new(Queue::builder(Limits::of_hardware(64)).tags(63).value(device).build().expect("a queue"));
    let mut all: Vec<JoinHandle<()>> = Vec::new();
    let changed = Arc::clone(&queue);
    all.push(spawn(async move {
        for _ in 0..changes {
            change(&changed).await;
        }
    }));
    for _ in 0..tasks {
        let queue = Arc::clone(&queue);
        all.push(spawn(async move {
            for _ in 0..requests {
                serve(&queue).await;
            }
        }));
    }
    for task in all {
        task.await.expect("a task");
    }
    let queue = Arc::into_inner(queue).expect("the tasks have ended");
    queue.remove().expect("each tag is home").value
}

fn main() {
    let words: Vec<u64> = env::args().skip(1).map(|word| word.parse().expect("a number")).collect();
    let [tasks, requests, changes] = words.try_into().unwrap_or([5000, 20, 200]);
    let runtime = tokio::runtime::Builder::new_multi_thread().worker_threads(4).build().expect("a runtime");
    let device = runtime.block_on(run(tasks, requests, changes));
    let served = device.served.into_inner();
    println!("{tasks} tasks, {served} requests over 63 tags, version {}", device.version);
}
