//! A queue around a device: requests share it, and a freeze changes it while no request is in flight.
use freeze_queue::{Limits, Queue};
use std::error::Error;
use std::sync::atomic::{AtomicU64, Ordering::Relaxed};
use std::thread;

struct Device {
    name: String,
    served: AtomicU64,
}

fn main() -> Result<(), Box<dyn Error>> {
    let device = Device { name: "slow".into(), served: AtomicU64::new(0) };
    let queue = Queue::builder(Limits::of_hardware(64)).value(device).build()?;
    thread::scope(|threads| {
        for _ in 0..2 {
            threads.spawn(|| {
                let device = queue.enter_any().unwrap(); // a request, which derefs to the device
                assert!(device.name == "slow" || device.name == "fast");
                device.served.fetch_add(1, Relaxed);
            });
        }
        let frozen = queue.freeze().unwrap(); // no request is in flight
        let mut device = frozen.lock();
        device.name.clear(); // no request sees it between
        device.name.push_str("fast");
    });
    let last = queue.remove()?;
    println!("{}: served {} times", last.value.name, last.value.served.into_inner());
    Ok(())
}
