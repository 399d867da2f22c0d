//! Removes a device while four threads submit requests to it, and some of them wait to enter. Each request that has entered is
//! completed, no request enters afterwards, and a thread that waits returns.
use freeze_queue::{EnterError, Limits, Queue, Tag};
use std::error::Error;
use std::sync::atomic::{AtomicBool, AtomicU64, Ordering};
use std::sync::mpsc;
use std::thread;

#[derive(Default)]
struct Device {
    sectors: AtomicU64,
    is_off: AtomicBool,
}

impl Device {
    fn send(&self, sectors: u32) {
        assert!(!self.is_off.load(Ordering::Relaxed), "the queue lets nobody in once it is off");
        self.sectors.fetch_add(u64::from(sectors), Ordering::Relaxed);
    }
}

/// Sends requests of 100 sectors until the device is gone, and reports when a thousand were sent.
fn submit(queue: &Queue, tag: &mut Tag, device: &Device, thousand: &mpsc::Sender<()>) -> u64 {
    for sent in 0.. {
        match queue.enter(tag) {
            Ok(request) => request.pieces(sent * 100, 100).expect("below 4 TiB").for_each(|p| device.send(p.sectors)),
            Err(EnterError::Dying) => return sent,
            Err(other) => panic!("{other}"),
        }
        if sent == 999 {
            thousand.send(()).expect("it is waited for");
        }
    }
    unreachable!("it is removed before")
}

fn main() -> Result<(), Box<dyn Error>> {
    let queue = Queue::builder(Limits::of_hardware(64).with_max(32)).slots(4).tags(4).build()?;
    let mut tags = (0..4).map(|_| queue.tag()).collect::<Result<Vec<Tag>, _>>()?;
    let device = Device::default();
    let (thousand, thousands) = mpsc::channel();
    let sent: u64 = thread::scope(|threads| {
        let submits = |tag| {
            let (queue, device, thousand) = (&queue, &device, thousand.clone());
            threads.spawn(move || submit(queue, tag, device, &thousand))
        };
        let submitters: Vec<_> = tags.iter_mut().map(submits).collect();
        thousands.iter().take(4).for_each(drop);
        let frozen = queue.freeze().expect("it is the first freeze"); // no request is in flight
        device.is_off.store(true, Ordering::Relaxed);
        frozen.mark_dying();
        submitters.into_iter().map(|thread| thread.join().expect("no request finds the device off")).sum()
    });
    println!("each sector was sent: {}", device.sectors.load(Ordering::Relaxed) == 100 * sent);
    for tag in tags {
        drop(tag);
    }
    let last = queue.remove()?;
    println!("frozen {} time(s), drained {}, at most {} sectors", last.kills, last.releases, last.limits.max);
    Ok(())
}
