//! Removes a device while two threads submit requests to it. The thread that drops the last reference powers it off.
use percpu_gate::{Gate, Pass, Start, Word};
use std::error::Error;
use std::sync::atomic::{AtomicBool, AtomicU32, AtomicU64, Ordering};
use std::sync::{Arc, mpsc};
use std::thread;

/// A setting of the gate, which doesn't change while a request is in flight.
const BYTES: Word = Word::new(0).unwrap();

#[derive(Default)]
struct Device {
    bytes: AtomicU64,
    is_off: AtomicBool,
    times_off: AtomicU32,
}

impl Device {
    fn send(&self, bytes: u64) {
        assert!(!self.is_off.load(Ordering::Relaxed), "the gate lets nobody in once it is off");
        self.bytes.fetch_add(bytes, Ordering::Relaxed);
    }

    fn power_off(&self) {
        self.is_off.store(true, Ordering::Relaxed);
        self.times_off.fetch_add(1, Ordering::Relaxed);
    }
}

/// Submits requests until the device is being removed, and reports when a thousand were served.
fn submit(device: &Device, pass: &Pass, thousand: &mpsc::Sender<()>) -> u64 {
    let mut served = 0;
    while let Ok(request) = pass.try_get_live() {
        device.send(request.word(BYTES)); // nobody powers it off before our reference is dropped
        served += 1;
        if served == 1000 {
            thousand.send(()).expect("it is waited for");
        }
    }
    served
}

fn main() -> Result<(), Box<dyn Error>> {
    let device = Arc::new(Device::default());
    let to_power_off = Arc::clone(&device);
    let on_last = Arc::new(move || to_power_off.power_off());
    let mut gate = Gate::new(2, 2, Start::Slots, [512, 0, 0, 0, 0, 0, 0, 0], on_last)?;
    let passes = [gate.next_pass(0)?, gate.next_pass(1)?]; // each on a slot of its own
    let (thousand, thousands) = mpsc::channel();
    let threads = passes.map(|pass| {
        let (device, thousand) = (Arc::clone(&device), thousand.clone());
        thread::spawn(move || (submit(&device, &pass, &thousand), pass))
    });
    thousands.recv()?;
    thousands.recv()?;
    gate.kill()?; // from here on the device may be off
    let mut served = 0;
    for thread in threads {
        let (count, pass) = thread.join().expect("no request finds the device off");
        served += count;
        gate.retire(pass)?;
    }
    let bytes = device.bytes.load(Ordering::Relaxed);
    println!("each byte was sent: {}", bytes == 512 * served);
    println!("at zero: {}, powered off {} time(s)", gate.is_zero(), device.times_off.load(Ordering::Relaxed));
    let last = gate.exit()?;
    println!("dead {}, kills {}, releases {}, word 0: {}", last.dead, last.kills, last.releases, last.words[0]);
    Ok(())
}
