//! Pulls out a device under load and replaces it, again and again, without `unsafe`. Requests only see a device that is powered on; it
//! is powered off when no request is left. usage: removal [DEVICES]

use percpu_gate::guarded::{Gate, Pass};
use percpu_gate::{OnLast, Start};
use std::env;
use std::error::Error;
use std::sync::atomic::{AtomicBool, AtomicU64, Ordering::Relaxed};
use std::sync::mpsc::{Receiver, channel};
use std::sync::{Arc, Mutex};
use std::thread;

/// A device. Requests share it; the removal has it alone.
struct Device {
    serial: u64,
    is_powered: bool,
    /// One for each thread: a request writes the sector of its thread.
    sectors: Vec<AtomicU64>,
    served: AtomicU64,
}

impl Device {
    fn plug_in(serial: u64, threads: usize) -> Device {
        let sectors = (0..threads).map(|_| AtomicU64::new(serial)).collect();
        Device { serial, is_powered: true, sectors, served: AtomicU64::new(0) }
    }

    fn serve(&self, thread: usize) {
        assert!(self.is_powered, "a request at a device without power");
        assert_eq!(self.sectors[thread].swap(self.serial, Relaxed), self.serial);
        self.served.fetch_add(1, Relaxed);
    }

    /// Returns the number of requests that the device has served.
    fn power_off(&mut self) -> u64 {
        self.is_powered = false;
        self.sectors.clear(); // a request that came now would be out of range
        *self.served.get_mut()
    }
}

/// Kills the gate and waits until the last request is gone.
fn drain(gate: &mut Gate<Device>, released: &Receiver<()>) -> Result<(), Box<dyn Error>> {
    gate.kill()?;
    released.recv()?;
    Ok(())
}

fn submit(pass: &Pass<Device>, thread: usize, is_over: &AtomicBool) {
    while !is_over.load(Relaxed) {
        match pass.try_get_live() {
            Ok(device) => device.serve(thread),
            Err(_) => thread::yield_now(), // there is no device now
        }
    }
}

fn main() -> Result<(), Box<dyn Error>> {
    const THREADS: usize = 4;
    let devices = env::args().nth(1).map_or(Ok(200), |word| word.parse::<u64>())?;
    let (release, released) = channel();
    let release = Mutex::new(release); // the thread that drops the last reference sends
    let on_last: OnLast = Arc::new(move || release.lock().unwrap().send(()).unwrap());
    let mut gate = Gate::new(Device::plug_in(1, THREADS), 4, 4, Start::Slots, on_last)?;
    let is_over = Arc::new(AtomicBool::new(false));
    let mut threads = Vec::new();
    for (slot, thread) in (0..4).zip(0..THREADS) {
        let (pass, is_over) = (gate.next_pass(slot)?, Arc::clone(&is_over));
        threads.push(thread::spawn(move || submit(&pass, thread, &is_over)));
    }
    let mut served = 0;
    // Repeat until a thread has served a request.
    while served == 0 {
        drain(&mut gate, &released)?;
        served = *gate.get_mut()?.served.get_mut();
        gate.reinit()?;
    }
    for serial in 2..=devices {
        drain(&mut gate, &released)?;
        let device = gate.get_mut()?;
        served += device.power_off();
        *device = Device::plug_in(serial, THREADS);
        gate.reinit()?;
    }
    drain(&mut gate, &released)?;
    let mut device = gate.remove()?; // even though passes are out
    served += device.power_off();
    is_over.store(true, Relaxed);
    for thread in threads {
        thread.join().map_err(|_| "a request failed")?;
    }
    assert!(served > 0);
    println!("{devices} devices were pulled out under load, the last of them number {}", device.serial);
    Ok(())
}
