//! A run through both layers: frames are offered to a controller, received and sent on by the drivers, and put onto a wire.

use crate::controller::{Offer, RxController, Turn, TxController, Wire};
use crate::forwarder::Forwarder;
use crate::patience::Patience;
use crate::ring::Ring;
use crate::tx_ring::{Completion, TxRing};
use crate::words::Load;
use std::thread;
use std::time::{Duration, Instant};

/// The number of bytes to which buffers are filled.
const FILL: usize = 2048;

/// A controller of each direction, and the wire.
struct Device<'a> {
    rx: RxController<'a>,
    tx: TxController<'a>,
    wire: Wire,
}

impl Device<'_> {
    /// Offers the frame up to `offers` times, until it is not stored, and then puts up to `turns` frames onto the wire.
    /// Returns how many were stored and sent.
    fn serve(&mut self, frame: &[u8], offers: u64, turns: u64) -> (u64, u64) {
        (self.offer(frame, offers), self.turn(turns))
    }

    fn offer(&mut self, frame: &[u8], most: u64) -> u64 {
        for stored in 0..most {
            if self.rx.offer(frame).expect("a lawful frame") != Offer::Stored {
                return stored;
            }
        }
        most
    }

    fn turn(&mut self, most: u64) -> u64 {
        for sent in 0..most {
            if self.tx.turn(&mut self.wire) != Turn::Sent {
                return sent;
            }
        }
        most
    }
}

/// Passes the frames. Returns the time.
pub fn run(load: &Load, batch: usize, in_threads: bool) -> Duration {
    let mut from = Ring::new(load.ring);
    let mut to = TxRing::new(load.ring, Completion::Status);
    let (rx, rx_end) = from.ends();
    let (tx, tx_end) = to.ends();
    let mut forwarder = Forwarder::new(rx, tx, batch);
    let mut device = Device {
        rx: RxController::new(rx_end, FILL, false),
        tx: TxController::new(tx_end),
        wire: Wire::default(),
    };
    forwarder.ask_enable();
    device.rx.answer();
    device.tx.answer();
    assert!(forwarder.look_on());
    forwarder.fill(load.ring).expect("the queues are enabled");
    let frame = load.frame();
    let start = Instant::now();
    if in_threads {
        thread::scope(|scope| {
            scope.spawn(|| serve_all(&mut device, &frame, load.frames, batch as u64));
            forward_all(forwarder, load.frames);
        });
    } else {
        alone(&mut device, forwarder, &frame, load.frames, batch as u64);
    }
    let spent = start.elapsed();
    check(&device, &frame, load.frames);
    spent
}

/// Lets both sides work in turn, until all frames are on the wire.
fn alone(device: &mut Device, mut forwarder: Forwarder, frame: &[u8], frames: u64, batch: u64) {
    let mut left = frames;
    while device.wire.len() as u64 != frames {
        left -= device.serve(frame, batch.min(left), batch).0;
        forwarder.forward().expect("the queues are enabled");
    }
}

/// The controllers' side: offers the frames and serves the wire, until all frames are on it.
fn serve_all(device: &mut Device, frame: &[u8], frames: u64, batch: u64) {
    let mut patience = Patience::default();
    let mut left = frames;
    loop {
        let (stored, sent) = device.serve(frame, batch.min(left), batch);
        left -= stored;
        if stored != 0 || sent != 0 {
            patience.reset();
            continue;
        }
        if device.wire.len() as u64 == frames {
            return;
        }
        patience.wait();
    }
}

/// The drivers' side: forwards until all frames are sent on.
fn forward_all(mut forwarder: Forwarder, frames: u64) {
    let mut patience = Patience::default();
    let mut left = frames;
    loop {
        let moved = forwarder.forward().expect("the queues are enabled");
        left = left.saturating_sub(moved.sent as u64);
        if left == 0 {
            return;
        }
        if moved.received != 0 || moved.sent != 0 {
            patience.reset();
        } else {
            patience.wait();
        }
    }
}

/// Checks that all frames were stored and are on the wire. Compares the first and the last one.
fn check(device: &Device, frame: &[u8], frames: u64) {
    let tally = device.rx.tally();
    assert_eq!((tally.offered, tally.stored), (frames, frames));
    assert_eq!((tally.dropped, tally.oversize), (0, 0));
    assert_eq!(device.wire.len() as u64, frames);
    let last = device.wire.len() - 1;
    assert!([0, last].iter().all(|i| device.wire.frame(*i) == frame));
}
