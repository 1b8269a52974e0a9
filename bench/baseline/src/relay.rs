//! A run through a receive ring, both drivers and a transmit ring, on one thread.

use crate::forwarder::Forwarder;
use crate::ring::{self, Ring};
use crate::tx_ring::{self, Completion, TxRing};
use crate::words::{Load, Tally};
use std::time::{Duration, Instant};

/// Relays the frames. Returns the time.
pub fn run(load: &Load, batch: usize) -> Duration {
    let mut from = Ring::new(load.ring);
    let mut to = TxRing::new(load.ring, Completion::Status);
    let (rx, mut rx_end) = from.ends();
    let (tx, mut tx_end) = to.ends();
    let mut forwarder = Forwarder::new(rx, tx, batch);
    forwarder.ask_enable();
    rx_end.answer();
    tx_end.answer();
    assert!(forwarder.look_on());
    forwarder.fill(load.ring).expect("the queues are enabled");
    let frame = load.frame();
    let mut tally = Tally::default();
    let start = Instant::now();
    let mut to_store = load.frames;
    let mut to_send = load.frames;
    while to_send > 0 {
        to_store -= store_more(&mut rx_end, &frame, to_store.min(batch as u64));
        let moved = forwarder.forward().expect("the queues are enabled");
        send_ready(&mut tx_end, &mut tally);
        to_send = to_send.saturating_sub(moved.sent as u64);
    }
    let spent = start.elapsed();
    assert_eq!(tally, load.tally());
    spent
}

/// Stores the frame while descriptors are free, at most `most` times. Returns how often.
fn store_more(end: &mut ring::Controller, frame: &[u8], most: u64) -> u64 {
    for stored in 0..most {
        if end.known() == 0 && end.look() == 0 {
            return stored;
        }
        let mut buffer = end.fetch();
        buffer.fill(frame);
        end.write_back(buffer, true);
    }
    most
}

/// Sends the frames that are ready.
fn send_ready(end: &mut tx_ring::Controller, tally: &mut Tally) {
    for _ in 0..end.look() {
        let (buffer, _eop) = end.fetch();
        tally.add(buffer.bytes());
        end.give_back(buffer);
        if end.owes_report() {
            end.report();
        }
    }
}
