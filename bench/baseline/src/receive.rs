//! A run of a receive ring.

use crate::buffer::Buffer;
use crate::patience::Patience;
use crate::ring::{Controller, Driver, Poll, Ring};
use crate::words::{Load, Tally};
use std::thread;
use std::time::{Duration, Instant};

/// Passes the frames. Returns the time.
pub fn run(load: &Load, batch: usize) -> Duration {
    let mut ring = Ring::new(load.ring);
    let (mut driver, controller) = ring.ends();
    for number in 0..driver.room() {
        driver.post(Buffer::new(number as u16));
    }
    driver.publish();
    let start = Instant::now();
    let taken = thread::scope(|scope| {
        scope.spawn(|| control(controller, load));
        drive(driver, load, batch)
    });
    let spent = start.elapsed();
    assert_eq!(taken, load.tally());
    spent
}

/// Stores the frames, each as soon as a descriptor is free.
fn control(mut end: Controller, load: &Load) {
    let frame = load.frame();
    let mut patience = Patience::default();
    let mut stored = 0;
    while stored < load.frames {
        if end.known() == 0 && end.look() == 0 {
            patience.wait();
            continue;
        }
        patience.reset();
        let mut buffer = end.fetch();
        buffer.fill(&frame);
        end.write_back(buffer, true);
        stored += 1;
    }
}

/// Takes the frames, posts each buffer again, and publishes once a batch.
fn drive(mut end: Driver, load: &Load, batch: usize) -> Tally {
    let mut patience = Patience::default();
    let mut taken = Tally::default();
    while taken.frames < load.frames {
        if take_batch(&mut end, batch, &mut taken) == 0 {
            patience.wait();
        } else {
            patience.reset();
            end.publish();
        }
    }
    taken
}

/// Takes up to `batch` frames. Returns how many.
fn take_batch(end: &mut Driver, batch: usize, taken: &mut Tally) -> usize {
    for got in 0..batch {
        let Poll::Segment {
            mut buffer,
            length,
            eop,
        } = end.poll()
        else {
            return got;
        };
        taken.frames += u64::from(eop);
        taken.bytes += u64::from(length);
        taken.first_bytes += u64::from(buffer.bytes()[0]);
        buffer.clear();
        end.post(buffer);
    }
    batch
}
