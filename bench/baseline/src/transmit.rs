//! A run of a transmit ring.

use crate::buffer::Buffer;
use crate::patience::Patience;
use crate::tx_ring::{Completion, Controller, Driver, TxRing};
use crate::words::{Load, Tally};
use std::thread;
use std::time::{Duration, Instant};

/// Sends the frames. Returns the time.
pub fn run(load: &Load, report: usize, completion: Completion) -> Duration {
    let mut ring = TxRing::new(load.ring, completion);
    let (driver, controller) = ring.ends();
    let stock: Vec<Buffer> = (0..load.ring)
        .rev()
        .map(|number| Buffer::new(number as u16))
        .collect();
    let start = Instant::now();
    let (_stock, sent) = thread::scope(|scope| {
        let sending = scope.spawn(|| control(controller, load));
        let stock = drive(driver, stock, load, report);
        let sent = sending
            .join()
            .expect("the controller's thread ends by itself");
        (stock, sent)
    });
    let spent = start.elapsed();
    assert_eq!(sent, load.tally());
    spent
}

/// Answers the enabling, and sends the frames, each as soon as it is ready.
fn control(mut end: Controller, load: &Load) -> Tally {
    let mut patience = Patience::default();
    while !end.is_serving() {
        patience.wait();
        end.answer();
    }
    let mut sent = Tally::default();
    while sent.frames < load.frames {
        if end.ready() == 0 && end.look() == 0 {
            patience.wait();
            continue;
        }
        patience.reset();
        let (buffer, _eop) = end.fetch();
        sent.add(buffer.bytes());
        end.give_back(buffer);
        if end.owes_report() {
            end.report();
        }
    }
    sent
}

/// How many frames are still to be posted, and which of them ask for a report.
struct Course {
    left: u64,
    every: usize,
    until: usize,
}

impl Course {
    /// Advances to the next frame. Returns whether it asks for a report.
    fn next(&mut self) -> bool {
        self.left -= 1;
        self.until -= 1;
        let due = self.until == 0;
        if due {
            self.until = self.every;
        }
        due || self.left == 0
    }
}

/// Enables the queue, posts the frames as there is room, and cleans the reported ones. At the end all buffers are in the
/// stock again.
fn drive(mut end: Driver, mut stock: Vec<Buffer>, load: &Load, report: usize) -> Vec<Buffer> {
    let frame = load.frame();
    let mut patience = Patience::default();
    end.ask_enable();
    while !end.look_on() {
        patience.wait();
    }
    let mut course = Course {
        left: load.frames,
        every: report,
        until: report,
    };
    while course.left > 0 || !end.is_clean() {
        post_more(&mut end, &mut stock, &frame, &mut course);
        if clean(&mut end, &mut stock) {
            patience.reset();
        } else {
            patience.wait();
        }
    }
    stock
}

/// Posts as many frames as there is room for, and publishes them.
fn post_more(end: &mut Driver, stock: &mut Vec<Buffer>, frame: &[u8], course: &mut Course) {
    let more = (end.room() as u64).min(course.left);
    if more == 0 {
        return;
    }
    for _ in 0..more {
        let mut buffer = stock.pop().expect("as many buffers as the ring has places");
        buffer.fill(frame);
        let asks = course.next();
        end.post(buffer, true, asks, frame.len() as u16);
    }
    end.publish();
}

/// Checks the oldest outstanding report, and takes back the buffers that it covers.
fn clean(end: &mut Driver, stock: &mut Vec<Buffer>) -> bool {
    if !end.poll_report() {
        return false;
    }
    for _ in 0..end.reported() {
        let mut buffer = end.clean();
        buffer.clear();
        stock.push(buffer);
    }
    true
}
