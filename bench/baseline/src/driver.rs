//! The drivers of both directions, which take and post packets in batches.

use crate::packet::{Packet, STASH_BUFFERS, Stash};
use crate::{ring, tx_ring};
use ring::Poll;

/// The most packets of a batch, and of a list of packets.
pub const MOST_BATCH: usize = 32;

/// One in this many frames asks for a report, and so does the last frame of each batch.
const REPORT_EVERY: u16 = 32;

/// Why a call was refused.
#[derive(Debug)]
pub enum Refusal {
    QueueOff,
    TooLong,
}

/// A driver of a receive queue, with the segments of a frame that were taken before its last one.
pub struct RxDriver<'a> {
    end: ring::Driver<'a>,
    chain: Packet,
    batch: usize,
}

impl<'a> RxDriver<'a> {
    pub fn new(end: ring::Driver<'a>, batch: usize) -> Self {
        RxDriver {
            end,
            chain: Packet::default(),
            batch,
        }
    }

    /// Asks for the queue to be enabled, and later checks whether it is.
    pub fn ask_enable(&mut self) {
        self.end.ask_enable();
    }

    pub fn look_on(&mut self) -> bool {
        self.end.look_on()
    }

    pub fn is_quiet(&self) -> bool {
        self.end.is_quiet()
    }

    pub fn ask_disable(&mut self) {
        self.end.ask_disable();
    }

    pub fn look_off(&self) -> bool {
        self.end.look_off()
    }

    /// The most packets that a call takes.
    pub fn batch(&self) -> usize {
        self.batch
    }

    /// The number of descriptors.
    pub fn size(&self) -> usize {
        self.end.size()
    }

    /// Whether segments of an unfinished frame were taken.
    pub fn has_chain(&self) -> bool {
        !self.chain.is_empty()
    }

    /// Takes up to a batch of packets that are done, and posts buffers of the stash in their place.
    pub fn rx_batch(
        &mut self,
        stash: &mut Stash,
        packets: &mut Vec<Packet>,
    ) -> Result<usize, Refusal> {
        if !self.end.is_on() {
            return Err(Refusal::QueueOff);
        }
        let had = stash.len();
        let count = self.take(stash, packets);
        if self.end.is_on() {
            self.fill(stash);
            if stash.len() < had {
                self.end.publish();
            }
        }
        Ok(count)
    }

    fn take(&mut self, stash: &mut Stash, packets: &mut Vec<Packet>) -> usize {
        let mut count = 0;
        while count < self.batch && packets.len() < MOST_BATCH {
            let Poll::Segment { buffer, eop, .. } = self.end.poll() else {
                break;
            };
            if self.end.is_on()
                && let Some(empty) = stash.take()
            {
                self.end.post(empty);
            }
            self.chain.push_back(buffer);
            if eop {
                packets.push(std::mem::take(&mut self.chain));
                count += 1;
            }
        }
        count
    }

    /// Posts buffers of the stash while the ring has room, and publishes them.
    pub fn post_all(&mut self, stash: &mut Stash) {
        self.fill(stash);
        self.end.publish();
    }

    /// Posts buffers of the stash while the ring has room.
    fn fill(&mut self, stash: &mut Stash) {
        for _ in 0..self.end.room() {
            let Some(buffer) = stash.take() else {
                return;
            };
            self.end.post(buffer);
        }
    }
}

/// A driver of a transmit queue, with the number of its frames modulo `REPORT_EVERY`.
pub struct TxDriver<'a> {
    end: tx_ring::Driver<'a>,
    frames: u16,
}

impl<'a> TxDriver<'a> {
    pub fn new(end: tx_ring::Driver<'a>) -> Self {
        TxDriver { end, frames: 0 }
    }

    pub fn ask_enable(&mut self) {
        self.end.ask_enable();
    }

    pub fn look_on(&mut self) -> bool {
        self.end.look_on()
    }

    pub fn ask_disable(&mut self) {
        self.end.ask_disable();
    }

    pub fn look_off(&self) -> bool {
        self.end.look_off()
    }

    /// Whether all posted descriptors are cleaned.
    pub fn is_clean(&self) -> bool {
        self.end.is_clean()
    }

    /// Takes back the buffers of reported frames. Then posts and publishes as many of the first packets as fit.
    pub fn tx_batch(
        &mut self,
        stash: &mut Stash,
        packets: &mut Vec<Packet>,
    ) -> Result<usize, Refusal> {
        if !self.end.is_on() {
            return Err(Refusal::QueueOff);
        }
        self.clean(stash);
        if let Some(first) = packets.first()
            && first.segments() >= self.end.size()
        {
            return Err(Refusal::TooLong);
        }
        if !self.end.is_on() {
            return Ok(0);
        }
        let count = fitting(packets, self.end.room());
        if count == 0 {
            return Ok(0);
        }
        let mut left = count;
        for packet in packets.drain(..count) {
            left -= 1;
            self.frames += 1;
            if self.frames == REPORT_EVERY {
                self.frames = 0;
            }
            post_frame(&mut self.end, packet, self.frames == 0 || left == 0);
        }
        self.end.publish();
        Ok(count)
    }

    /// Takes back the buffers of reported frames, until the stash is full or no further report is made.
    fn clean(&mut self, stash: &mut Stash) {
        loop {
            for _ in 0..self.end.reported().min(STASH_BUFFERS - stash.len()) {
                stash.put(self.end.clean());
            }
            if stash.is_full() || !self.end.poll_report() {
                return;
            }
        }
    }
}

/// How many of the first packets fit into this many descriptors together.
fn fitting(packets: &[Packet], room: usize) -> usize {
    let mut left = room;
    for (count, packet) in packets.iter().enumerate() {
        if left < packet.segments() {
            return count;
        }
        left -= packet.segments();
    }
    packets.len()
}

/// Posts the buffers of a packet in order. The last one ends the frame and may ask for a report.
fn post_frame(end: &mut tx_ring::Driver, mut packet: Packet, rs: bool) {
    let length = packet.len() as u16;
    while let Some(buffer) = packet.pop_front() {
        let eop = packet.segments() == 0;
        end.post(buffer, eop, rs && eop, length);
    }
}
