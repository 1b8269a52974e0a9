//! The controllers of both directions: they store the frames that are offered, and send frames to a wire.

use crate::{ring, tx_ring};

const LEAST_FRAME: usize = 14;
const MOST_FRAME: usize = 15_000;

/// The result of an offer or a turn.
#[derive(Clone, Copy, Debug, PartialEq, Eq)]
pub enum Offer {
    Off,
    Oversize,
    Stored,
    Dropped,
    Held,
}

/// Counts of the offered frames, by result.
#[derive(Clone, Copy, Debug, Default)]
pub struct Tally {
    pub offered: u64,
    pub stored: u64,
    pub dropped: u64,
    pub oversize: u64,
}

/// The length of a frame is out of range.
#[derive(Debug)]
pub struct FrameLength;

/// The device's side of a receive queue.
pub struct RxController<'a> {
    end: ring::Controller<'a>,
    bsize: usize,
    drop_en: bool,
    tally: Tally,
}

impl<'a> RxController<'a> {
    pub fn new(end: ring::Controller<'a>, bsize: usize, drop_en: bool) -> Self {
        RxController {
            end,
            bsize,
            drop_en,
            tally: Tally::default(),
        }
    }

    /// Answers the driver's request.
    pub fn answer(&mut self) {
        self.end.answer();
    }

    pub fn is_serving(&self) -> bool {
        self.end.is_serving()
    }

    /// Says that no more frames are stored.
    pub fn finish(&mut self) {
        self.end.set_quiet();
    }

    /// Stores a whole frame, if enough descriptors are free.
    pub fn offer(&mut self, frame: &[u8]) -> Result<Offer, FrameLength> {
        if frame.len() < LEAST_FRAME || MOST_FRAME < frame.len() {
            return Err(FrameLength);
        }
        let offer = self.decide(frame);
        let tally = &mut self.tally;
        match offer {
            Offer::Stored => tally.stored += 1,
            Offer::Dropped => tally.dropped += 1,
            Offer::Oversize => tally.oversize += 1,
            Offer::Off | Offer::Held => return Ok(offer),
        }
        tally.offered += 1;
        Ok(offer)
    }

    fn decide(&mut self, frame: &[u8]) -> Offer {
        if !self.end.is_serving() {
            return Offer::Off;
        }
        let needed = frame.len().div_ceil(self.bsize);
        if self.end.size() <= needed {
            return Offer::Oversize;
        }
        if self.end.known() < needed && self.end.look() < needed {
            return if self.drop_en {
                Offer::Dropped
            } else {
                Offer::Held
            };
        }
        let mut rest = frame;
        while self.bsize < rest.len() {
            let (piece, more) = rest.split_at(self.bsize);
            self.end.store(piece, false);
            rest = more;
        }
        self.end.store(rest, true);
        self.end.set_head();
        Offer::Stored
    }

    pub fn tally(&self) -> Tally {
        self.tally
    }
}

/// The frames that were sent, in one block, with the end of each.
#[derive(Default)]
pub struct Wire {
    bytes: Vec<u8>,
    ends: Vec<usize>,
}

impl Wire {
    pub fn len(&self) -> usize {
        self.ends.len()
    }

    /// Removes all frames, and keeps the memory.
    pub fn clear(&mut self) {
        self.bytes.clear();
        self.ends.clear();
    }

    /// The bytes of frame `i`.
    pub fn frame(&self, i: usize) -> &[u8] {
        let start = if i == 0 { 0 } else { self.ends[i - 1] };
        &self.bytes[start..self.ends[i]]
    }

    /// Makes room for the longest frame and its entry. Grows by at least a quarter.
    fn reserve(&mut self) {
        if self.bytes.capacity() - self.bytes.len() < MOST_FRAME {
            let more = (self.bytes.capacity() / 4).max(MOST_FRAME + MOST_FRAME / 2);
            self.bytes.reserve_exact(more);
        }
        if self.ends.len() == self.ends.capacity() {
            let more = (self.ends.capacity() / 4).max(16);
            self.ends.reserve_exact(more);
        }
    }
}

/// The result of a turn.
#[derive(Clone, Copy, Debug, PartialEq, Eq)]
pub enum Turn {
    Off,
    Idle,
    Sent,
}

/// The device's side of a transmit queue.
pub struct TxController<'a> {
    end: tx_ring::Controller<'a>,
}

impl<'a> TxController<'a> {
    pub fn new(end: tx_ring::Controller<'a>) -> Self {
        TxController { end }
    }

    /// Answers the driver's request.
    pub fn answer(&mut self) {
        self.end.answer();
    }

    pub fn is_serving(&self) -> bool {
        self.end.is_serving()
    }

    /// Sends the next frame to the wire, if one is ready.
    pub fn turn(&mut self, wire: &mut Wire) -> Turn {
        if !self.end.is_serving() {
            return Turn::Off;
        }
        if self.end.look() == 0 {
            return Turn::Idle;
        }
        wire.reserve();
        while !self.end.send(&mut wire.bytes) {}
        wire.ends.push(wire.bytes.len());
        if self.end.owes_report() {
            self.end.report();
        }
        Turn::Sent
    }
}
