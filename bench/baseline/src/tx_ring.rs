//! A transmit ring that a driver and a controller share without a lock. One side at a time reads and writes a slot: the
//! driver from cleaning a descriptor to posting it again, the controller from fetching it to storing the head. In between
//! neither does.

use crate::buffer::Buffer;
use crate::ring::{self, DISABLE_ASKED, DISABLED, ENABLE_ASKED, ENABLED};
use crate::table::{Register, Table};
use std::collections::VecDeque;

/// A descriptor's word, without EOP, RS and the two lengths: DTYP 3, IFCS, DEXT.
const KIND: u64 = (3 << 20) + (1 << 25) + (1 << 29);

/// The descriptor ends a frame.
const EOP: u64 = 1 << 24;

/// The descriptor asks for a report.
const RS: u64 = 1 << 27;

/// The position of the frame's length in a descriptor.
const PAYLEN_SHIFT: u32 = 46;

/// The word of a reported descriptor: done.
const DD: u64 = 1 << 32;

/// How the controller reports that frames are sent.
#[derive(Clone, Copy, PartialEq, Eq)]
pub enum Completion {
    /// By DD in the descriptor that asked for the report.
    Status,
    /// By its head, in a separate word.
    Head,
}

pub struct TxRing {
    table: Table,
    completion: Completion,
}

impl TxRing {
    /// Makes a ring of `size` descriptors, a power of two from 8 to 4,096. It is not enabled.
    pub fn new(size: usize, completion: Completion) -> Self {
        TxRing {
            table: Table::new(size),
            completion,
        }
    }

    /// The two ends. They borrow the ring mutably, so there is only one of each.
    pub fn ends(&mut self) -> (Driver<'_>, Controller<'_>) {
        let (table, completion) = (&self.table, self.completion);
        let driver = Driver {
            table,
            completion,
            on: false,
            fill: 0,
            next: 0,
            out: 0,
            seen: 0,
            done: 0,
            asked: VecDeque::with_capacity(table.size()),
        };
        let controller = Controller {
            table,
            completion,
            serving: false,
            serve: 0,
            last: 0,
            ready: 0,
            owed: false,
            asks: false,
        };
        (driver, controller)
    }
}

/// The driver's end.
pub struct Driver<'a> {
    table: &'a Table,
    completion: Completion,
    // whether the driver saw the queue enabled
    on: bool,
    fill: usize,
    next: usize,
    out: usize,
    // all places before this one are known to be reported
    seen: usize,
    done: usize,
    // the places of the outstanding reports, the oldest first
    asked: VecDeque<usize>,
}

impl Driver<'_> {
    pub fn ask_enable(&mut self) {
        self.table.store_register(Register::Control, ENABLE_ASKED);
    }

    /// Checks whether the queue is enabled.
    pub fn look_on(&mut self) -> bool {
        self.on = self.table.load_register(Register::Control) == ENABLED;
        self.on
    }

    /// Whether the driver saw the queue enabled.
    pub fn is_on(&self) -> bool {
        self.on
    }

    pub fn ask_disable(&mut self) {
        self.table.store_register(Register::Control, DISABLE_ASKED);
        self.on = false;
    }

    /// Checks whether the queue is disabled.
    pub fn look_off(&self) -> bool {
        self.table.load_register(Register::Control) == DISABLED
    }

    pub fn size(&self) -> usize {
        self.table.size()
    }

    /// How many descriptors can be posted.
    pub fn room(&self) -> usize {
        self.table.size() - 1 - self.out
    }

    /// Whether all posted descriptors are cleaned.
    pub fn is_clean(&self) -> bool {
        self.out == 0
    }

    /// Posts a buffer of a frame of `paylen` bytes. There must be room.
    pub fn post(&mut self, buffer: Buffer, eop: bool, rs: bool, paylen: u16) {
        let word = buffer.len() as u64
            + KIND
            + if eop { EOP } else { 0 }
            + if rs { RS } else { 0 }
            + (u64::from(paylen) << PAYLEN_SHIFT);
        // SAFETY: the place is not posted, so it belongs to the driver until the tail is stored.
        unsafe { self.table.put_in(self.fill, buffer) };
        self.table.store(self.fill, word);
        if rs {
            self.asked.push_back(self.fill);
        }
        self.fill = self.table.after(self.fill);
        self.out += 1;
    }

    /// Publishes the posted descriptors.
    pub fn publish(&mut self) {
        self.table.store_register(Register::Tail, self.fill as u64);
    }

    /// Checks whether the oldest outstanding report is made. Then all descriptors up to it can be cleaned.
    pub fn poll_report(&mut self) -> bool {
        let Some(&place) = self.asked.front() else {
            return false;
        };
        let past = self.table.after(place);
        let covered = self.table.between(self.seen, past);
        let made = match self.completion {
            Completion::Status => self.table.load(place) & DD != 0,
            Completion::Head => {
                let head = self.table.load_register(Register::Reported) as usize;
                self.table.between(self.seen, head) >= covered
            }
        };
        if made {
            self.asked.pop_front();
            self.seen = past;
            self.done += covered;
        }
        made
    }

    /// How many buffers are reported and not cleaned.
    pub fn reported(&self) -> usize {
        self.done
    }

    /// Takes the oldest buffer back. At least one must be reported.
    pub fn clean(&mut self) -> Buffer {
        self.table.store(self.next, 0);
        // SAFETY: the place is reported, so the controller has given it back.
        let buffer = unsafe { self.table.take_out(self.next) };
        self.next = self.table.after(self.next);
        self.out -= 1;
        self.done -= 1;
        buffer
    }
}

/// The controller's end.
pub struct Controller<'a> {
    table: &'a Table,
    completion: Completion,
    serving: bool,
    serve: usize,
    last: usize,
    ready: usize,
    owed: bool,
    asks: bool,
}

impl Controller<'_> {
    /// Enables or disables the queue, if the driver asks for it.
    pub fn answer(&mut self) {
        self.serving = ring::answer(self.table, self.serving);
    }

    pub fn is_serving(&self) -> bool {
        self.serving
    }

    /// How many descriptors are known to be ready.
    pub fn ready(&self) -> usize {
        self.ready
    }

    /// Loads the tail. Returns how many descriptors are ready.
    pub fn look(&mut self) -> usize {
        let tail = self.table.load_register(Register::Tail) as usize;
        self.ready = self.table.between(self.serve, tail);
        self.ready
    }

    /// Takes the buffer of the next descriptor. Also returns whether it ends its frame. At least one must be ready.
    pub fn fetch(&mut self) -> (Buffer, bool) {
        let word = self.table.load(self.serve);
        self.asks = word & RS != 0;
        // SAFETY: the place is before a published tail, so the driver has given it to the controller.
        let buffer = unsafe { self.table.take_out(self.serve) };
        (buffer, word & EOP != 0)
    }

    /// Gives the fetched buffer back as sent, and stores the head.
    pub fn give_back(&mut self, buffer: Buffer) {
        // SAFETY: the place was fetched, and belongs to the controller until the store.
        unsafe { self.table.put_in(self.serve, buffer) };
        self.sent(self.asks);
    }

    /// Fetches the next descriptor, appends its buffer's bytes to `bytes`, and gives it back. The buffer stays in its
    /// slot. Returns whether it ends its frame. At least one must be ready.
    pub fn send(&mut self, bytes: &mut Vec<u8>) -> bool {
        let word = self.table.load(self.serve);
        // SAFETY: the place is before a published tail, and belongs to the controller until the store.
        bytes.extend_from_slice(unsafe { self.table.slot(self.serve) }.bytes());
        self.sent(word & RS != 0);
        word & EOP != 0
    }

    /// Stores the head past the next descriptor.
    fn sent(&mut self, asks: bool) {
        self.last = self.serve;
        self.serve = self.table.after(self.serve);
        self.table.store_register(Register::Head, self.serve as u64);
        self.ready -= 1;
        self.owed = asks;
    }

    /// Whether the last descriptor that was sent asked for a report that is not made yet.
    pub fn owes_report(&self) -> bool {
        self.owed
    }

    /// Reports the last descriptor that was sent, and thereby all before it.
    pub fn report(&mut self) {
        match self.completion {
            Completion::Status => self.table.store(self.last, DD),
            Completion::Head => self
                .table
                .store_register(Register::Reported, self.serve as u64),
        }
        self.owed = false;
    }
}
