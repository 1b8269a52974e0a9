//! A receive ring that a driver and a controller share without a lock. One side at a time reads and writes a slot: the
//! driver from taking a descriptor to posting it again, the controller from fetching it to writing it back. In between
//! neither does.

use crate::buffer::Buffer;
use crate::table::{Register, Table};

/// Bit 0 of a written-back word: the descriptor is done.
const DD: u64 = 1;

/// Bit 1 of a written-back word: the segment ends a frame.
const EOP: u64 = 2;

/// The position of the segment's length, 16 bits, in a written-back word.
const LENGTH_SHIFT: u32 = 32;

/// The values of the control word. The driver stores requests, and the controller stores answers.
pub const DISABLED: u64 = 0;
pub const ENABLE_ASKED: u64 = 1;
pub const ENABLED: u64 = 2;
pub const DISABLE_ASKED: u64 = 3;

pub struct Ring {
    table: Table,
}

impl Ring {
    /// Makes a ring of `size` descriptors, a power of two from 8 to 4,096.
    pub fn new(size: usize) -> Self {
        Ring {
            table: Table::new(size),
        }
    }

    /// The two ends. They borrow the ring mutably, so there is only one of each.
    pub fn ends(&mut self) -> (Driver<'_>, Controller<'_>) {
        let table = &self.table;
        let driver = Driver {
            table,
            fill: 0,
            next: 0,
            on: false,
        };
        let controller = Controller {
            table,
            next: 0,
            known: 0,
            serving: false,
        };
        (driver, controller)
    }
}

/// Answers the request of a queue. Returns whether the queue is then enabled.
pub fn answer(table: &Table, serving: bool) -> bool {
    match table.load_register(Register::Control) {
        ENABLE_ASKED => {
            table.store_register(Register::Control, ENABLED);
            true
        }
        DISABLE_ASKED => {
            table.store_register(Register::Control, DISABLED);
            false
        }
        _ => serving,
    }
}

/// The result of a poll.
pub enum Poll {
    /// Nothing is posted.
    Empty,
    /// The oldest descriptor is not written back.
    NotDone,
    /// A segment: its buffer, its length, and whether it ends a frame.
    Segment {
        buffer: Buffer,
        length: u16,
        eop: bool,
    },
}

/// The driver's end.
pub struct Driver<'a> {
    table: &'a Table,
    fill: usize,
    next: usize,
    // whether the driver saw the queue enabled
    on: bool,
}

impl Driver<'_> {
    pub fn ask_enable(&mut self) {
        self.table.store_register(Register::Control, ENABLE_ASKED);
    }

    /// Checks whether the queue is enabled.
    pub fn look_on(&mut self) -> bool {
        self.on = self.table.load_register(Register::Control) == ENABLED;
        self.on
    }

    /// Whether the driver saw the queue enabled.
    pub fn is_on(&self) -> bool {
        self.on
    }

    /// Whether the controller said that it stores no more.
    pub fn is_quiet(&self) -> bool {
        self.table.load_register(Register::Quiet) == 1
    }

    pub fn ask_disable(&mut self) {
        self.table.store_register(Register::Control, DISABLE_ASKED);
        self.on = false;
    }

    /// Checks whether the queue is disabled.
    pub fn look_off(&self) -> bool {
        self.table.load_register(Register::Control) == DISABLED
    }

    pub fn size(&self) -> usize {
        self.table.size()
    }

    /// How many descriptors can be posted.
    pub fn room(&self) -> usize {
        self.table.size() - 1 - self.table.between(self.next, self.fill)
    }

    /// Posts an empty buffer. There must be room.
    pub fn post(&mut self, buffer: Buffer) {
        // SAFETY: the place is not posted, so it belongs to the driver until the store.
        unsafe { self.table.put_in(self.fill, buffer) };
        self.table.store(self.fill, 0);
        self.fill = self.table.after(self.fill);
    }

    /// Publishes the posted descriptors.
    pub fn publish(&mut self) {
        self.table.store_register(Register::Tail, self.fill as u64);
    }

    /// Takes the oldest segment, if it is written back.
    pub fn poll(&mut self) -> Poll {
        if self.next == self.fill {
            return Poll::Empty;
        }
        let word = self.table.load(self.next);
        if word & DD == 0 {
            return Poll::NotDone;
        }
        // SAFETY: DD is set, so the controller has given the place back.
        let buffer = unsafe { self.table.take_out(self.next) };
        self.next = self.table.after(self.next);
        Poll::Segment {
            buffer,
            length: (word >> LENGTH_SHIFT) as u16,
            eop: word & EOP != 0,
        }
    }
}

/// The controller's end.
pub struct Controller<'a> {
    table: &'a Table,
    next: usize,
    known: usize,
    serving: bool,
}

impl Controller<'_> {
    /// Enables or disables the queue, if the driver asks for it.
    pub fn answer(&mut self) {
        self.serving = answer(self.table, self.serving);
    }

    /// Says that no more is stored.
    pub fn set_quiet(&mut self) {
        self.table.store_register(Register::Quiet, 1);
    }

    pub fn is_serving(&self) -> bool {
        self.serving
    }

    pub fn size(&self) -> usize {
        self.table.size()
    }

    /// Stores the head.
    pub fn set_head(&mut self) {
        self.table.store_register(Register::Head, self.next as u64);
    }

    /// How many descriptors are known to be free.
    pub fn known(&self) -> usize {
        self.known
    }

    /// Loads the tail. Returns how many descriptors are free.
    pub fn look(&mut self) -> usize {
        let tail = self.table.load_register(Register::Tail) as usize;
        self.known = self.table.between(self.next, tail);
        self.known
    }

    /// Takes the buffer of the next free descriptor. At least one must be known to be free.
    pub fn fetch(&mut self) -> Buffer {
        let _word = self.table.load(self.next);
        // SAFETY: the place is before a published tail, so the driver has given it to the controller.
        unsafe { self.table.take_out(self.next) }
    }

    /// Writes the fetched descriptor back, with the buffer's bytes.
    pub fn write_back(&mut self, buffer: Buffer, eop: bool) {
        let length = buffer.bytes().len();
        // SAFETY: the place was fetched, and belongs to the controller until the store.
        unsafe { self.table.put_in(self.next, buffer) };
        self.give(length, eop);
    }

    /// Fetches the next free descriptor and writes it back with these bytes. The buffer stays in its slot. At least one
    /// descriptor must be known to be free.
    pub fn store(&mut self, bytes: &[u8], eop: bool) {
        let _word = self.table.load(self.next);
        // SAFETY: the place is before a published tail, and belongs to the controller until the store.
        unsafe { self.table.slot(self.next) }.fill(bytes);
        self.give(bytes.len(), eop);
    }

    /// Stores the write-back of the next descriptor.
    fn give(&mut self, length: usize, eop: bool) {
        let eop = if eop { EOP } else { 0 };
        let word = DD + eop + ((length as u64) << LENGTH_SHIFT);
        self.table.store(self.next, word);
        self.next = self.table.after(self.next);
        self.known -= 1;
    }
}
