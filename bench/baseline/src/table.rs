//! The part that both rings share: words, and a slot for the buffer of each descriptor.
//!
//! A ring has `n` descriptors of one word each. After them come the head, the tail, the control word, the quiet word of a
//! receive ring's controller, and the word to which a transmit ring reports its head. Every step on a word is one
//! sequentially consistent load or store, as in the proved rings.

use crate::buffer::Buffer;
use std::cell::UnsafeCell;
use std::sync::atomic::{AtomicU64, Ordering::SeqCst};

/// The words after the descriptors.
#[derive(Clone, Copy)]
pub enum Register {
    Head,
    Tail,
    Control,
    Quiet,
    Reported,
}

pub struct Table {
    size: usize,
    words: Box<[AtomicU64]>,
    slots: Box<[UnsafeCell<Option<Buffer>>]>,
}

// SAFETY: a slot is reached only through the two ends of a ring, and the words say which of them may.
unsafe impl Sync for Table {}

impl Table {
    /// Makes a table of `size` descriptors, a power of two from 8 to 4,096.
    pub fn new(size: usize) -> Self {
        Table {
            size,
            words: (0..size + 5).map(|_| AtomicU64::new(0)).collect(),
            slots: (0..size).map(|_| UnsafeCell::new(None)).collect(),
        }
    }

    pub fn size(&self) -> usize {
        self.size
    }

    pub fn load(&self, place: usize) -> u64 {
        self.words[place].load(SeqCst)
    }

    pub fn store(&self, place: usize, word: u64) {
        self.words[place].store(word, SeqCst);
    }

    pub fn load_register(&self, register: Register) -> u64 {
        self.load(self.size + register as usize)
    }

    pub fn store_register(&self, register: Register, word: u64) {
        self.store(self.size + register as usize, word);
    }

    pub fn after(&self, place: usize) -> usize {
        (place + 1) & (self.size - 1)
    }

    /// The number of places from one to another.
    pub fn between(&self, from: usize, to: usize) -> usize {
        to.wrapping_sub(from) & (self.size - 1)
    }

    /// # Safety
    /// The caller is the only end that may use the slot, and the slot is empty.
    #[inline]
    pub unsafe fn put_in(&self, place: usize, buffer: Buffer) {
        unsafe { self.slots[place].get().write(Some(buffer)) }
    }

    /// # Safety
    /// The caller is the only end that may use the slot, and the slot is full.
    #[inline]
    pub unsafe fn take_out(&self, place: usize) -> Buffer {
        unsafe {
            let slot = &mut *self.slots[place].get();
            slot.take().expect("a slot that changes hands is full")
        }
    }

    /// The buffer in a slot.
    ///
    /// # Safety
    /// The caller is the only end that may use the slot, and the slot is full. It uses the buffer before its next step.
    #[inline]
    #[expect(clippy::mut_from_ref, reason = "the words say who may use a slot")]
    pub unsafe fn slot(&self, place: usize) -> &mut Buffer {
        unsafe {
            let slot = &mut *self.slots[place].get();
            slot.as_mut().expect("a slot that changes hands is full")
        }
    }
}
