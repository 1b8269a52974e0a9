//! Counters that one thread writes and others read.

use crate::batches::RxDevice;
use crate::ffi::{self, Handle};
use crate::results::{MakeError, is_done};
use std::cell::UnsafeCell;

/// How many counters a set has.
pub const COUNTERS: usize = 8;

/// Eight counters, to be written by one thread. What they count is up to the program, such as frames taken, posted or sent.
pub struct Counters {
    handle: Box<UnsafeCell<Handle>>,
}

/// Reads counters that another thread may be writing. No counter falls from one reading to the next.
pub struct CounterReader {
    handle: Box<UnsafeCell<Handle>>,
}

// SAFETY: a handle of the library may go to another thread between two calls.
unsafe impl Send for Counters {}
// SAFETY: as for `Counters`.
unsafe impl Send for CounterReader {}

impl Counters {
    /// Makes eight counters, all 0.
    ///
    /// ```
    /// use poll82599::Counters;
    ///
    /// let mut sent = Counters::new()?;
    /// let reader = sent.reader()?;
    /// let driver = std::thread::spawn(move || {
    ///     let mut reader = reader;
    ///     while reader.get(0) != Some(100) {
    ///         std::thread::yield_now();
    ///     }
    /// });
    /// for frames in 1..=100 {
    ///     assert!(sent.set(0, frames));
    /// }
    /// driver.join().unwrap();
    /// # Ok::<(), Box<dyn std::error::Error>>(())
    /// ```
    pub fn new() -> Result<Counters, MakeError> {
        let counters = Counters { handle: Box::new(Handle::empty()) };
        // SAFETY: the handle is empty.
        match unsafe { ffi::poll82599_counters_new(counters.handle.get()) } {
            0 => Ok(counters),
            refusal => Err(MakeError::of(refusal)),
        }
    }

    /// Makes a reader. No counter that it reads is below what it is now.
    pub fn reader(&mut self) -> Result<CounterReader, MakeError> {
        let reader = CounterReader { handle: Box::new(Handle::empty()) };
        // SAFETY: one handle is full, the other empty, and only this call uses them.
        match unsafe { ffi::poll82599_counters_reader(self.handle.get(), reader.handle.get()) } {
            0 => Ok(reader),
            refusal => Err(MakeError::of(refusal)),
        }
    }

    /// Writes counter `at`. Returns false if `at` is not below 8, or the counter is above `number`.
    pub fn set(&mut self, at: usize, number: u64) -> bool {
        // SAFETY: the handle is full, and only this call uses it.
        is_done(unsafe { ffi::poll82599_counters_set(self.handle.get(), at, number) })
    }

    /// Writes a device's counts to counters 0 to 3, in this order: stored, dropped, oversize, offered. Returns false if a counter is
    /// above its count.
    pub fn publish(&mut self, device: &mut RxDevice) -> bool {
        let counts = device.counts();
        let numbers = [counts.stored, counts.dropped, counts.oversize, counts.offered];
        (0..).zip(numbers).all(|(at, number)| self.set(at, number))
    }
}

impl CounterReader {
    /// Reads counter `at`, or `None` if `at` is not below 8.
    pub fn get(&mut self, at: usize) -> Option<u64> {
        let mut number = 0;
        // SAFETY: the handle is full, and only this call uses it and the number.
        is_done(unsafe { ffi::poll82599_counters_get(self.handle.get(), at, &mut number) }).then_some(number)
    }
}

impl Drop for Counters {
    fn drop(&mut self) {
        // SAFETY: no other call uses the handle. An empty one stays as it is.
        unsafe { ffi::poll82599_counters_close(self.handle.get()) };
    }
}

impl Drop for CounterReader {
    fn drop(&mut self) {
        // SAFETY: as for `Counters`.
        unsafe { ffi::poll82599_counters_close(self.handle.get()) };
    }
}
