//! Four numbers under a sequence lock, with the steps of the proved cell, each sequentially consistent. The version is
//! odd while a writer writes. A reader reads without a lock, and takes the lock only if a writer interfered.

use std::sync::atomic::{AtomicU64, Ordering::SeqCst};
use std::{hint, iter, thread};

pub type Numbers = [u64; 4];

/// The version and the four numbers.
const WORDS: usize = 5;

/// Words that threads share: an array, or a table whose length is known only at run time, so that each access is checked.
pub trait Words {
    fn zeros() -> Self;
    fn word(&self, i: usize) -> &AtomicU64;
}

pub type Array = [AtomicU64; WORDS];

impl Words for Array {
    fn zeros() -> Self {
        Default::default()
    }

    fn word(&self, i: usize) -> &AtomicU64 {
        &self[i]
    }
}

pub type Table = Box<[AtomicU64]>;

impl Words for Table {
    fn zeros() -> Self {
        iter::repeat_with(Default::default).take(hint::black_box(WORDS)).collect()
    }

    fn word(&self, i: usize) -> &AtomicU64 {
        &self[i]
    }
}

/// The version is word 0.
pub struct Cell<W> {
    words: W,
}

/// Waits a little longer each time, and finally yields.
struct Backoff {
    step: u32,
}

impl Backoff {
    fn snooze(&mut self) {
        if self.step <= 6 {
            for _ in 0..1 << self.step {
                hint::spin_loop();
            }
        } else {
            thread::yield_now();
        }
        if self.step <= 10 {
            self.step += 1;
        }
    }
}

impl<W: Words> Cell<W> {
    pub fn new() -> Self {
        Cell { words: W::zeros() }
    }

    fn version(&self) -> &AtomicU64 {
        self.words.word(0)
    }

    fn gather(&self) -> Numbers {
        std::array::from_fn(|i| self.words.word(1 + i).load(SeqCst))
    }

    /// Takes the lock. Returns the version, which is odd.
    fn lock(&self) -> (u64, Numbers) {
        let mut backoff = Backoff { step: 0 };
        loop {
            let version = self.version().load(SeqCst);
            if version % 2 == 0
                && version < u64::MAX - 1
                && self.version().compare_exchange(version, version + 1, SeqCst, SeqCst).is_ok()
            {
                return (version + 1, self.gather());
            }
            backoff.snooze();
        }
    }

    /// Writes the numbers. Returns the previous ones.
    pub fn write(&self, numbers: Numbers) -> Numbers {
        let (version, old) = self.lock();
        for (i, number) in numbers.into_iter().enumerate() {
            self.words.word(1 + i).store(number, SeqCst);
        }
        self.version().store(version + 1, SeqCst);
        old
    }

    pub fn read(&self) -> Numbers {
        let version = self.version().load(SeqCst);
        if version % 2 == 0 {
            let numbers = self.gather();
            if self.version().load(SeqCst) == version {
                return numbers;
            }
        }
        let (version, numbers) = self.lock();
        self.version().store(version - 1, SeqCst);
        numbers
    }
}
