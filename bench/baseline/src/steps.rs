//! The cost of single steps on a word.

use std::hint::{black_box, spin_loop};
use std::sync::atomic::{AtomicU64, Ordering::SeqCst};
use std::thread;
use std::time::Instant;

const ROUNDS: u64 = 2_000_000;

/// Prints the nanoseconds of a store and of a load on one thread, and of handing a word over to another
/// thread that waits for it.
pub fn print() {
    let word = AtomicU64::new(0);
    // The compiler must not know that no other thread reads it.
    let word = black_box(&word);
    println!("store {:.1}", each(|round| word.store(round, SeqCst)));
    println!(
        "load {:.1}",
        each(|_| {
            black_box(word.load(SeqCst));
        })
    );
    println!("hand-over {:.1}", hand_over());
}

fn each(mut step: impl FnMut(u64)) -> f64 {
    let start = Instant::now();
    for round in 0..ROUNDS {
        step(round);
    }
    start.elapsed().as_nanos() as f64 / ROUNDS as f64
}

/// Two threads store the next number in turn, each as soon as it sees the other's.
fn hand_over() -> f64 {
    let word = AtomicU64::new(0);
    let wait_for = |number| {
        while word.load(SeqCst) != number {
            spin_loop();
        }
    };
    let there_and_back = thread::scope(|scope| {
        scope.spawn(|| {
            for round in 0..ROUNDS {
                wait_for(2 * round + 1);
                word.store(2 * round + 2, SeqCst);
            }
        });
        each(|round| {
            word.store(2 * round + 1, SeqCst);
            wait_for(2 * round + 2);
        })
    });
    there_and_back / 2.0
}
