//! The cost of writing and reading four numbers under a sequence lock in plain Rust. It makes the same turns as
//! `part_bench`.

mod cell;

use cell::{Array, Cell, Numbers, Table, Words};
use std::hint::black_box;
use std::sync::Arc;
use std::time::{Duration, Instant};
use std::{env, process, thread};

fn all_stored(frames: u64) -> Numbers {
    [frames, frames, 0, 0]
}

fn reads_alone<W: Words>(reads: u32) -> Duration {
    let cell = Arc::new(Cell::<W>::new());
    cell.write(all_stored(1));
    let start = Instant::now();
    for _ in 0..reads {
        black_box(cell.read());
    }
    start.elapsed()
}

fn write_all<W: Words>(cell: &Cell<W>, writes: u32) {
    for written in 0..writes {
        cell.write(all_stored(u64::from(written) + 1));
    }
}

fn read_until<W: Words>(cell: &Cell<W>, writes: u32) -> u64 {
    let mut reads = 0;
    loop {
        let now = cell.read();
        reads += 1;
        if u64::from(writes) <= now[0] {
            return reads;
        }
    }
}

fn writes_beside<W: Words + Send + Sync>(writes: u32, readers: u32) -> (Duration, u64) {
    let cell = Arc::new(Cell::<W>::new());
    let start = Instant::now();
    let reads = thread::scope(|scope| {
        let reading: Vec<_> = (0..readers).map(|_| scope.spawn(|| read_until(&cell, writes))).collect();
        write_all(&cell, writes);
        reading.into_iter().map(|reader| reader.join().expect("a reader failed")).sum()
    });
    (start.elapsed(), reads)
}

fn number_of(words: &[String], name: &str) -> Option<u32> {
    let at = words.iter().position(|word| word == name)?;
    words.get(at + 1)?.parse().ok()
}

fn each(spent: Duration, count: f64) -> f64 {
    spent.as_secs_f64() * 1e9 / count
}

fn run<W: Words + Send + Sync>(words: &[String]) {
    if let Some(reads) = number_of(words, "--reads") {
        println!("read ns {:.1}", each(reads_alone::<W>(reads), f64::from(reads)));
        return;
    }
    let (Some(writes), Some(readers)) = (number_of(words, "--writes"), number_of(words, "--readers")) else {
        eprintln!("Usage: counters_baseline --writes N --readers N [--table], or counters_baseline --reads N [--table]");
        process::exit(2);
    };
    let (spent, reads) = writes_beside::<W>(writes, readers);
    println!("readers {readers}");
    println!("write ns {:.1}", each(spent, f64::from(writes)));
    if 0 < readers {
        println!("read ns {:.1}", each(spent, reads as f64 / f64::from(readers)));
    }
}

fn main() {
    let words: Vec<String> = env::args().skip(1).collect();
    if words.iter().any(|word| word == "--table") {
        run::<Table>(&words);
    } else {
        run::<Array>(&words);
    }
}
