//! The cost of taking a buffer from a pool and giving it back, in plain Rust, over a queue of boxed buffers. It makes the
//! same turns as `part_bench`.

mod queue;

use queue::ArrayQueue;
use std::time::{Duration, Instant};
use std::{env, process, thread};

const BATCH: usize = 32;
const BUFFERS: usize = 1_024;

struct Buffer {
    number: u16,
    len: u16,
    _bytes: [u8; 2_048],
}

type Pool = ArrayQueue<Box<Buffer>>;

fn give(pool: &Pool, mut buf: Box<Buffer>) {
    buf.len = 0;
    assert!(pool.push(buf).is_ok());
}

fn single(pool: &Pool, turns: u32) {
    for _ in 0..turns {
        if let Some(buf) = pool.pop() {
            give(pool, buf);
        }
    }
}

fn bulk(pool: &Pool, turns: u32) {
    let mut stash: Vec<Box<Buffer>> = Vec::with_capacity(256);
    for _ in 0..turns {
        while stash.len() < BATCH {
            let Some(mut buf) = pool.pop() else { break };
            buf.len = 0;
            stash.push(buf);
        }
        while let Some(buf) = stash.pop() {
            give(pool, buf);
        }
    }
}

fn timed(threads: usize, turns: u32, work: fn(&Pool, u32)) -> Duration {
    let pool = Pool::new(BUFFERS);
    for number in 0..BUFFERS {
        let buf = Box::new(Buffer { number: number as u16, len: 0, _bytes: [0; 2_048] });
        assert!(pool.push(buf).is_ok());
    }
    let start = Instant::now();
    thread::scope(|scope| {
        for _ in 1..threads {
            scope.spawn(|| work(&pool, turns));
        }
        work(&pool, turns);
    });
    let spent = start.elapsed();
    let mut numbers: Vec<u16> = std::iter::from_fn(|| pool.pop()).map(|buf| buf.number).collect();
    numbers.sort();
    assert!(numbers.iter().map(|n| usize::from(*n)).eq(0..BUFFERS));
    spent
}

fn number_of(words: &[String], name: &str) -> Option<u32> {
    let at = words.iter().position(|word| word == name)?;
    words.get(at + 1)?.parse().ok().filter(|n| *n >= 1)
}

fn main() {
    let words: Vec<String> = env::args().skip(1).collect();
    let (Some(threads), Some(buffers)) = (number_of(&words, "--threads"), number_of(&words, "--buffers")) else {
        eprintln!("Usage: pool_baseline --threads N --buffers N");
        process::exit(2);
    };
    let batches = buffers.div_ceil(BATCH as u32);
    let one = timed(threads as usize, buffers, single);
    let many = timed(threads as usize, batches, bulk);
    println!("threads {threads}");
    println!("single ns/buffer {:.1}", one.as_secs_f64() * 1e9 / f64::from(buffers));
    println!("bulk ns/buffer {:.1}", many.as_secs_f64() * 1e9 / (f64::from(batches) * 32.0));
}
