//! The speed of reading and writing captures in plain Rust: `capture_baseline <frames> <bytes> <rounds>` does the same as
//! `part_bench capture`, and prints the same lines.

mod capture;

use capture::{Record, read, write, write_header, write_record};
use std::fs;
use std::hint::black_box;

// A frame of pseudorandom bytes (Knuth's MMIX constants).
fn fill(frame: &mut [u8], number: u32) {
    let mut state = u64::from(number);
    for byte in frame {
        state = state
            .wrapping_mul(6_364_136_223_846_793_005)
            .wrapping_add(1_442_695_040_888_963_407);
        *byte = (state >> 33) as u8;
    }
}

fn made(frames: u32, length: usize) -> Vec<u8> {
    let mut bytes = Vec::with_capacity(24 + frames as usize * (16 + length));
    let mut frame = vec![0; length];
    write_header(&mut bytes);
    for number in 0..frames {
        fill(&mut frame, number);
        let record = Record {
            seconds: number / 1_000_000,
            fraction: number % 1_000_000,
            wire_len: length as u32,
            frame: &frame,
        };
        write_record(&mut bytes, &record);
    }
    bytes
}

fn resident() -> u64 {
    let status = fs::read_to_string("/proc/self/statm").unwrap();
    status.split(' ').nth(1).unwrap().parse::<u64>().unwrap() * 4096
}

// The processor time that this thread has used, in microseconds.
fn micros() -> u64 {
    let status = fs::read_to_string("/proc/thread-self/schedstat").unwrap();
    status.split(' ').next().unwrap().parse::<u64>().unwrap() / 1000
}

// The slowest and the fastest round, in MB per second.
fn speeds(rounds: u32, mut round: impl FnMut() -> usize) -> (u64, u64) {
    let (mut slowest, mut fastest) = (u64::MAX, 0);
    for _ in 0..rounds {
        let start = micros();
        let bytes = round();
        let speed = bytes as u64 / (micros() - start).max(1);
        slowest = slowest.min(speed);
        fastest = fastest.max(speed);
    }
    (slowest, fastest)
}

fn main() {
    let words: Vec<u32> = std::env::args()
        .skip(1)
        .map(|word| word.parse().unwrap())
        .collect();
    let [frames, length, rounds] = words[..] else {
        println!("usage: capture_baseline <frames> <bytes> <rounds>");
        return;
    };
    let bytes = made(frames, length as usize);
    println!("capture: {frames} frames, {} bytes", bytes.len());
    let before = resident();
    let capture = read(&bytes).unwrap();
    println!(
        "memory: {} bytes a record",
        (resident() - before) / u64::from(frames)
    );
    assert!(!capture.nanos);
    let (slowest, fastest) = speeds(rounds, || {
        black_box(read(black_box(&bytes)).unwrap().records.len());
        bytes.len()
    });
    println!("read: {slowest} to {fastest} MB/s");
    let (slowest, fastest) = speeds(rounds, || {
        black_box(write(black_box(&capture.records))).len()
    });
    println!("written: {slowest} to {fastest} MB/s");
}
