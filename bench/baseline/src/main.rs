//! Passes frames through a ring or through several layers, and prints the cost of a frame.

mod buffer;
mod controller;
mod driver;
mod forward;
mod forwarder;
mod forwarding;
mod layers;
mod packet;
mod patience;
mod receive;
mod relay;
mod ring;
mod steps;
mod table;
mod text;
mod transmit;
mod tx_ring;
mod words;

use std::env;
use std::process::ExitCode;
use words::{Manner, Settings, USAGE};

fn main() -> ExitCode {
    if env::args().skip(1).eq(["steps"]) {
        steps::print();
        return ExitCode::SUCCESS;
    }
    let words: Vec<String> = env::args().skip(1).collect();
    if let ["text", pairs, ring, workers] = words.iter().map(String::as_str).collect::<Vec<_>>()[..] {
        let numbers = [pairs, ring, workers].map(|word| word.parse::<usize>().unwrap_or(1));
        return match text::run(numbers[0], numbers[1], numbers[2]) {
            Ok(true) => ExitCode::SUCCESS,
            _ => ExitCode::FAILURE,
        };
    }
    let Some(Settings { load, manner }) = Settings::parse(env::args().skip(1)) else {
        eprintln!("{USAGE}");
        return ExitCode::from(2);
    };
    let spent = match manner {
        Manner::Receive { batch } => receive::run(&load, batch),
        Manner::Transmit { report, completion } => transmit::run(&load, report, completion),
        Manner::Relay { batch } => relay::run(&load, batch),
        Manner::Pass { batch, in_threads } => layers::run(&load, batch, in_threads),
        Manner::Forward {
            batch,
            flows,
            workers,
            keeps,
        } => forwarding::run(&load, batch, flows, workers, keeps),
    };
    let nanoseconds = spent.as_nanos() as f64 / load.frames as f64;
    println!("frames {}", load.frames);
    println!("ns/frame {nanoseconds:.1}");
    println!("Mframes/s {:.2}", 1000.0 / nanoseconds);
    ExitCode::SUCCESS
}
