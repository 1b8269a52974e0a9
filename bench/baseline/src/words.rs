//! The command line, and the parts that all kinds of run share.

use crate::buffer::BUFFER_BYTES;
use crate::driver::MOST_BATCH;
use crate::tx_ring::Completion;
use std::collections::HashMap;

pub const USAGE: &str = "usage: baseline ring --ring N --frames N --size BYTES --batch N
       baseline tx --ring N --frames N --size BYTES --report N --completion status|head
       baseline batch --ring N --frames N --size BYTES --batch N
       baseline pass --ring N --frames N --size BYTES --batch N --threads 1|2
       baseline forward --ring N --frames N --size BYTES --batch N --flows N --workers N --keep 0|1
       baseline text PAIRS RING WORKERS <SCRIPT
       baseline steps";

/// The first byte of each frame. The receiving side reads it.
const FIRST_BYTE: u8 = 0xab;

/// A load: `frames` frames of `size` bytes each, through rings of `ring` descriptors.
pub struct Load {
    pub ring: usize,
    pub frames: u64,
    pub size: usize,
}

impl Load {
    pub fn frame(&self) -> Vec<u8> {
        let mut frame = vec![0; self.size];
        frame[0] = FIRST_BYTE;
        frame
    }

    /// The tally of all frames.
    pub fn tally(&self) -> Tally {
        Tally {
            frames: self.frames,
            bytes: self.frames * self.size as u64,
            first_bytes: self.frames * u64::from(FIRST_BYTE),
        }
    }

    fn is_lawful(&self) -> bool {
        (8..=4096).contains(&self.ring)
            && self.ring.is_power_of_two()
            && self.frames > 0
            && (14..=BUFFER_BYTES).contains(&self.size)
    }
}

/// A tally of frames that were read: their number, their bytes, and the sum of their first bytes.
#[derive(Default, PartialEq, Debug)]
pub struct Tally {
    pub frames: u64,
    pub bytes: u64,
    pub first_bytes: u64,
}

impl Tally {
    /// Adds one more frame.
    pub fn add(&mut self, frame: &[u8]) {
        self.frames += 1;
        self.bytes += frame.len() as u64;
        self.first_bytes += u64::from(frame[0]);
    }
}

/// The kind of run.
pub enum Manner {
    /// A receive ring. The driver publishes after at most `batch` frames.
    Receive { batch: usize },
    /// A transmit ring. Each `report`th frame asks for a report, and so does the last.
    Transmit {
        report: usize,
        completion: Completion,
    },
    /// Both drivers between two rings. `batch` frames are stored and received at once.
    Relay { batch: usize },
    /// Controllers and drivers, on one thread or with a thread for each side.
    Pass { batch: usize, in_threads: bool },
    /// The forwarder on `flows` flows, with `workers` workers for each side. `keeps`: whether the wire is kept.
    Forward {
        batch: usize,
        flows: usize,
        workers: usize,
        keeps: bool,
    },
}

/// The load, and the kind of run.
pub struct Settings {
    pub load: Load,
    pub manner: Manner,
}

impl Settings {
    pub fn parse(mut words: impl Iterator<Item = String>) -> Option<Self> {
        let command = words.next()?;
        let mut options = HashMap::new();
        while let Some(name) = words.next() {
            options.insert(name, words.next()?);
        }
        let number = |name: &str| options.get(name)?.parse::<u64>().ok();
        let load = Load {
            ring: number("--ring")? as usize,
            frames: number("--frames")?,
            size: number("--size")? as usize,
        };
        let (manner, count) = match command.as_str() {
            "ring" => {
                let batch = number("--batch")? as usize;
                (Manner::Receive { batch }, 4)
            }
            "tx" => {
                let report = number("--report")? as usize;
                let completion = completion_of(options.get("--completion")?)?;
                (Manner::Transmit { report, completion }, 5)
            }
            "batch" => {
                let batch = number("--batch")? as usize;
                (Manner::Relay { batch }, 4)
            }
            "pass" => {
                let batch = number("--batch")? as usize;
                let in_threads = match number("--threads")? {
                    1 => false,
                    2 => true,
                    _ => return None,
                };
                (Manner::Pass { batch, in_threads }, 5)
            }
            "forward" => {
                let manner = Manner::Forward {
                    batch: number("--batch")? as usize,
                    flows: number("--flows")? as usize,
                    workers: number("--workers")? as usize,
                    keeps: number("--keep")? == 1,
                };
                (manner, 7)
            }
            _ => return None,
        };
        let lawful = match manner {
            Manner::Receive { batch } => batch > 0,
            Manner::Transmit { report, .. } => (1..load.ring).contains(&report),
            Manner::Relay { batch } | Manner::Pass { batch, .. } => {
                (1..=MOST_BATCH).contains(&batch)
            }
            Manner::Forward {
                batch,
                flows,
                workers,
                ..
            } => {
                (1..=MOST_BATCH).contains(&batch)
                    && [1, 2, 4, 8, 16].contains(&flows)
                    && (1..=flows.max(2)).contains(&workers)
            }
        };
        (options.len() == count && load.is_lawful() && lawful).then_some(Settings { load, manner })
    }
}

fn completion_of(word: &str) -> Option<Completion> {
    match word {
        "status" => Some(Completion::Status),
        "head" => Some(Completion::Head),
        _ => None,
    }
}
