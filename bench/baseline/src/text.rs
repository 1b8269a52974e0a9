//! The forwarder from text to text: a script of frames on standard input, wires and counts on standard output.

use crate::forward::{Feed, Frame, Plan, Report, forward};
use std::io::{self, Read, Write};

const DIGITS: &[u8; 16] = b"0123456789abcdef";

/// A script: its frames, and the places of each flow's frames.
struct Script {
    frames: Vec<Frame>,
    places: Vec<Vec<u32>>,
}

/// The value of a hexadecimal digit.
fn nibble(digit: u8) -> Option<u8> {
    match digit {
        b'A'..=b'F' => Some(digit - b'A' + 10),
        b'a'..=b'f' => Some(digit - b'a' + 10),
        b'0'..=b'9' => Some(digit - b'0'),
        _ => None,
    }
}

fn bytes_of(hex: &[u8]) -> Option<Vec<u8>> {
    let digits = hex.chunks_exact(2);
    if !digits.remainder().is_empty() {
        return None;
    }
    digits
        .map(|two| Some(nibble(two[0])? << 4 | nibble(two[1])?))
        .collect()
}

fn filled(len: &[u8], byte: &[u8]) -> Option<Vec<u8>> {
    let len: usize = std::str::from_utf8(len).ok()?.parse().ok()?;
    Some(vec![bytes_of(byte)?.first().copied()?; len])
}

impl Script {
    fn parse(text: &[u8], pairs: usize) -> Option<Script> {
        let mut script = Script {
            frames: Vec::new(),
            places: vec![Vec::new(); 2 * pairs],
        };
        for line in text.split(|byte| *byte == b'\n') {
            if line.is_empty() || line[0] == b'#' {
                continue;
            }
            let mut fields = line.split(|byte| *byte == b' ');
            let port = nibble(*fields.next()?.first()?)?;
            let queue = nibble(*fields.next()?.first()?)?;
            if port > 1 || usize::from(queue) >= pairs {
                return None;
            }
            let third = fields.next()?;
            let bytes = if third == b"fill" {
                filled(fields.next()?, fields.next()?)?
            } else {
                bytes_of(third)?
            };
            let place = script.frames.len() as u32;
            let flow = usize::from(port) * pairs + usize::from(queue);
            script.places.get_mut(flow)?.push(place);
            script.frames.push(Frame { port, queue, bytes });
        }
        Some(script)
    }
}

fn print(out: &mut impl Write, reports: &[Report], pairs: usize) -> io::Result<()> {
    let mut line = Vec::new();
    // a flow's frames leave at the other port
    for f in (pairs..2 * pairs).chain(0..pairs) {
        let port = 1 - f / pairs;
        for k in 0..reports[f].wire.len() {
            line.clear();
            write!(line, "{port} {} ", f % pairs)?;
            for byte in reports[f].wire.frame(k) {
                line.push(DIGITS[usize::from(byte >> 4)]);
                line.push(DIGITS[usize::from(byte & 15)]);
            }
            line.push(b'\n');
            out.write_all(&line)?;
        }
    }
    for (f, report) in reports.iter().enumerate() {
        let tally = &report.tally;
        writeln!(
            out,
            "flow {} {} offered {} stored {} dropped {} oversize {} taken {} posted {} tx-dropped 0 wire {} left 0 ended drained",
            f / pairs,
            f % pairs,
            tally.offered,
            tally.stored,
            tally.dropped,
            tally.oversize,
            report.taken,
            report.posted,
            report.sent
        )?;
    }
    Ok(())
}

/// Forwards a script. Returns whether the script was valid.
pub fn run(pairs: usize, ring: usize, workers: usize) -> io::Result<bool> {
    let mut text = Vec::new();
    io::stdin().read_to_end(&mut text)?;
    let Some(script) = Script::parse(&text, pairs) else {
        return Ok(false);
    };
    drop(text);
    let feeds: Vec<Feed> = script
        .places
        .iter()
        .map(|places| Feed {
            frames: &script.frames,
            places,
            count: places.len() as u64,
        })
        .collect();
    let plan = Plan {
        ring,
        batch: 32,
        workers,
        buffers: 4_096,
        keeps: true,
    };
    let (reports, _) = forward(&feeds, &plan);
    let mut out = io::BufWriter::with_capacity(1 << 16, io::stdout().lock());
    print(&mut out, &reports, pairs)?;
    out.flush()?;
    Ok(true)
}
