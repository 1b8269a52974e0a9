//! A run of the forwarder: frames of one size on several flows.

use crate::forward::{Feed, Frame, Plan, Report, forward};
use crate::words::Load;
use std::time::{Duration, Instant};

/// How many different frames a flow has if its wire is not kept.
const FRAMES: usize = 256;

/// The number of buffers of all flows together.
const BUFFERS: usize = 16_384;

/// The number of queue pairs for `busy` flows. A queue pair has two flows, one for each port.
fn pairs_of(busy: usize) -> usize {
    (busy / 2).max(1)
}

/// All frames of the load, shared out in turn to `busy` flows, port 0's flows first.
fn shared_out(load: &Load, busy: usize) -> Vec<Frame> {
    let pairs = pairs_of(busy);
    let frame = |k: usize| Frame {
        port: (k % busy / pairs) as u8,
        queue: (k % busy % pairs) as u8,
        bytes: load.frame(),
    };
    (0..load.frames as usize).map(frame).collect()
}

/// A few frames, which every flow offers again and again.
fn repeated(load: &Load) -> Vec<Frame> {
    let frame = |_| Frame {
        port: 0,
        queue: 0,
        bytes: load.frame(),
    };
    (0..FRAMES).map(frame).collect()
}

/// The places of each flow's frames in a list whose queues are all below `pairs`.
fn places_of(frames: &[Frame], pairs: usize) -> Vec<Vec<u32>> {
    let mut places = vec![Vec::new(); 2 * pairs];
    for (frame, k) in frames.iter().zip(0..) {
        let (port, queue) = (usize::from(frame.port), usize::from(frame.queue));
        assert!(queue < pairs);
        places[port * pairs + queue].push(k);
    }
    places
}

/// Forwards the frames of the load, shared out to `busy` flows. Returns the time: if the wires are kept, that of the whole
/// call, which also finds each flow's frames and makes the pool and the rings; otherwise that of the workers' work alone.
pub fn run(load: &Load, batch: usize, busy: usize, workers: usize, keeps: bool) -> Duration {
    let plan = Plan {
        ring: load.ring,
        batch,
        workers,
        buffers: BUFFERS,
        keeps,
    };
    if keeps {
        run_kept(&shared_out(load, busy), pairs_of(busy), &plan)
    } else {
        run_hot(&repeated(load), load.frames, busy, &plan)
    }
}

fn run_kept(frames: &[Frame], pairs: usize, plan: &Plan) -> Duration {
    let start = Instant::now();
    let places = places_of(frames, pairs);
    let feed = |places| Feed {
        frames,
        places,
        count: places.len() as u64,
    };
    let feeds: Vec<Feed> = places.iter().map(|it| feed(it)).collect();
    let (reports, _) = forward(&feeds, plan);
    let spent = start.elapsed();
    check_all(&feeds, &reports, true);
    spent
}

/// Every busy flow offers the same frames until they are `count` with those of the other flows.
fn run_hot(frames: &[Frame], count: u64, busy: usize, plan: &Plan) -> Duration {
    let places: Vec<u32> = (0..frames.len() as u32).collect();
    let feed = |flow| Feed {
        frames,
        places: &places,
        count: if flow < busy { count / busy as u64 } else { 0 },
    };
    let feeds: Vec<Feed> = (0..2 * pairs_of(busy)).map(feed).collect();
    let (reports, worked) = forward(&feeds, plan);
    check_all(&feeds, &reports, false);
    worked
}

fn check_all(feeds: &[Feed], reports: &[Report], keeps: bool) {
    assert_eq!(feeds.len(), reports.len());
    for (feed, report) in feeds.iter().zip(reports) {
        check(feed, report, keeps);
    }
}

/// Checks that all frames of a flow were sent and, if the wire is kept, that byte 1 of the first and last is incremented.
fn check(feed: &Feed, report: &Report, keeps: bool) {
    assert_eq!(report.tally.stored, feed.count);
    assert_eq!((report.taken, report.posted), (feed.count, feed.count));
    assert_eq!(report.sent, feed.count);
    if keeps && feed.count != 0 {
        assert_eq!(report.wire.len() as u64, feed.count);
        for k in [0, report.wire.len() - 1] {
            let came = &feed.frames[feed.places[0] as usize].bytes;
            let went = report.wire.frame(k);
            assert!(went[0] == came[0] && went[1] == came[1].wrapping_add(1));
            assert_eq!(went[2..], came[2..]);
        }
    }
}
