//! The two-port forwarder: each flow has a driver side and a controller side. Worker threads serve the flows in turn, with
//! the same number of workers for each side.

use crate::buffer::Buffer;
use crate::controller::{Offer, RxController, Tally, Turn, TxController, Wire};
use crate::driver::{MOST_BATCH, RxDriver, TxDriver};
use crate::packet::{Packet, Stash};
use crate::patience::{Patience, Restraint};
use crate::ring::Ring;
use crate::tx_ring::{Completion, TxRing};
use std::sync::atomic::{AtomicBool, Ordering::SeqCst};
use std::sync::Mutex;
use std::thread;
use std::time::{Duration, Instant};

/// The number of bytes to which buffers are filled.
const FILL: usize = 2048;

/// A wire that is not kept is emptied after this many frames, and keeps its memory.
const KEPT: usize = 4;

/// A frame, and the port and queue that receive it.
pub struct Frame {
    pub port: u8,
    pub queue: u8,
    pub bytes: Vec<u8>,
}

/// The frames of a flow: those at these places of a list, again and again, `count` in all.
#[derive(Clone, Copy)]
pub struct Feed<'a> {
    pub frames: &'a [Frame],
    pub places: &'a [u32],
    pub count: u64,
}

/// How the flows are forwarded.
#[derive(Clone, Copy)]
pub struct Plan {
    pub ring: usize,
    pub batch: usize,
    pub workers: usize,
    pub buffers: usize,
    /// Whether the wire is kept.
    pub keeps: bool,
}

/// The result of a flow.
pub struct Report {
    pub tally: Tally,
    pub taken: u64,
    pub posted: u64,
    pub sent: u64,
    pub wire: Wire,
}

/// The result of a turn of one side of a flow.
#[derive(PartialEq, Eq)]
enum Progress {
    Worked,
    /// It worked, but the batch was small.
    Few,
    Idle,
    Over,
}

trait Side: Send {
    fn turn(&mut self) -> Progress;
}

#[derive(PartialEq, Eq)]
enum Phase {
    Enabling,
    Going,
    Disabling,
    Over,
}

/// The empty buffers that belong to no flow.
type Pool = Mutex<Vec<Buffer>>;

struct Drivers<'a> {
    rx: RxDriver<'a>,
    tx: TxDriver<'a>,
    pool: &'a Pool,
    stash: Stash,
    packets: Vec<Packet>,
    phase: Phase,
    taken: u64,
    posted: u64,
}

impl Drivers<'_> {
    /// Takes up to `share` buffers, and asks for both queues to be enabled.
    fn start(&mut self, share: usize) {
        let mut pool = self.pool.lock().expect("no worker failed");
        let first = pool.len() - share;
        for buffer in pool.drain(first..) {
            self.stash.put_any(buffer);
        }
        self.rx.post_all(&mut self.stash);
        self.rx.ask_enable();
        self.tx.ask_enable();
    }

    fn go(&mut self) -> Progress {
        let quiet = self.rx.is_quiet();
        let had = self.packets.len();
        let taken = self
            .rx
            .rx_batch(&mut self.stash, &mut self.packets)
            .expect("the queue is enabled");
        for packet in &mut self.packets[had..] {
            packet.touch();
        }
        let posted = self
            .tx
            .tx_batch(&mut self.stash, &mut self.packets)
            .expect("the queue is enabled");
        self.taken += taken as u64;
        self.posted += posted as u64;
        if quiet
            && taken == 0
            && had < MOST_BATCH
            && !self.rx.has_chain()
            && self.packets.is_empty()
            && self.tx.is_clean()
        {
            self.rx.ask_disable();
            self.tx.ask_disable();
            self.phase = Phase::Disabling;
            return Progress::Worked;
        }
        if 0 < taken && taken < self.rx.batch().min(self.rx.size() / 16) {
            Progress::Few
        } else if taken != 0 || posted != 0 {
            Progress::Worked
        } else {
            Progress::Idle
        }
    }
}

impl Side for Drivers<'_> {
    fn turn(&mut self) -> Progress {
        match self.phase {
            Phase::Enabling => {
                if self.tx.look_on() && self.rx.look_on() {
                    self.phase = Phase::Going;
                }
                Progress::Idle
            }
            Phase::Going => self.go(),
            Phase::Disabling => {
                if self.rx.look_off() && self.tx.look_off() {
                    self.phase = Phase::Over;
                }
                Progress::Idle
            }
            Phase::Over => Progress::Over,
        }
    }
}

struct Controllers<'a> {
    rx: RxController<'a>,
    tx: TxController<'a>,
    frames: &'a [Frame],
    places: &'a [u32],
    /// The index in `places` of the next frame to offer.
    next: usize,
    /// How many frames have not been stored, dropped or refused yet.
    left: u64,
    keeps: bool,
    wire: Wire,
    sent: u64,
    enabled: bool,
    finished: bool,
}

impl Side for Controllers<'_> {
    fn turn(&mut self) -> Progress {
        self.rx.answer();
        self.tx.answer();
        let serving = self.rx.is_serving() || self.tx.is_serving();
        if self.enabled && !serving {
            return Progress::Over;
        }
        self.enabled |= self.rx.is_serving() && self.tx.is_serving();
        let mut progress = Progress::Idle;
        if self.left != 0 {
            let offer = self.rx.offer(&self.frames[self.places[self.next] as usize].bytes);
            if !matches!(offer.expect("a lawful frame"), Offer::Off | Offer::Held) {
                self.left -= 1;
                self.next += 1;
                if self.next == self.places.len() {
                    self.next = 0;
                }
                progress = Progress::Worked;
            }
        } else if !self.finished && self.rx.is_serving() {
            self.rx.finish();
            self.finished = true;
        }
        if self.tx.turn(&mut self.wire) == Turn::Sent {
            self.sent += 1;
            if !self.keeps && self.wire.len() == KEPT {
                self.wire.clear();
            }
            progress = Progress::Worked;
        }
        progress
    }
}

/// Serves the flows of one worker in turn, until all are over.
fn serve<S: Side>(mut flows: Vec<S>, stop: &AtomicBool) -> Vec<S> {
    let mut over = vec![false; flows.len()];
    let mut left = flows.len();
    let mut patience = Patience::default();
    let mut restraint = Restraint::default();
    while left != 0 {
        let mut worked = false;
        let mut few = false;
        for (flow, over) in flows.iter_mut().zip(&mut over) {
            if *over {
                continue;
            }
            if stop.load(SeqCst) {
                return flows;
            }
            match flow.turn() {
                Progress::Worked => worked = true,
                Progress::Few => few = true,
                Progress::Idle => {}
                Progress::Over => {
                    *over = true;
                    left -= 1;
                }
            }
        }
        if worked {
            restraint.ease();
        } else if few {
            restraint.wait();
        } else {
            restraint.reset();
        }
        if few || worked {
            patience.reset();
        } else {
            patience.wait();
        }
    }
    flows
}

/// Gives flow `f` to worker `f mod workers`.
fn deal<S>(flows: Vec<S>, workers: usize) -> Vec<Vec<S>> {
    let mut hands: Vec<Vec<S>> = (0..workers).map(|_| Vec::new()).collect();
    for (f, flow) in flows.into_iter().enumerate() {
        hands[f % workers].push(flow);
    }
    hands
}

/// The flows of all workers, in their original order.
fn collect<S>(hands: Vec<Vec<S>>) -> Vec<S> {
    let mut hands: Vec<_> = hands.into_iter().map(Vec::into_iter).collect();
    let mut flows = Vec::new();
    loop {
        for hand in &mut hands {
            match hand.next() {
                Some(flow) => flows.push(flow),
                None => return flows,
            }
        }
    }
}

/// Forwards the frames of each flow. Also returns the time of the workers' work.
pub fn forward(feeds: &[Feed<'_>], plan: &Plan) -> (Vec<Report>, Duration) {
    let pool = Mutex::new((0..plan.buffers).map(|b| Buffer::new(b as u16)).collect());
    let share = (plan.buffers / feeds.len()).min(plan.ring + 255);
    let mut from: Vec<Ring> = feeds.iter().map(|_| Ring::new(plan.ring)).collect();
    let mut to: Vec<TxRing> = feeds
        .iter()
        .map(|_| TxRing::new(plan.ring, Completion::Status))
        .collect();
    let mut drivers = Vec::new();
    let mut controllers = Vec::new();
    for ((from, to), feed) in from.iter_mut().zip(&mut to).zip(feeds) {
        let (rx, rx_end) = from.ends();
        let (tx, tx_end) = to.ends();
        let mut driver = Drivers {
            rx: RxDriver::new(rx, plan.batch),
            tx: TxDriver::new(tx),
            pool: &pool,
            stash: Stash::new(),
            packets: Vec::with_capacity(MOST_BATCH),
            phase: Phase::Enabling,
            taken: 0,
            posted: 0,
        };
        driver.start(share);
        drivers.push(driver);
        controllers.push(Controllers {
            rx: RxController::new(rx_end, FILL, false),
            tx: TxController::new(tx_end),
            frames: feed.frames,
            places: feed.places,
            next: 0,
            left: feed.count,
            keeps: plan.keeps,
            wire: Wire::default(),
            sent: 0,
            enabled: false,
            finished: false,
        });
    }
    let start = Instant::now();
    let (drivers, controllers) = run(drivers, controllers, plan.workers);
    let spent = start.elapsed();
    let sides = drivers.into_iter().zip(controllers);
    (sides.map(|(driver, controller)| report(driver, controller)).collect(), spent)
}

fn run<'a>(
    drivers: Vec<Drivers<'a>>,
    controllers: Vec<Controllers<'a>>,
    workers: usize,
) -> (Vec<Drivers<'a>>, Vec<Controllers<'a>>) {
    let stop = AtomicBool::new(false);
    let stop = &stop;
    thread::scope(|scope| {
        let driving: Vec<_> = deal(drivers, workers)
            .into_iter()
            .map(|hand| scope.spawn(move || serve(hand, stop)))
            .collect();
        let controlling: Vec<_> = deal(controllers, workers)
            .into_iter()
            .map(|hand| scope.spawn(move || serve(hand, stop)))
            .collect();
        let drivers = driving.into_iter().map(|it| it.join().expect("a worker ends"));
        let drivers = collect(drivers.collect());
        let controllers = controlling.into_iter().map(|it| it.join().expect("a worker ends"));
        (drivers, collect(controllers.collect()))
    })
}

fn report(driver: Drivers, controller: Controllers) -> Report {
    Report {
        tally: controller.rx.tally(),
        taken: driver.taken,
        posted: driver.posted,
        sent: controller.sent,
        wire: controller.wire,
    }
}
