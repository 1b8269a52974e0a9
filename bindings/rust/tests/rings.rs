//! Rings and queues between real threads, and what becomes of their ends.

use poll82599::{
    BUFFER_BYTES, Batched, COUNTERS, Completion, Counters, Counts, MOST_FRAME, MakeError, Offer, Packets, Plan, Pool, Reclaimed, Refusal,
    RxController, RxDevice, RxDriver, RxQueue, RxRing, RxSettings, State, TxDevice, TxQueue, TxRing, TxSettings, moves,
};
use std::thread::{self, yield_now};

/// Frame `k` of a test, whose bytes differ from those of its neighbours.
fn frame(k: u32) -> Vec<u8> {
    let len = 60 + (k % 1400) as usize;
    (0..len).map(|at| (k.wrapping_mul(2_654_435_761) >> (at & 15)) as u8).collect()
}

/// Repeats a call until it returns true.
fn until(mut done: impl FnMut() -> bool) {
    while !done() {
        yield_now();
    }
}

/// The controller's thread: answers the enabling, stores the frames, and answers the disabling.
fn serve(mut controller: RxController, frames: u32) -> RxController {
    until(|| controller.answer());
    for k in 0..frames {
        until(|| controller.store(&frame(k)).expect("the queue is on"));
    }
    assert!(controller.set_quiet());
    until(|| controller.answer());
    controller
}

/// The driver's thread: enables the ring, takes the frames and compares them, and disables the ring.
fn drive(mut driver: RxDriver, frames: u32) -> RxDriver {
    while driver.post() {}
    assert!(driver.set_tail());
    assert!(driver.ask_enable());
    until(|| driver.state() == State::On);
    let mut room = [0; BUFFER_BYTES];
    for k in 0..frames {
        until(|| {
            driver.poll(&mut room).expect("the queue is on").inspect(|it| assert_eq!((it.bytes, it.eop), (&frame(k)[..], true))).is_some()
        });
        driver.post();
        driver.set_tail();
    }
    assert!(driver.ask_disable());
    until(|| driver.state() == State::Off);
    assert_eq!(driver.untaken(), Ok(Some(0)));
    driver
}

#[test]
fn a_receive_ring_between_two_threads_delivers_each_frame_once() {
    let (driver, controller) = RxRing::new(64, 128).expect("memory");
    let (mut driver, controller) = thread::scope(|scope| {
        let serving = scope.spawn(|| serve(controller, 20_000));
        let driver = drive(driver, 20_000);
        (driver, serving.join().expect("the controller's thread ends"))
    });
    while driver.reclaim().expect("the queue is disabled") {}
    assert_eq!(driver.untaken(), Ok(None));
    assert!(driver.renew());
    assert_eq!(RxRing::close(driver, controller).ok(), Some(0));
}

/// The device of both queues: offers the frames, and returns those that were sent, with its counts.
fn forward_by_device(mut rx: RxDevice, mut tx: TxDevice, frames: u32) -> (RxDevice, TxDevice, Counts) {
    until(|| tx.control() == State::On && rx.control() == State::On);
    let mut room = [0; MOST_FRAME];
    let (mut offered, mut sent) = (0, 0);
    while sent < frames {
        if offered < frames && rx.offer(&frame(offered)).expect("the queue is on") == Offer::Stored {
            offered += 1;
        }
        while let Some(bytes) = tx.turn(&mut room).expect("the queue is on") {
            let mut wanted = frame(sent);
            wanted[1] = wanted[1].wrapping_add(1);
            assert_eq!(bytes, wanted);
            sent += 1;
        }
    }
    let counts = rx.counts();
    (rx, tx, counts)
}

/// The driver of both queues: forwards all frames with byte 1 incremented.
fn forward_by_driver(rx: &mut RxQueue, tx: &mut TxQueue, packets: &mut Packets, frames: u32) {
    until(|| tx.enable().expect("the queue is new"));
    until(|| rx.enable().expect("the queue is new"));
    let mut posted = 0;
    while posted < frames as usize {
        let waiting = packets.len();
        let taken = rx.batch(packets).expect("the queue is on").packets;
        for packet in waiting..waiting + taken {
            let byte = packets.byte(packet, 1).expect("a frame has two bytes");
            assert!(packets.touch(packet, 1, byte.wrapping_add(1)));
        }
        posted += tx.batch(packets).expect("the queue is on").packets;
    }
}

#[test]
fn a_forwarder_in_batches_sends_each_frame_once() {
    const FRAMES: u32 = 20_000;
    let (mut rx, rx_device) = RxQueue::new(RxSettings { descriptors: 128, batch: 32, fill: 2048, drop_en: false }).expect("memory");
    let (mut tx, tx_device) = TxQueue::new(TxSettings { descriptors: 64, every: 16, completion: Completion::HeadWord }).expect("memory");
    let mut packets = Packets::new(256).expect("memory");
    let (rx_device, tx_device, counts) = thread::scope(|scope| {
        let device = scope.spawn(|| forward_by_device(rx_device, tx_device, FRAMES));
        forward_by_driver(&mut rx, &mut tx, &mut packets, FRAMES);
        device.join().expect("the device's thread ends")
    });
    assert_eq!(counts, Counts { offered: FRAMES.into(), stored: FRAMES.into(), dropped: 0, oversize: 0 });
    assert!(packets.is_empty());
    assert!(RxQueue::close(rx, rx_device).is_ok_and(|in_ring| in_ring > 0));
    drop(tx);
    drop(tx_device); // the last side closes the queue
}

#[test]
fn a_disabled_queue_gives_its_buffers_back() {
    let (mut queue, mut device) = RxQueue::new(RxSettings { descriptors: 8, batch: 2, fill: 1024, drop_en: true }).expect("memory");
    let mut packets = Packets::new(16).expect("memory");
    assert_eq!(queue.enable(), Ok(false));
    assert_eq!(device.control(), State::On);
    assert_eq!(queue.enable(), Ok(true));
    assert_eq!(device.offer(&frame(0)), Ok(Offer::Dropped));
    assert_eq!(queue.batch(&mut packets), Ok(Batched { packets: 0, buffers: 7 }));
    assert_eq!(packets.empty_buffers(), 9);
    assert_eq!(device.offer(&[0; 8000]), Ok(Offer::Oversize));
    assert_eq!(device.offer(&[1; 3000]), Ok(Offer::Stored));
    assert_eq!(device.offer(&[2; 13]), Err(Refusal::Unfit));
    assert_eq!(queue.reclaim(&mut packets), Err(Refusal::NotDisabled));
    assert!(queue.disable());
    assert_eq!(queue.finish(), None);
    assert_eq!(device.control(), State::Off);
    assert_eq!(queue.finish(), Some(3));
    assert_eq!(queue.enable(), Err(Refusal::NotRenewed));
    assert_eq!(queue.reclaim(&mut packets), Ok(Reclaimed { buffers: 7, all: true }));
    assert!(queue.renew());
    assert_eq!(packets.empty_buffers(), 16);
    assert_eq!(device.counts(), Counts { offered: 3, stored: 1, dropped: 1, oversize: 1 });
}

#[test]
fn a_ring_of_4096_is_filled_from_a_pool_and_drops_nothing() {
    let (mut queue, mut device) = RxQueue::new(RxSettings { descriptors: 4096, batch: 32, fill: 2048, drop_en: true }).expect("memory");
    let (mut packets, mut pool) = (Packets::new(16).expect("memory"), Pool::new(4200).expect("memory"));
    assert_eq!((queue.enable(), device.control(), queue.enable()), (Ok(false), State::On, Ok(true)));
    let mut posted = 0;
    while packets.refill(&mut pool) > 0 {
        posted += queue.batch(&mut packets).expect("the queue is on").buffers;
    }
    assert_eq!(posted, 4095);
    assert_eq!(packets.empty_buffers() + pool.len(), 4216 - 4095);
    for k in 0..4095 {
        assert_eq!(device.offer(&frame(k)), Ok(Offer::Stored));
    }
    let (mut room, mut taken) = ([0; MOST_FRAME], 0);
    while taken < 4095 {
        for _ in 0..queue.batch(&mut packets).expect("the queue is on").packets {
            assert_eq!(packets.copy(0, &mut room), Ok(Some(&frame(taken)[..])));
            packets.free(0).expect("the worker has room, since the batch posted its buffers");
            taken += 1;
        }
    }
    assert_eq!(device.counts(), Counts { offered: 4095, stored: 4095, dropped: 0, oversize: 0 });
    let mut counters = Counters::new().expect("memory");
    let mut reader = counters.reader().expect("memory");
    assert!(counters.set(7, 5) && !counters.set(7, 4) && !counters.set(COUNTERS, 6) && counters.publish(&mut device));
    drop(counters);
    assert_eq!([0, 1, 3, 7, COUNTERS].map(|at| reader.get(at)), [Some(4095), Some(0), Some(4095), Some(5), None]);
    assert!(queue.disable());
    assert_eq!((device.control(), queue.finish()), (State::Off, Some(0)));
    while !queue.reclaim(&mut packets).expect("the queue is disabled").all {
        packets.give_back(&mut pool, 256);
    }
    packets.give_back(&mut pool, 256);
    assert_eq!((packets.empty_buffers(), pool.len()), (0, 4216));
    assert_eq!(Pool::new(15).err(), Some(MakeError::Buffers));
}

#[test]
fn packets_are_copied_and_freed() {
    let mut packets = Packets::new(16).expect("memory");
    let bytes: Vec<u8> = (0..5000).map(|at| at as u8).collect();
    assert_eq!(packets.put(&bytes), Ok(true));
    assert_eq!((packets.len(), packets.empty_buffers()), (1, 13));
    let mut room = vec![0; 5000];
    assert_eq!(packets.copy(0, &mut room[..4999]), Err(Refusal::NoRoom));
    assert_eq!(packets.copy(0, &mut room), Ok(Some(&bytes[..])));
    assert_eq!(packets.copy(1, &mut room), Ok(None));
    assert_eq!((packets.byte(0, 4999), packets.byte(0, 5000)), (Some(bytes[4999]), None));
    assert_eq!(packets.free(0), Ok(true));
    assert_eq!(packets.free(0), Ok(false));
    assert_eq!(packets.put(&[0; 15_001]), Err(Refusal::Unfit));
}

#[test]
fn packets_are_built_from_pieces_and_move_to_another_worker() {
    let (mut packets, mut others) = (Packets::new(16).expect("memory"), Packets::new(16).expect("memory"));
    assert_eq!(packets.append(&[1]), Ok(false));
    assert_eq!(packets.put(&[1; 14]), Ok(true));
    assert_eq!(packets.append(&[2; 2048]), Ok(true));
    assert_eq!((packets.append(&[]), packets.append(&[0; 2049])), (Err(Refusal::Unfit), Err(Refusal::Unfit)));
    assert_eq!((packets.move_to(1, &mut others), packets.move_to(0, &mut others)), (false, true));
    let mut room = [0; 3000];
    let built = others.copy(0, &mut room).expect("room").expect("a packet");
    assert_eq!((built.len(), built[13], built[14], packets.len()), (2062, 1, 2, 0));
    assert_eq!((packets.empty_buffers(), others.empty_buffers()), (14, 16));
}

#[test]
fn what_cannot_be_made_is_refused() {
    assert_eq!(RxRing::new(7, 16).err(), Some(MakeError::Length));
    assert_eq!(TxRing::new(8, 257, Completion::Descriptors).err(), Some(MakeError::Buffers));
    assert_eq!(Packets::new(15).err(), Some(MakeError::Buffers));
    assert_eq!(RxQueue::new(RxSettings { descriptors: 8, batch: 33, fill: 2048, drop_en: false }).err(), Some(MakeError::Setting));
    assert_eq!(TxQueue::new(TxSettings { descriptors: 8, every: 0, completion: Completion::Descriptors }).err(), Some(MakeError::Setting));
}

#[test]
fn ends_of_two_rings_are_not_closed_together() {
    let (first, its_controller) = TxRing::new(8, 16, Completion::Descriptors).expect("memory");
    let (second, other_controller) = TxRing::new(8, 16, Completion::Descriptors).expect("memory");
    let (first, other_controller) = TxRing::close(first, other_controller).expect_err("they are ends of two rings");
    assert_eq!(TxRing::close(first, its_controller).ok(), Some(0));
    assert_eq!(TxRing::close(second, other_controller).ok(), Some(0));
}

#[test]
fn moves_are_printed_as_replay_prints_them() {
    let plan = Plan { pairs: 1, descriptors: 8, enabled: true, by_head: false, json: false };
    assert_eq!(moves(&plan, "r0 A1 5\n").as_deref(), Ok("r0 A1 place 0\nmoves 1 of 1\n"));
}
