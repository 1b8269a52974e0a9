//! Queues in batches, as an ixgbe driver uses them, and devices that take and send whole frames.

use crate::ffi::{self, Call, Ends, Handle, Offered};
use crate::results::{MakeError, Refusal, State, is_done, unanswered};
use crate::rings::Completion;
use std::cell::UnsafeCell;
use std::sync::Arc;

/// A worker's packets: its empty buffers, and a list of up to 32 packets, the oldest first. A packet is named by its place in that
/// list, from 0.
pub struct Packets {
    handle: Box<UnsafeCell<Handle>>,
}

// SAFETY: a handle of the library may go to another thread between two calls.
unsafe impl Send for Packets {}

/// A pool of up to 65,536 empty buffers. A worker has at most 256; one that refills from a pool can post the buffers of a longer
/// ring. Threads share a pool in a lock, such as a `Mutex`.
pub struct Pool {
    handle: Box<UnsafeCell<Handle>>,
}

// SAFETY: as for `Packets`.
unsafe impl Send for Pool {}

/// The settings of a receive queue.
#[derive(Clone, Copy, Debug, PartialEq, Eq)]
pub struct RxSettings {
    /// The descriptors of its ring: a power of two from 8 to 4,096.
    pub descriptors: u32,
    /// The most packets in a batch: 1 to 32.
    pub batch: usize,
    /// To how many bytes the device fills a buffer: 1,024 or 2,048.
    pub fill: usize,
    /// Whether a frame is dropped when too few descriptors are free (`SRRCTL.Drop_En`), or else held.
    pub drop_en: bool,
}

/// The settings of a transmit queue.
#[derive(Clone, Copy, Debug, PartialEq, Eq)]
pub struct TxSettings {
    /// The descriptors of its ring: a power of two from 8 to 4,096.
    pub descriptors: u32,
    /// Each `every`th frame asks for a report, and so does the last of a batch: 1 to 4,096.
    pub every: u16,
    /// How the ring reports what was sent.
    pub completion: Completion,
}

/// The driver's side of a receive queue.
pub struct RxQueue {
    ends: Arc<Ends>,
}

/// The device's side of a receive queue.
pub struct RxDevice {
    ends: Arc<Ends>,
}

/// The driver's side of a transmit queue.
pub struct TxQueue {
    ends: Arc<Ends>,
}

/// The device's side of a transmit queue.
pub struct TxDevice {
    ends: Arc<Ends>,
}

/// What became of an offered frame.
#[derive(Clone, Copy, Debug, PartialEq, Eq)]
pub enum Offer {
    /// It is stored whole.
    Stored,
    /// Too few descriptors are free; offer it again.
    Held,
    /// Too few descriptors are free, and it is dropped.
    Dropped,
    /// It needs at least as many descriptors as the ring has.
    Oversize,
}

/// The frames that a receive device stored, dropped or found oversize, and all of them together.
#[derive(Clone, Copy, Debug, PartialEq, Eq, Default)]
pub struct Counts {
    pub offered: u64,
    pub stored: u64,
    pub dropped: u64,
    pub oversize: u64,
}

/// What a batch moved.
#[derive(Clone, Copy, Debug, PartialEq, Eq, Default)]
pub struct Batched {
    /// The packets that were taken or posted.
    pub packets: usize,
    /// The empty buffers that a receive batch posted, or that a transmit batch got back.
    pub buffers: usize,
}

/// How far a reclaiming came.
#[derive(Clone, Copy, Debug, PartialEq, Eq)]
pub struct Reclaimed {
    /// The buffers that came back by this call.
    pub buffers: usize,
    /// Whether none is left in the ring. If not, the worker has 256 empty buffers.
    pub all: bool,
}

impl Packets {
    /// Makes a worker's packets: none, and `buffers` empty buffers, 16 to 256.
    pub fn new(buffers: u32) -> Result<Packets, MakeError> {
        let packets = Packets { handle: Box::new(Handle::empty()) };
        // SAFETY: the handle is empty.
        match unsafe { ffi::poll82599_packets_new(buffers, packets.handle.get()) } {
            0 => Ok(packets),
            refusal => Err(MakeError::of(refusal)),
        }
    }

    /// Appends a packet of a frame of 14 to 15,000 bytes, which are copied. Returns false if there are 32 packets or too few
    /// empty buffers, and `Unfit` for another length.
    pub fn put(&mut self, frame: &[u8]) -> Result<bool, Refusal> {
        // SAFETY: the handle is full, only this call uses it, and the frame has its length.
        match unsafe { ffi::poll82599_packets_put(self.handle.get(), frame.as_ptr(), frame.len()) } {
            2 => Err(Refusal::Unfit),
            answer => Ok(is_done(answer)),
        }
    }

    /// Appends a segment of 1 to 2,048 bytes to the last packet. Returns false if there is no packet or no empty buffer, and
    /// `Unfit` for another length or if the packet would have more than 15 segments or 15,000 bytes.
    pub fn append(&mut self, bytes: &[u8]) -> Result<bool, Refusal> {
        // SAFETY: the handle is full, only this call uses it, and the bytes have their length.
        match unsafe { ffi::poll82599_packets_append(self.handle.get(), bytes.as_ptr(), bytes.len()) } {
            2 => Err(Refusal::Unfit),
            answer => Ok(is_done(answer)),
        }
    }

    /// How many packets there are.
    pub fn len(&self) -> usize {
        self.counted().0
    }

    /// Whether there is no packet.
    pub fn is_empty(&self) -> bool {
        self.len() == 0
    }

    /// How many empty buffers there are.
    pub fn empty_buffers(&self) -> usize {
        self.counted().1
    }

    /// Copies a packet to the beginning of `room`, and returns its bytes there, or `None` if there is no such packet.
    ///
    /// Returns `NoRoom` if the room is smaller than the packet.
    pub fn copy<'a>(&self, packet: usize, room: &'a mut [u8]) -> Result<Option<&'a [u8]>, Refusal> {
        let mut len = 0;
        // SAFETY: as for `read`.
        match unsafe { ffi::poll82599_packet_copy(self.handle.get(), packet, room.as_mut_ptr(), room.len(), &mut len) } {
            4 => Err(Refusal::NoRoom),
            answer => Ok(is_done(answer).then(|| &room[..len])),
        }
    }

    /// Fills `room` with the bytes of a packet from `at` on. Returns false if there is no such packet, or it ends before the range.
    ///
    /// ```
    /// use poll82599::Packets;
    ///
    /// let mut packets = Packets::new(16)?;
    /// packets.put(&[0; 3000])?;
    /// assert!(packets.write(0, 2046, &[1, 2, 3, 4])); // in two buffers
    /// let mut room = [9; 6];
    /// assert!(packets.read(0, 2045, &mut room));
    /// assert_eq!(room, [0, 1, 2, 3, 4, 0]);
    /// assert!(!packets.read(0, 2995, &mut room));
    /// assert_eq!(packets.length(0), Some((3000, 2)));
    /// # Ok::<(), Box<dyn std::error::Error>>(())
    /// ```
    pub fn read(&self, packet: usize, at: usize, room: &mut [u8]) -> bool {
        // SAFETY: the handle is full. `Packets` is not `Sync`, so no other call uses it, and the room has its length.
        is_done(unsafe { ffi::poll82599_packet_read(self.handle.get(), packet, at, room.as_mut_ptr(), room.len()) })
    }

    /// Replaces the bytes of a packet from `at` on. Returns false if there is no such packet, or it ends before the range.
    pub fn write(&mut self, packet: usize, at: usize, bytes: &[u8]) -> bool {
        // SAFETY: the handle is full, only this call uses it, and the bytes have their length.
        is_done(unsafe { ffi::poll82599_packet_write(self.handle.get(), packet, at, bytes.as_ptr(), bytes.len()) })
    }

    /// How many bytes a packet has, and in how many buffers; or `None` if there is no such packet.
    pub fn length(&self, packet: usize) -> Option<(usize, usize)> {
        let (mut len, mut segments) = (0, 0);
        // SAFETY: the handle is full. `Packets` is not `Sync`, so no other call uses it.
        let answer = unsafe { ffi::poll82599_packet_measure(self.handle.get(), packet, &mut len, &mut segments) };
        is_done(answer).then_some((len, segments))
    }

    /// A byte of a packet, or `None` if there is no such packet or byte.
    pub fn byte(&self, packet: usize, at: usize) -> Option<u8> {
        let mut byte = 0;
        // SAFETY: as for `length`.
        is_done(unsafe { ffi::poll82599_packet_byte(self.handle.get(), packet, at, &mut byte) }).then_some(byte)
    }

    /// Replaces a byte of a packet. Returns false if there is no such packet or byte.
    pub fn touch(&mut self, packet: usize, at: usize, byte: u8) -> bool {
        // SAFETY: the handle is full, and only this call uses it.
        is_done(unsafe { ffi::poll82599_packet_touch(self.handle.get(), packet, at, byte) })
    }

    /// Frees a packet: its buffers are empty ones again, and later packets move up. Returns false if there is no such packet.
    ///
    /// Returns `StashFull` if the worker would have more than 256 empty buffers.
    pub fn free(&mut self, packet: usize) -> Result<bool, Refusal> {
        // SAFETY: as for `touch`.
        match unsafe { ffi::poll82599_packet_free(self.handle.get(), packet) } {
            2 => Err(Refusal::StashFull),
            answer => Ok(is_done(answer)),
        }
    }

    /// Moves a packet, with its buffers, behind the packets of another worker; later packets move up. Returns false if there is
    /// no such packet, or the other worker has 32 packets.
    pub fn move_to(&mut self, packet: usize, other: &mut Packets) -> bool {
        // SAFETY: both handles are full, and only this call uses them.
        is_done(unsafe { ffi::poll82599_packet_move(self.handle.get(), packet, other.handle.get()) })
    }

    /// Takes empty buffers from a pool until the worker has 256 or the pool is empty. Returns how many.
    pub fn refill(&mut self, pool: &mut Pool) -> usize {
        self.supplied(pool, Call { operation: 0, ..Call::default() })
    }

    /// Returns empty buffers to a pool: `wanted`, but at most those that the worker has and those that the pool has room for.
    /// Returns how many.
    pub fn give_back(&mut self, pool: &mut Pool, wanted: usize) -> usize {
        self.supplied(pool, Call { operation: 1, count: wanted, ..Call::default() })
    }

    fn supplied(&mut self, pool: &mut Pool, mut call: Call) -> usize {
        // SAFETY: both handles are full, and only this call uses them.
        unsafe { ffi::poll82599_pool_move(self.handle.get(), pool.handle.get(), &mut call) };
        if is_done(call.answer) { call.count } else { 0 }
    }

    /// The numbers of packets and of empty buffers.
    fn counted(&self) -> (usize, usize) {
        let (mut count, mut empty) = (0, 0);
        // SAFETY: as for `length`.
        unsafe { ffi::poll82599_packets_measure(self.handle.get(), &mut count, &mut empty) };
        (count, empty)
    }
}

impl Drop for Packets {
    fn drop(&mut self) {
        // SAFETY: no other call uses the handle. An empty one stays as it is.
        unsafe { ffi::poll82599_packets_close(self.handle.get()) };
    }
}

impl Pool {
    /// Makes a pool of `buffers` empty buffers, 16 to 65,536.
    ///
    /// ```
    /// use poll82599::{Packets, Pool};
    ///
    /// let mut pool = Pool::new(4096)?;
    /// let mut packets = Packets::new(16)?;
    /// assert_eq!(packets.refill(&mut pool), 240);
    /// assert_eq!(packets.give_back(&mut pool, 100), 100);
    /// assert_eq!((packets.empty_buffers(), pool.len()), (156, 3956));
    /// # Ok::<(), Box<dyn std::error::Error>>(())
    /// ```
    pub fn new(buffers: u32) -> Result<Pool, MakeError> {
        let pool = Pool { handle: Box::new(Handle::empty()) };
        // SAFETY: the handle is empty.
        match unsafe { ffi::poll82599_pool_new(buffers, pool.handle.get()) } {
            0 => Ok(pool),
            refusal => Err(MakeError::of(refusal)),
        }
    }

    /// How many buffers are in the pool.
    pub fn len(&self) -> usize {
        // SAFETY: the handle is full. `Pool` is not `Sync`, so no other call uses it.
        unsafe { ffi::poll82599_pool_count(self.handle.get()) }
    }

    /// Whether the pool has no buffer.
    pub fn is_empty(&self) -> bool {
        self.len() == 0
    }
}

impl Drop for Pool {
    fn drop(&mut self) {
        // SAFETY: no other call uses the handle. An empty one stays as it is.
        unsafe { ffi::poll82599_pool_close(self.handle.get()) };
    }
}

impl RxQueue {
    /// Makes a receive queue and its device. The queue is off.
    ///
    /// ```
    /// use poll82599::{Batched, Offer, Packets, RxQueue, RxSettings, State};
    ///
    /// let settings = RxSettings { descriptors: 64, batch: 32, fill: 2048, drop_en: false };
    /// let (mut queue, mut device) = RxQueue::new(settings)?;
    /// let mut packets = Packets::new(128)?;
    /// assert!(!queue.enable()?);
    /// assert_eq!(device.control(), State::On);
    /// assert!(queue.enable()?);
    /// assert_eq!(queue.batch(&mut packets)?, Batched { packets: 0, buffers: 63 }); // posts the first buffers
    /// assert_eq!(device.offer(&[7; 60])?, Offer::Stored);
    /// assert_eq!(queue.batch(&mut packets)?.packets, 1);
    /// assert_eq!(packets.byte(0, 59), Some(7));
    /// # Ok::<(), Box<dyn std::error::Error>>(())
    /// ```
    pub fn new(settings: RxSettings) -> Result<(RxQueue, RxDevice), MakeError> {
        let RxSettings { descriptors, batch, fill, drop_en } = settings;
        // SAFETY: both handles are empty.
        let ends = Ends::make(ffi::poll82599_rx_queue_close, |queue, device| unsafe {
            ffi::poll82599_rx_queue_new(descriptors, batch, fill, u32::from(drop_en), queue, device)
        })
        .map_err(MakeError::of)?;
        Ok((RxQueue { ends: Arc::clone(&ends) }, RxDevice { ends }))
    }

    /// Closes a queue and its device, and frees the buffers in its ring. Returns how many these were, or both sides if they are
    /// of two queues.
    pub fn close(queue: RxQueue, device: RxDevice) -> Result<u64, (RxQueue, RxDevice)> {
        if Arc::ptr_eq(&queue.ends, &device.ends) { Ok(Ends::closed(queue.ends, device.ends)) } else { Err((queue, device)) }
    }

    /// Takes the packets that are complete, up to a batch, and appends them to the worker's; posts as many empty buffers as fit.
    pub fn batch(&mut self, packets: &mut Packets) -> Result<Batched, Refusal> {
        let mut batched = Batched::default();
        let Batched { packets: count, buffers: posted } = &mut batched;
        // SAFETY: both handles are full, and only this call uses them.
        match unsafe { ffi::poll82599_rx_queue_batch(self.ends.driver(), packets.handle.get(), count, posted) } {
            1 => Ok(batched),
            0 => Err(Refusal::NotOn),
            other => unanswered(other),
        }
    }

    /// Loads the quiet word: whether the device said that it stores no more.
    pub fn is_quiet(&mut self) -> bool {
        is_done(self.step(4).0)
    }

    fn step(&mut self, operation: u32) -> (u32, usize) {
        let mut call = Call { operation, ..Call::default() };
        // SAFETY: the handle is full, and only this side uses it.
        unsafe { ffi::poll82599_rx_queue_do(self.ends.driver(), &mut call) };
        (call.answer, call.count)
    }
}

impl TxQueue {
    /// Makes a transmit queue and its device. The queue is off.
    pub fn new(settings: TxSettings) -> Result<(TxQueue, TxDevice), MakeError> {
        let TxSettings { descriptors, every, completion } = settings;
        let by_head = u32::from(completion == Completion::HeadWord);
        // SAFETY: both handles are empty.
        let ends = Ends::make(ffi::poll82599_tx_queue_close, |queue, device| unsafe {
            ffi::poll82599_tx_queue_new(descriptors, every, by_head, queue, device)
        })
        .map_err(MakeError::of)?;
        Ok((TxQueue { ends: Arc::clone(&ends) }, TxDevice { ends }))
    }

    /// Closes a queue and its device, and frees the buffers in its ring. Returns how many these were, or both sides if they are
    /// of two queues.
    pub fn close(queue: TxQueue, device: TxDevice) -> Result<u64, (TxQueue, TxDevice)> {
        if Arc::ptr_eq(&queue.ends, &device.ends) { Ok(Ends::closed(queue.ends, device.ends)) } else { Err((queue, device)) }
    }

    /// Takes back reported buffers, and posts the worker's packets, the oldest first, as long as they fit. The posted ones are no
    /// longer in the worker's list.
    ///
    /// Returns `TooLong` if the oldest packet can never fit; only reported buffers came back then.
    pub fn batch(&mut self, packets: &mut Packets) -> Result<Batched, Refusal> {
        let mut batched = Batched::default();
        let Batched { packets: count, buffers: cleaned } = &mut batched;
        // SAFETY: both handles are full, and only this call uses them.
        match unsafe { ffi::poll82599_tx_queue_batch(self.ends.driver(), packets.handle.get(), count, cleaned) } {
            1 => Ok(batched),
            0 => Err(Refusal::NotOn),
            3 => Err(Refusal::TooLong),
            other => unanswered(other),
        }
    }

    /// How many segments were posted whose buffers have not come back. If there is none, all that was posted was sent, or was
    /// reclaimed.
    pub fn outstanding(&mut self) -> usize {
        self.step(4).1
    }

    /// Takes back reported buffers. Returns how many.
    pub fn clean(&mut self, packets: &mut Packets) -> Result<usize, Refusal> {
        let mut count = 0;
        // SAFETY: as for `batch`.
        let answer = unsafe { ffi::poll82599_tx_queue_clean(self.ends.driver(), packets.handle.get(), &mut count) };
        is_done(answer).then_some(count).ok_or(Refusal::NotOn)
    }

    fn step(&mut self, operation: u32) -> (u32, usize) {
        let mut call = Call { operation, ..Call::default() };
        // SAFETY: the handle is full, and only this side uses it.
        unsafe { ffi::poll82599_tx_queue_do(self.ends.driver(), &mut call) };
        (call.answer, call.count)
    }
}

/// The calls that queues of both directions have.
macro_rules! queue_calls {
    ($queue:ident, $reclaim:ident) => {
        impl $queue {
            /// Asks for the queue to be enabled, if nothing was asked yet, and loads the control word. Returns whether it is on.
            /// Call it until it is; meanwhile the device has to call `control`.
            ///
            /// Returns `NotRenewed` if a disabling was seen answered.
            pub fn enable(&mut self) -> Result<bool, Refusal> {
                match self.step(0).0 {
                    2 => Err(Refusal::NotRenewed),
                    answer => Ok(is_done(answer)),
                }
            }

            /// Asks for the queue to be disabled. Returns false if it was not seen on, or this was asked before.
            pub fn disable(&mut self) -> bool {
                is_done(self.step(1).0)
            }

            /// Loads the control word, and once the disabling is answered the head. Returns then, once, how many segments are
            /// left: stored and not taken, or posted and not sent.
            pub fn finish(&mut self) -> Option<usize> {
                let (answer, left) = self.step(2);
                is_done(answer).then_some(left)
            }

            /// Takes the buffers of a disabled queue back as empty ones of the worker.
            pub fn reclaim(&mut self, packets: &mut Packets) -> Result<Reclaimed, Refusal> {
                let mut buffers = 0;
                // SAFETY: both handles are full, and only this call uses them.
                match unsafe { ffi::$reclaim(self.ends.driver(), packets.handle.get(), &mut buffers) } {
                    2 => Err(Refusal::NotDisabled),
                    answer => Ok(Reclaimed { buffers, all: is_done(answer) }),
                }
            }

            /// Makes a disabled queue from which all buffers are back as new. Returns false if no disabling was seen answered,
            /// or a buffer is still in the ring.
            pub fn renew(&mut self) -> bool {
                is_done(self.step(3).0)
            }
        }
    };
}

queue_calls!(RxQueue, poll82599_rx_queue_reclaim);
queue_calls!(TxQueue, poll82599_tx_queue_reclaim);

impl RxDevice {
    /// Offers a frame that came in, of 14 to 15,000 bytes.
    ///
    /// Returns `Unfit` for another length, and `NotOn` if the queue is off or the device has finished.
    pub fn offer(&mut self, frame: &[u8]) -> Result<Offer, Refusal> {
        // SAFETY: the handle is full, only this side uses it, and the frame has its length.
        match unsafe { ffi::poll82599_offer(self.ends.device(), frame.as_ptr(), frame.len()) } {
            1 => Ok(Offer::Stored),
            0 => Ok(Offer::Held),
            2 => Err(Refusal::Unfit),
            3 => Err(Refusal::NotOn),
            4 => Ok(Offer::Oversize),
            5 => Ok(Offer::Dropped),
            other => unanswered(other),
        }
    }

    /// Loads the control word, and answers what the driver asks. Returns the word that it stored, or else loaded.
    pub fn control(&mut self) -> State {
        // SAFETY: the handle is full, and only this side uses it.
        State::of(unsafe { ffi::poll82599_rx_device_control(self.ends.device()) })
    }

    /// Says that no more is stored until the queue is enabled again. Returns false if the queue is off, or this was said before.
    pub fn finish(&mut self) -> bool {
        // SAFETY: as for `control`.
        is_done(unsafe { ffi::poll82599_rx_device_finish(self.ends.device()) })
    }

    /// The outcomes of the frames offered so far. A frame that was held, or refused, counts nowhere.
    pub fn counts(&mut self) -> Counts {
        let mut counts = Offered::default();
        // SAFETY: as for `control`.
        unsafe { ffi::poll82599_rx_device_count(self.ends.device(), &mut counts) };
        let Offered { offered, stored, dropped, oversize } = counts;
        Counts { offered, stored, dropped, oversize }
    }
}

impl TxDevice {
    /// Sends the next frame, in the order in which they were posted, and reports it if it asks for a report. Returns its bytes in
    /// `room`, or `None` if none is ready.
    ///
    /// Returns `NotOn` if the queue is off, and `Memory`; the frame is not sent then. Returns `NoRoom` if the frame is longer than
    /// `room`; then it was sent and waits, and the next call with room for it hands it out.
    pub fn turn<'a>(&mut self, room: &'a mut [u8]) -> Result<Option<&'a [u8]>, Refusal> {
        let mut len = 0;
        // SAFETY: the handle is full, only this side uses it, and the room has its length.
        match unsafe { ffi::poll82599_turn(self.ends.device(), room.as_mut_ptr(), room.len(), &mut len) } {
            1 => Ok(Some(&room[..len])),
            0 => Ok(None),
            3 => Err(Refusal::NotOn),
            4 => Err(Refusal::NoRoom),
            5 => Err(Refusal::Memory),
            other => unanswered(other),
        }
    }

    /// Loads the control word, and answers what the driver asks. Returns the word that it stored, or else loaded.
    pub fn control(&mut self) -> State {
        // SAFETY: the handle is full, and only this side uses it.
        State::of(unsafe { ffi::poll82599_tx_device_control(self.ends.device()) })
    }
}
