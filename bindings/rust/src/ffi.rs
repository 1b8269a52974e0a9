//! The exported functions and structs of the library, as `include/poll82599.h` declares them.

use std::cell::UnsafeCell;
use std::ptr::null_mut;
use std::sync::Arc;

/// A handle. It stays where it was made, and one call at a time uses it.
#[repr(C)]
pub struct Handle(*mut u8);

impl Handle {
    /// A handle that holds nothing.
    pub const fn empty() -> UnsafeCell<Handle> {
        UnsafeCell::new(Handle(null_mut()))
    }
}

/// `struct poll82599_call`.
#[repr(C)]
#[derive(Default)]
pub struct Call {
    pub operation: u32,
    pub answer: u32,
    pub count: usize,
}

/// `struct poll82599_offered`.
#[repr(C)]
#[derive(Default)]
pub struct Offered {
    pub offered: u64,
    pub stored: u64,
    pub dropped: u64,
    pub oversize: u64,
}

/// `struct poll82599_descriptor`.
#[repr(C)]
#[derive(Default)]
pub struct Descriptor {
    pub number: u32,
    pub len: u32,
    pub eop: u32,
    pub rs: u32,
    pub paylen: u32,
}

/// `struct poll82599_plan`.
#[repr(C)]
pub struct Plan {
    pub pairs: u32,
    pub descriptors: u32,
    pub enabled: u32,
    pub by_head: u32,
    pub json: u32,
}

/// `struct poll82599_moved`.
#[repr(C)]
#[derive(Default)]
pub struct Moved {
    pub needed: u64,
    pub line: u64,
}

/// Closes two ends of one ring.
pub type Close = unsafe extern "C" fn(*mut Handle, *mut Handle) -> i64;

unsafe extern "C" {
    pub fn poll82599_rx_new(descriptors: u32, buffers: u32, driver: *mut Handle, controller: *mut Handle) -> i32;
    pub fn poll82599_rx_post(driver: *mut Handle) -> u32;
    pub fn poll82599_rx_poll(driver: *mut Handle, bytes: *mut u8, room: usize, len: *mut u32, eop: *mut u32) -> u32;
    pub fn poll82599_rx_drive(driver: *mut Handle, call: *mut Call);
    pub fn poll82599_rx_store_segment(controller: *mut Handle, bytes: *const u8, len: usize, eop: u32) -> u32;
    pub fn poll82599_rx_answer(controller: *mut Handle) -> u32;
    pub fn poll82599_rx_set_quiet(controller: *mut Handle) -> u32;
    pub fn poll82599_rx_close(driver: *mut Handle, controller: *mut Handle) -> i64;
    pub fn poll82599_tx_new(descriptors: u32, buffers: u32, by_head: u32, driver: *mut Handle, controller: *mut Handle) -> i32;
    pub fn poll82599_tx_post_segment(driver: *mut Handle, bytes: *const u8, len: usize, eop: u32, rs: u32, paylen: u32) -> u32;
    pub fn poll82599_tx_clean(driver: *mut Handle) -> u32;
    pub fn poll82599_tx_drive(driver: *mut Handle, call: *mut Call);
    pub fn poll82599_tx_send(controller: *mut Handle, bytes: *mut u8, room: usize, len: *mut u32, eop: *mut u32) -> u32;
    pub fn poll82599_tx_answer(controller: *mut Handle) -> u32;
    pub fn poll82599_tx_close(driver: *mut Handle, controller: *mut Handle) -> i64;
    pub fn poll82599_packets_new(buffers: u32, packets: *mut Handle) -> i32;
    pub fn poll82599_packets_put(packets: *mut Handle, frame: *const u8, len: usize) -> u32;
    pub fn poll82599_packets_append(packets: *mut Handle, bytes: *const u8, len: usize) -> u32;
    pub fn poll82599_packet_move(packets: *mut Handle, packet: usize, other: *mut Handle) -> u32;
    pub fn poll82599_packet_read(packets: *mut Handle, packet: usize, at: usize, bytes: *mut u8, len: usize) -> u32;
    pub fn poll82599_packet_write(packets: *mut Handle, packet: usize, at: usize, bytes: *const u8, len: usize) -> u32;
    pub fn poll82599_packet_copy(packets: *mut Handle, packet: usize, bytes: *mut u8, room: usize, len: *mut usize) -> u32;
    pub fn poll82599_packet_byte(packets: *mut Handle, packet: usize, at: usize, byte: *mut u8) -> u32;
    pub fn poll82599_packet_touch(packets: *mut Handle, packet: usize, at: usize, byte: u8) -> u32;
    pub fn poll82599_packet_free(packets: *mut Handle, packet: usize) -> u32;
    pub fn poll82599_packet_measure(packets: *mut Handle, packet: usize, len: *mut usize, segments: *mut usize) -> u32;
    pub fn poll82599_packets_measure(packets: *mut Handle, count: *mut usize, empty: *mut usize) -> u32;
    pub fn poll82599_packets_close(packets: *mut Handle) -> usize;
    pub fn poll82599_pool_new(buffers: u32, pool: *mut Handle) -> i32;
    pub fn poll82599_pool_move(packets: *mut Handle, pool: *mut Handle, call: *mut Call);
    pub fn poll82599_pool_count(pool: *mut Handle) -> usize;
    pub fn poll82599_pool_close(pool: *mut Handle) -> usize;
    pub fn poll82599_counters_new(counters: *mut Handle) -> i32;
    pub fn poll82599_counters_reader(counters: *mut Handle, reader: *mut Handle) -> i32;
    pub fn poll82599_counters_set(counters: *mut Handle, at: usize, number: u64) -> u32;
    pub fn poll82599_counters_get(reader: *mut Handle, at: usize, number: *mut u64) -> u32;
    pub fn poll82599_counters_close(counters: *mut Handle) -> i64;
    pub fn poll82599_rx_queue_new(
        descriptors: u32,
        batch: usize,
        fill: usize,
        drop_en: u32,
        queue: *mut Handle,
        device: *mut Handle,
    ) -> i32;
    pub fn poll82599_rx_queue_batch(queue: *mut Handle, packets: *mut Handle, count: *mut usize, posted: *mut usize) -> u32;
    pub fn poll82599_rx_queue_reclaim(queue: *mut Handle, packets: *mut Handle, count: *mut usize) -> u32;
    pub fn poll82599_rx_queue_do(queue: *mut Handle, call: *mut Call);
    pub fn poll82599_offer(device: *mut Handle, frame: *const u8, len: usize) -> u32;
    pub fn poll82599_rx_device_control(device: *mut Handle) -> u32;
    pub fn poll82599_rx_device_finish(device: *mut Handle) -> u32;
    pub fn poll82599_rx_device_count(device: *mut Handle, counts: *mut Offered) -> u32;
    pub fn poll82599_rx_queue_close(queue: *mut Handle, device: *mut Handle) -> i64;
    pub fn poll82599_tx_queue_new(descriptors: u32, every: u16, by_head: u32, queue: *mut Handle, device: *mut Handle) -> i32;
    pub fn poll82599_tx_queue_batch(queue: *mut Handle, packets: *mut Handle, count: *mut usize, cleaned: *mut usize) -> u32;
    pub fn poll82599_tx_queue_clean(queue: *mut Handle, packets: *mut Handle, count: *mut usize) -> u32;
    pub fn poll82599_tx_queue_reclaim(queue: *mut Handle, packets: *mut Handle, count: *mut usize) -> u32;
    pub fn poll82599_tx_queue_do(queue: *mut Handle, call: *mut Call);
    pub fn poll82599_turn(device: *mut Handle, bytes: *mut u8, room: usize, len: *mut usize) -> u32;
    pub fn poll82599_tx_device_control(device: *mut Handle) -> u32;
    pub fn poll82599_tx_queue_close(queue: *mut Handle, device: *mut Handle) -> i64;
    pub fn poll82599_decode(form: u32, bytes: *const u8, len: usize, said: *mut Descriptor) -> u32;
    pub fn poll82599_encode(form: u32, said: *const Descriptor, bytes: *mut u8, len: usize) -> u32;
    pub fn poll82599_moves(plan: *const Plan, text: *const u8, len: usize, page: *mut u8, room: usize, moved: *mut Moved) -> u32;
    pub fn poll82599_once(frame: *const u8, len: usize, taken: *mut u8, room: usize) -> u32;
}

/// The handles of both ends of a ring. Each end has a share of them and uses its own handle; the last one closes the ring.
pub struct Ends {
    driver: UnsafeCell<Handle>,
    device: UnsafeCell<Handle>,
    close: Close,
}

// SAFETY: a handle of the library may go to another thread between two calls. Each handle is used by calls of one end, which take
// that end by `&mut`; `Arc` orders the last of these calls before `drop`.
unsafe impl Send for Ends {}
// SAFETY: as above. The two ends of a ring may be in calls of two threads at the same time.
unsafe impl Sync for Ends {}

impl Ends {
    /// Has `make` fill two empty handles. Returns its refusal if it is not 0.
    pub fn make(close: Close, make: impl FnOnce(*mut Handle, *mut Handle) -> i32) -> Result<Arc<Ends>, i32> {
        let ends = Arc::new(Ends { driver: Handle::empty(), device: Handle::empty(), close });
        match make(ends.driver.get(), ends.device.get()) {
            0 => Ok(ends),
            refusal => Err(refusal),
        }
    }

    /// The driver's handle, for a call of the driver.
    pub fn driver(&self) -> *mut Handle {
        self.driver.get()
    }

    /// The device's or controller's handle, for a call of that end.
    pub fn device(&self) -> *mut Handle {
        self.device.get()
    }

    /// Closes the ring, if these are the shares of its two ends. Returns how many buffers lay in it.
    pub fn closed(driver: Arc<Ends>, device: Arc<Ends>) -> u64 {
        drop(device);
        let mut ends = Arc::into_inner(driver).expect("a ring has two ends");
        // SAFETY: both handles are of one ring, and no end uses them any more.
        let in_ring = unsafe { (ends.close)(ends.driver.get_mut(), ends.device.get_mut()) };
        u64::try_from(in_ring).expect("a ring that has no other owner is closed")
    }
}

impl Drop for Ends {
    fn drop(&mut self) {
        // SAFETY: no end is left that uses the handles. Handles that are empty already stay so.
        unsafe { (self.close)(self.driver.get_mut(), self.device.get_mut()) };
    }
}
