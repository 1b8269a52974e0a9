//! The drivers of both layers: they send the packets of a receive queue on a transmit queue.

use crate::buffer::Buffer;
use crate::driver::{MOST_BATCH, Refusal, RxDriver, TxDriver};
use crate::packet::{Packet, STASH_BUFFERS, Stash};
use crate::{ring, tx_ring};

/// How many packets a call received and sent on.
pub struct Moved {
    pub received: usize,
    pub sent: usize,
}

/// A driver of each direction, the empty buffers, and the packets that were received but not sent yet.
pub struct Forwarder<'a> {
    rx: RxDriver<'a>,
    tx: TxDriver<'a>,
    stash: Stash,
    packets: Vec<Packet>,
}

impl<'a> Forwarder<'a> {
    pub fn new(rx: ring::Driver<'a>, tx: tx_ring::Driver<'a>, batch: usize) -> Self {
        Forwarder {
            rx: RxDriver::new(rx, batch),
            tx: TxDriver::new(tx),
            stash: Stash::new(),
            packets: Vec::with_capacity(MOST_BATCH),
        }
    }

    pub fn ask_enable(&mut self) {
        self.rx.ask_enable();
        self.tx.ask_enable();
    }

    pub fn look_on(&mut self) -> bool {
        self.rx.look_on() && self.tx.look_on()
    }

    /// Posts a buffer at each place of a receive ring of `ring` descriptors, and fills the stash.
    pub fn fill(&mut self, ring: usize) -> Result<(), Refusal> {
        let mut stock = (0..ring + STASH_BUFFERS).map(|number| Buffer::new(number as u16));
        for _ in 0..=ring / STASH_BUFFERS + 1 {
            while !self.stash.is_full()
                && let Some(buffer) = stock.next()
            {
                self.stash.put(buffer);
            }
            self.forward()?;
        }
        Ok(())
    }

    /// Receives a batch of packets, and sends on the packets that are waiting.
    pub fn forward(&mut self) -> Result<Moved, Refusal> {
        let received = self.rx.rx_batch(&mut self.stash, &mut self.packets)?;
        let sent = self.tx.tx_batch(&mut self.stash, &mut self.packets)?;
        Ok(Moved { received, sent })
    }
}
