//! Rings segment by segment: each call makes the steps that `docs/LIBRARY.md` lists for it.

use crate::ffi::{self, Call, Ends, Handle};
use crate::results::{MakeError, Refusal, State, is_done, unanswered};
use std::sync::Arc;

/// The bytes of a buffer, and the most in a segment.
pub const BUFFER_BYTES: usize = 2048;

/// The most bytes of a frame, without its CRC.
pub const MOST_FRAME: usize = 15_000;

/// A segment that was taken or sent.
#[derive(Clone, Copy, Debug, PartialEq, Eq)]
pub struct Segment<'a> {
    /// Its bytes, in the room that the call was given.
    pub bytes: &'a [u8],
    /// Whether it ends its frame.
    pub eop: bool,
}

/// A receive ring.
pub struct RxRing;

/// The driver's end of a receive ring.
pub struct RxDriver {
    ends: Arc<Ends>,
}

/// The controller's end of a receive ring.
pub struct RxController {
    ends: Arc<Ends>,
}

/// A transmit ring.
pub struct TxRing;

/// The driver's end of a transmit ring.
pub struct TxDriver {
    ends: Arc<Ends>,
}

/// The controller's end of a transmit ring.
pub struct TxController {
    ends: Arc<Ends>,
}

/// How a transmit ring reports what was sent.
#[derive(Clone, Copy, Debug, PartialEq, Eq, Default)]
pub enum Completion {
    /// By DD in the descriptors that ask for a report.
    #[default]
    Descriptors,
    /// By a word in memory that holds the head.
    HeadWord,
}

impl RxRing {
    /// Makes a receive ring of `descriptors` descriptors, a power of two from 8 to 4,096, whose driver has `buffers` empty
    /// buffers, 16 to 256. The ring is off. Its memory is freed once both ends are dropped or closed.
    ///
    /// ```
    /// use poll82599::{BUFFER_BYTES, RxRing, State};
    ///
    /// let (mut driver, mut controller) = RxRing::new(8, 16)?;
    /// while driver.post() {}
    /// driver.set_tail();
    /// driver.ask_enable();
    /// assert!(controller.answer());
    /// assert_eq!(driver.state(), State::On);
    /// assert!(controller.store(&[7; 60])?);
    /// let mut room = [0; BUFFER_BYTES];
    /// let segment = driver.poll(&mut room)?.expect("a segment was stored");
    /// assert_eq!((segment.bytes, segment.eop), (&[7; 60][..], true));
    /// # Ok::<(), Box<dyn std::error::Error>>(())
    /// ```
    #[expect(clippy::new_ret_no_self, reason = "a ring is its two ends")]
    pub fn new(descriptors: u32, buffers: u32) -> Result<(RxDriver, RxController), MakeError> {
        // SAFETY: both handles are empty.
        let ends = Ends::make(ffi::poll82599_rx_close, |driver, controller| unsafe {
            ffi::poll82599_rx_new(descriptors, buffers, driver, controller)
        })
        .map_err(MakeError::of)?;
        Ok((RxDriver { ends: Arc::clone(&ends) }, RxController { ends }))
    }

    /// Closes a ring and frees its memory. Returns how many buffers lay in it, or both ends if they are of two rings.
    pub fn close(driver: RxDriver, controller: RxController) -> Result<u64, (RxDriver, RxController)> {
        if Arc::ptr_eq(&driver.ends, &controller.ends) { Ok(Ends::closed(driver.ends, controller.ends)) } else { Err((driver, controller)) }
    }
}

impl TxRing {
    /// Makes a transmit ring of `descriptors` descriptors, a power of two from 8 to 4,096, whose driver has `buffers` empty
    /// buffers, 16 to 256. The ring is off. Its memory is freed once both ends are dropped or closed.
    #[expect(clippy::new_ret_no_self, reason = "a ring is its two ends")]
    pub fn new(descriptors: u32, buffers: u32, completion: Completion) -> Result<(TxDriver, TxController), MakeError> {
        let by_head = u32::from(completion == Completion::HeadWord);
        // SAFETY: both handles are empty.
        let ends = Ends::make(ffi::poll82599_tx_close, |driver, controller| unsafe {
            ffi::poll82599_tx_new(descriptors, buffers, by_head, driver, controller)
        })
        .map_err(MakeError::of)?;
        Ok((TxDriver { ends: Arc::clone(&ends) }, TxController { ends }))
    }

    /// Closes a ring and frees its memory. Returns how many buffers lay in it, or both ends if they are of two rings.
    pub fn close(driver: TxDriver, controller: TxController) -> Result<u64, (TxDriver, TxController)> {
        if Arc::ptr_eq(&driver.ends, &controller.ends) { Ok(Ends::closed(driver.ends, controller.ends)) } else { Err((driver, controller)) }
    }
}

/// The segment that a call hands out into `room`, with the call's answer.
fn handed(room: &mut [u8; BUFFER_BYTES], call: impl FnOnce(*mut u8, usize, *mut u32, *mut u32) -> u32) -> (u32, Segment<'_>) {
    let (mut len, mut eop) = (0, 0);
    let answer = call(room.as_mut_ptr(), room.len(), &mut len, &mut eop);
    (answer, Segment { bytes: &room[..len as usize], eop: eop != 0 })
}

/// The calls that drivers of both directions have.
macro_rules! driver_calls {
    ($driver:ident, $head:literal, $drive:path) => {
        impl $driver {
            #[doc = concat!("Publishes all that is posted: stores ", $head, ". Returns false if a disabling was asked for")]
            /// or a frame to be sent is unfinished.
            pub fn set_tail(&mut self) -> bool {
                is_done(self.step(0).answer)
            }

            /// Asks for the queue to be enabled. Returns false if this was asked before and the ring was not renewed since.
            pub fn ask_enable(&mut self) -> bool {
                is_done(self.step(1).answer)
            }

            /// Loads the control word. Only by this call does the driver learn of an answer.
            pub fn state(&mut self) -> State {
                State::of(self.step(2).answer)
            }

            /// Asks for the queue to be disabled. Returns false if the queue was not seen on, or this was asked before.
            pub fn ask_disable(&mut self) -> bool {
                is_done(self.step(3).answer)
            }

            /// Takes back the oldest buffer in the disabled ring. Returns false if none is left.
            pub fn reclaim(&mut self) -> Result<bool, Refusal> {
                match self.step(4).answer {
                    2 => Err(Refusal::NotDisabled),
                    answer => Ok(is_done(answer)),
                }
            }

            /// Makes a disabled ring from which all buffers are back as new. Returns false if no disabling was seen
            /// answered, or a buffer is still in the ring.
            pub fn renew(&mut self) -> bool {
                is_done(self.step(5).answer)
            }

            /// How many segments are left in the disabled ring. Returns `None` once a buffer of a receive ring was reclaimed.
            fn left(&mut self) -> Result<Option<u32>, Refusal> {
                let call = self.step(6);
                match call.answer {
                    1 => Ok(Some(call.count as u32)),
                    0 => Ok(None),
                    2 => Err(Refusal::NotDisabled),
                    other => unanswered(other),
                }
            }

            fn handle(&self) -> *mut Handle {
                self.ends.driver()
            }

            fn step(&mut self, operation: u32) -> Call {
                let mut call = Call { operation, ..Call::default() };
                // SAFETY: the handle is full, and only this end uses it.
                unsafe { $drive(self.handle(), &mut call) };
                call
            }
        }
    };
}

driver_calls!(RxDriver, "RDT", ffi::poll82599_rx_drive);
driver_calls!(TxDriver, "TDT", ffi::poll82599_tx_drive);

impl RxDriver {
    /// Posts an empty buffer in the next descriptor. Returns false if no descriptor is free, no empty buffer is left, or a
    /// disabling was asked for.
    pub fn post(&mut self) -> bool {
        // SAFETY: the handle is full, and only this end uses it.
        is_done(unsafe { ffi::poll82599_rx_post(self.handle()) })
    }

    /// Takes the next segment, in the order in which they were stored. Returns `None` if the next descriptor has no DD yet.
    ///
    /// Returns `NothingPosted` or `NotOn` without a step.
    pub fn poll<'a>(&mut self, room: &'a mut [u8; BUFFER_BYTES]) -> Result<Option<Segment<'a>>, Refusal> {
        // SAFETY: the handle is full, only this end uses it, and the room has its length.
        let poll = |bytes, room, len, eop| unsafe { ffi::poll82599_rx_poll(self.handle(), bytes, room, len, eop) };
        match handed(room, poll) {
            (1, segment) => Ok(Some(segment)),
            (0, _) => Ok(None),
            (2, _) => Err(Refusal::NothingPosted),
            (3, _) => Err(Refusal::NotOn),
            (other, _) => unanswered(other),
        }
    }

    /// Loads the quiet word: whether the controller said that it stores no more. If it did and `poll` then takes nothing,
    /// all that was stored has been taken.
    pub fn is_quiet(&mut self) -> bool {
        is_done(self.step(7).answer)
    }

    /// Loads RDH of a disabled ring: how many segments were stored and not taken. Returns `None` once a buffer was
    /// reclaimed.
    pub fn untaken(&mut self) -> Result<Option<u32>, Refusal> {
        self.left()
    }
}

impl RxController {
    /// Loads the control word, and answers what the driver asks. Returns false if nothing was asked, or a disabling has to
    /// wait for the end of a frame.
    pub fn answer(&mut self) -> bool {
        // SAFETY: the handle is full, and only this end uses it.
        is_done(unsafe { ffi::poll82599_rx_answer(self.ends.device()) })
    }

    /// Stores a frame of one segment, 14 to 2,048 bytes. Returns false if no descriptor is free.
    ///
    /// Returns `Unfit` for another length, or if a frame is unfinished that these bytes cannot end; `NotOn` if the queue is
    /// off or was said to be quiet. Nothing is stored then.
    pub fn store(&mut self, frame: &[u8]) -> Result<bool, Refusal> {
        self.store_segment(frame, true)
    }

    /// Stores a segment of 1 to 2,048 bytes, which ends its frame if `eop`. A frame has 14 to 15,000 bytes in up to 15
    /// segments, and fewer segments than the ring has descriptors. Refuses as `store`.
    pub fn store_segment(&mut self, bytes: &[u8], eop: bool) -> Result<bool, Refusal> {
        // SAFETY: the handle is full, only this end uses it, and the segment has its length.
        match unsafe { ffi::poll82599_rx_store_segment(self.ends.device(), bytes.as_ptr(), bytes.len(), u32::from(eop)) } {
            2 => Err(Refusal::Unfit),
            3 => Err(Refusal::NotOn),
            answer => Ok(is_done(answer)),
        }
    }

    /// Says that no more is stored until the queue is enabled again. Returns false if the queue is off or a frame is
    /// unfinished.
    pub fn set_quiet(&mut self) -> bool {
        // SAFETY: the handle is full, and only this end uses it.
        is_done(unsafe { ffi::poll82599_rx_set_quiet(self.ends.device()) })
    }
}

impl TxDriver {
    /// Posts a frame of one segment, 14 to 2,048 bytes, and asks for a report. The bytes are copied. Returns false if no
    /// descriptor is free, no empty buffer is left, or a disabling was asked for.
    ///
    /// Returns `Unfit` for another length, or if a frame is unfinished that these bytes cannot end.
    pub fn post(&mut self, frame: &[u8]) -> Result<bool, Refusal> {
        let paylen = u32::try_from(frame.len()).unwrap_or(0);
        self.post_segment(frame, true, true, paylen)
    }

    /// Posts a segment of 1 to 2,048 bytes of a frame of `paylen` bytes. `rs` asks for a report, and is allowed only with
    /// `eop`. Refuses as `post`.
    pub fn post_segment(&mut self, bytes: &[u8], eop: bool, rs: bool, paylen: u32) -> Result<bool, Refusal> {
        let (eop, rs) = (u32::from(eop), u32::from(rs));
        // SAFETY: the handle is full, only this end uses it, and the segment has its length.
        match unsafe { ffi::poll82599_tx_post_segment(self.handle(), bytes.as_ptr(), bytes.len(), eop, rs, paylen) } {
            2 => Err(Refusal::Unfit),
            answer => Ok(is_done(answer)),
        }
    }

    /// Loads the oldest report that is outstanding. Returns true if it is made; then so are all before it.
    pub fn poll_report(&mut self) -> bool {
        is_done(self.step(7).answer)
    }

    /// Takes back the buffer of the oldest descriptor that `poll_report` found reported. Returns false if there is none.
    pub fn clean(&mut self) -> bool {
        // SAFETY: the handle is full, and only this end uses it.
        is_done(unsafe { ffi::poll82599_tx_clean(self.handle()) })
    }

    /// Loads TDH of a disabled ring: how many segments were posted and not sent.
    pub fn unsent(&mut self) -> Result<u32, Refusal> {
        Ok(self.left()?.unwrap_or_else(|| unanswered(0)))
    }
}

impl TxController {
    /// Loads the control word, and answers what the driver asks. Returns false if nothing was asked, or a disabling has to
    /// wait for the end of a frame.
    pub fn answer(&mut self) -> bool {
        // SAFETY: the handle is full, and only this end uses it.
        is_done(unsafe { ffi::poll82599_tx_answer(self.ends.device()) })
    }

    /// Sends the next segment, in the order in which they were posted, and reports it if it asks for a report. Returns
    /// `None` if none is ready, and `NotOn` if the queue is off.
    pub fn send<'a>(&mut self, room: &'a mut [u8; BUFFER_BYTES]) -> Result<Option<Segment<'a>>, Refusal> {
        // SAFETY: the handle is full, only this end uses it, and the room has its length.
        let send = |bytes, room, len, eop| unsafe { ffi::poll82599_tx_send(self.ends.device(), bytes, room, len, eop) };
        match handed(room, send) {
            (1, segment) => Ok(Some(segment)),
            (0, _) => Ok(None),
            (3, _) => Err(Refusal::NotOn),
            (other, _) => unanswered(other),
        }
    }
}
