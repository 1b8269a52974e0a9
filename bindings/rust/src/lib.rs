//! Receive and transmit rings of the Intel 82599 between threads, over the proved library poll82599.
//!
//! [`RxRing`] and [`TxRing`] are used segment by segment; [`RxQueue`], [`TxQueue`], [`Packets`] and [`Pool`] in batches. A thread tells others its
//! counts by [`Counters`]. A new ring is off:
//! its driver asks for it to be enabled, the other end answers, and the driver sees the answer. Both ends of a ring may be in calls
//! of two threads at the same time; nothing locks or waits. `docs/LIBRARY.md` of the repository describes each call and lists what
//! is proved. The wrappers here are not proved, but tested.

#![deny(unsafe_op_in_unsafe_fn)]

mod batches;
mod counters;
mod ffi;
mod plain;
mod results;
mod rings;

pub use batches::{Batched, Counts, Offer, Packets, Pool, Reclaimed, RxDevice, RxQueue, RxSettings, TxDevice, TxQueue, TxSettings};
pub use counters::{COUNTERS, CounterReader, Counters};
pub use plain::{DecodeError, Descriptor, Form, MovesError, OnceError, Plan, decode, encode, moves, once};
pub use results::{MakeError, Refusal, State};
pub use rings::{BUFFER_BYTES, Completion, MOST_FRAME, RxController, RxDriver, RxRing, Segment, TxController, TxDriver, TxRing};
