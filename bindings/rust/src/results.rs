//! What calls answer if they are not done.

use std::error::Error;
use std::fmt;

/// Implements `Display` and `Error` with a text for each variant.
macro_rules! texts {
    ($name:ident { $($variant:pat => $text:literal,)* }) => {
        impl fmt::Display for $name {
            fn fmt(&self, f: &mut fmt::Formatter<'_>) -> fmt::Result {
                f.write_str(match self {
                    $($variant => $text,)*
                })
            }
        }

        impl Error for $name {}
    };
}

/// Why a ring, a queue or packets could not be made.
#[derive(Clone, Copy, Debug, PartialEq, Eq)]
#[non_exhaustive]
pub enum MakeError {
    /// The number of descriptors is not a power of two from 8 to 4,096.
    Length,
    /// Memory was refused.
    Memory,
    /// The number of buffers is not 16 to 256, or of a pool 16 to 65,536.
    Buffers,
    /// Another setting is out of range.
    Setting,
}

texts!(MakeError {
    MakeError::Length => "the number of descriptors is not a power of two from 8 to 4,096",
    MakeError::Memory => "memory was refused",
    MakeError::Buffers => "the number of buffers is not 16 to 256, or of a pool 16 to 65,536",
    MakeError::Setting => "a setting is out of range",
});

impl MakeError {
    /// The refusal with this number.
    pub(crate) fn of(number: i32) -> MakeError {
        match number {
            1 => MakeError::Length,
            3 => MakeError::Buffers,
            4 => MakeError::Setting,
            _ => MakeError::Memory,
        }
    }
}

/// Why a call did nothing and will do nothing until something else happens.
#[derive(Clone, Copy, Debug, PartialEq, Eq)]
#[non_exhaustive]
pub enum Refusal {
    /// The queue was not seen on, or was seen off, or its device has said that it stores no more.
    NotOn,
    /// Nothing is posted, so nothing can arrive.
    NothingPosted,
    /// The frame or segment has a length that is not allowed, or cannot follow the frame so far.
    Unfit,
    /// No disabling was seen answered.
    NotDisabled,
    /// A disabling was seen answered, and the queue was not renewed.
    NotRenewed,
    /// The packet needs at least as many descriptors as the ring has.
    TooLong,
    /// Memory was refused.
    Memory,
    /// The room for the bytes is too small.
    NoRoom,
    /// The worker would have more than 256 empty buffers.
    StashFull,
}

texts!(Refusal {
    Refusal::NotOn => "the queue is not on",
    Refusal::NothingPosted => "nothing is posted",
    Refusal::Unfit => "the frame or segment has no lawful length, or cannot follow the frame so far",
    Refusal::NotDisabled => "no disabling was seen answered",
    Refusal::NotRenewed => "the queue was disabled and is not renewed",
    Refusal::TooLong => "the packet needs at least as many descriptors as the ring has",
    Refusal::Memory => "memory was refused",
    Refusal::NoRoom => "the room for the bytes is too small",
    Refusal::StashFull => "the worker would have more than 256 empty buffers",
});

/// The control word of a queue.
#[derive(Clone, Copy, Debug, PartialEq, Eq)]
pub enum State {
    /// The queue is off: it is new, or a disabling was answered.
    Off,
    /// The driver asked for the queue to be enabled.
    EnableAsked,
    /// The queue is on.
    On,
    /// The driver asked for the queue to be disabled.
    DisableAsked,
}

impl State {
    /// The state with this control word.
    pub(crate) fn of(word: u32) -> State {
        match word {
            0 => State::Off,
            1 => State::EnableAsked,
            2 => State::On,
            3 => State::DisableAsked,
            _ => unanswered(word),
        }
    }
}

/// Handles are full and of their kind, so no call answers another number.
pub(crate) fn unanswered(answer: u32) -> ! {
    unreachable!("poll82599 answered {answer}")
}

/// Whether a call that answers 1 or 0 did something.
pub(crate) fn is_done(answer: u32) -> bool {
    match answer {
        1 => true,
        0 => false,
        other => unanswered(other),
    }
}
