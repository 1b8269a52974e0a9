//! Descriptors, lists of moves and single frames, without a ring of the caller's.

use crate::ffi;
use crate::results::unanswered;
use std::error::Error;
use std::fmt;

/// The form of a descriptor of 16 bytes: as the driver posts it, or as the controller writes it back. The bytes do not show it.
#[derive(Clone, Copy, Debug, PartialEq, Eq)]
pub enum Form {
    RxRead,
    RxBack,
    TxRead,
    TxBack,
}

/// The fields of a descriptor. Those that a form does not have are 0 or false.
#[derive(Clone, Copy, Debug, PartialEq, Eq, Default)]
pub struct Descriptor {
    /// The number of its buffer, below 65,536.
    pub number: u32,
    /// The bytes in it: 1 to 2,048.
    pub len: u32,
    /// Whether the segment ends its frame.
    pub eop: bool,
    /// Whether it asks for a report; only with `eop`.
    pub rs: bool,
    /// The bytes of the whole frame: 14 to 15,000.
    pub paylen: u32,
}

/// Why a descriptor cannot be decoded: the first of these that applies.
#[derive(Clone, Copy, Debug, PartialEq, Eq)]
pub enum DecodeError {
    /// There are not 16 bytes.
    Size,
    /// A bit that the profile fixes has another value.
    FixedBit,
    /// It is no advanced data descriptor.
    NotAdvanced,
    /// A length is out of range.
    Length,
}

impl fmt::Display for DecodeError {
    fn fmt(&self, f: &mut fmt::Formatter<'_>) -> fmt::Result {
        f.write_str(match self {
            DecodeError::Size => "a descriptor has 16 bytes",
            DecodeError::FixedBit => "a bit that the profile fixes has another value",
            DecodeError::NotAdvanced => "this is no advanced data descriptor",
            DecodeError::Length => "a length is out of range",
        })
    }
}

impl Error for DecodeError {}

/// Decodes a descriptor.
///
/// ```
/// use poll82599::{Descriptor, Form, decode, encode};
///
/// let said = Descriptor { number: 5, len: 60, eop: true, rs: true, paylen: 60 };
/// let bytes = encode(Form::TxRead, &said).expect("the fields are in range");
/// assert_eq!(decode(Form::TxRead, &bytes), Ok(said));
/// ```
pub fn decode(form: Form, bytes: &[u8]) -> Result<Descriptor, DecodeError> {
    let mut said = ffi::Descriptor::default();
    // SAFETY: the bytes have their length.
    match unsafe { ffi::poll82599_decode(form as u32, bytes.as_ptr(), bytes.len(), &mut said) } {
        0 => Ok(Descriptor { number: said.number, len: said.len, eop: said.eop != 0, rs: said.rs != 0, paylen: said.paylen }),
        1 => Err(DecodeError::Size),
        2 => Err(DecodeError::FixedBit),
        3 => Err(DecodeError::NotAdvanced),
        4 => Err(DecodeError::Length),
        other => unanswered(other),
    }
}

/// Encodes a descriptor. Returns `None` if no descriptor of the form has these fields.
pub fn encode(form: Form, said: &Descriptor) -> Option<[u8; 16]> {
    let Descriptor { number, len, eop, rs, paylen } = *said;
    let said = ffi::Descriptor { number, len, eop: u32::from(eop), rs: u32::from(rs), paylen };
    let mut bytes = [0; 16];
    // SAFETY: there are 16 bytes.
    match unsafe { ffi::poll82599_encode(form as u32, &said, bytes.as_mut_ptr(), bytes.len()) } {
        0 => Some(bytes),
        2 => None,
        other => unanswered(other),
    }
}

/// The queues on which a list of moves is made.
#[derive(Clone, Copy, Debug, PartialEq, Eq)]
pub struct Plan {
    /// Queue pairs: 1 to 8.
    pub pairs: u32,
    /// The descriptors of each ring.
    pub descriptors: u32,
    /// Whether the queues begin enabled.
    pub enabled: bool,
    /// Whether the transmit queues report by a head word.
    pub by_head: bool,
    /// Whether the output is JSON objects.
    pub json: bool,
}

/// Why a list of moves has no output.
#[derive(Clone, Copy, Debug, PartialEq, Eq)]
pub enum MovesError {
    /// There can be no such queues.
    NoQueues,
    /// This line, from 1, is no move.
    NotAMove(u64),
    /// Another refusal, by its number: memory.
    Refused(u32),
}

impl fmt::Display for MovesError {
    fn fmt(&self, f: &mut fmt::Formatter<'_>) -> fmt::Result {
        match self {
            MovesError::NoQueues => f.write_str("there can be no such queues"),
            MovesError::NotAMove(line) => write!(f, "line {line} is no move"),
            MovesError::Refused(number) => write!(f, "refused with {number}"),
        }
    }
}

impl Error for MovesError {}

/// Makes the moves of a text, one a line, on new queues. Returns what `replay` prints.
///
/// ```
/// use poll82599::{MovesError, Plan, moves};
///
/// let plan = Plan { pairs: 1, descriptors: 8, enabled: true, by_head: false, json: false };
/// assert_eq!(moves(&plan, "no move\n"), Err(MovesError::NotAMove(1)));
/// ```
pub fn moves(plan: &Plan, text: &str) -> Result<String, MovesError> {
    let plan = ffi::Plan {
        pairs: plan.pairs,
        descriptors: plan.descriptors,
        enabled: u32::from(plan.enabled),
        by_head: u32::from(plan.by_head),
        json: u32::from(plan.json),
    };
    let mut page = vec![0; 64 * 1024];
    loop {
        let mut moved = ffi::Moved::default();
        // SAFETY: the text and the page have their lengths.
        let answer = unsafe { ffi::poll82599_moves(&plan, text.as_ptr(), text.len(), page.as_mut_ptr(), page.len(), &mut moved) };
        let needed = usize::try_from(moved.needed).unwrap_or(usize::MAX);
        match answer {
            0 => {
                page.truncate(needed);
                return Ok(String::from_utf8(page).expect("a page is ASCII"));
            }
            1 => page.resize(needed, 0),
            12 => return Err(MovesError::NoQueues),
            14 => return Err(MovesError::NotAMove(moved.line)),
            number => return Err(MovesError::Refused(number)),
        }
    }
}

/// Why a frame could not be passed through a ring.
#[derive(Clone, Copy, Debug, PartialEq, Eq)]
pub enum OnceError {
    /// The frame does not have 14 to 14,336 bytes.
    Length,
    /// Memory was refused.
    Memory,
}

impl fmt::Display for OnceError {
    fn fmt(&self, f: &mut fmt::Formatter<'_>) -> fmt::Result {
        f.write_str(match self {
            OnceError::Length => "the frame does not have 14 to 14,336 bytes",
            OnceError::Memory => "memory was refused",
        })
    }
}

impl Error for OnceError {}

/// Passes a frame through a receive ring of 8 descriptors, and returns what its driver took.
///
/// ```
/// assert_eq!(poll82599::once(&[7; 60]), Ok(vec![7; 60]));
/// assert_eq!(poll82599::once(&[7; 13]), Err(poll82599::OnceError::Length));
/// ```
pub fn once(frame: &[u8]) -> Result<Vec<u8>, OnceError> {
    let mut taken = vec![0; frame.len()];
    // SAFETY: the frame and the room have their lengths.
    match unsafe { ffi::poll82599_once(frame.as_ptr(), frame.len(), taken.as_mut_ptr(), taken.len()) } {
        0 => Ok(taken),
        1 => Err(OnceError::Length),
        2 => Err(OnceError::Memory),
        other => unanswered(other),
    }
}
