//! One buffer of a ring.

use std::mem;

/// The size of a buffer.
pub const BUFFER_BYTES: usize = 2048;

/// A buffer: its number, and the bytes of one segment, which are on the heap.
pub struct Buffer {
    #[expect(
        dead_code,
        reason = "a buffer travels with its number, as in the proved ring"
    )]
    number: u16,
    len: u16,
    room: Box<Room>,
}

/// The bytes of a buffer, and the next buffer of its packet.
struct Room {
    next: Option<Buffer>,
    bytes: [u8; BUFFER_BYTES],
}

impl Buffer {
    pub fn new(number: u16) -> Self {
        Buffer {
            number,
            len: 0,
            room: Box::new(Room {
                next: None,
                bytes: [0; BUFFER_BYTES],
            }),
        }
    }

    pub fn len(&self) -> usize {
        usize::from(self.len)
    }

    pub fn bytes(&self) -> &[u8] {
        &self.room.bytes[..self.len()]
    }

    pub fn bytes_mut(&mut self) -> &mut [u8] {
        let len = self.len();
        &mut self.room.bytes[..len]
    }

    /// Replaces the contents by `bytes`, at most `BUFFER_BYTES`.
    pub fn fill(&mut self, bytes: &[u8]) {
        self.room.bytes[..bytes.len()].copy_from_slice(bytes);
        self.len = bytes.len() as u16;
    }

    /// Empties the buffer. Writes none of its bytes.
    pub fn clear(&mut self) {
        self.len = 0;
    }

    /// Takes off the buffers that follow this one, and puts them into `first`, which must be empty.
    pub fn swap_next(&mut self, first: &mut Option<Buffer>) {
        mem::swap(first, &mut self.room.next);
    }

    /// Appends `buffer` after the last buffer that follows this one.
    pub fn push(&mut self, buffer: Buffer) {
        match &mut self.room.next {
            Some(next) => next.push(buffer),
            empty => *empty = Some(buffer),
        }
    }
}
