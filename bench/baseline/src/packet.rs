//! The packets of the layers, and a stash of empty buffers.

use crate::buffer::Buffer;

/// The buffers of a frame, as a linked list.
#[derive(Default)]
pub struct Packet {
    first: Option<Buffer>,
    len: u32,
    segments: u32,
}

impl Packet {
    pub fn len(&self) -> usize {
        self.len as usize
    }

    /// The number of buffers.
    pub fn segments(&self) -> usize {
        self.segments as usize
    }

    /// Whether there is no buffer.
    pub fn is_empty(&self) -> bool {
        self.segments == 0
    }

    /// Increments the byte at offset 1, which must exist.
    pub fn touch(&mut self) {
        if let Some(first) = &mut self.first {
            let byte = &mut first.bytes_mut()[1];
            *byte = byte.wrapping_add(1);
        }
    }

    /// Appends a buffer.
    pub fn push_back(&mut self, buffer: Buffer) {
        self.len += buffer.len() as u32;
        self.segments += 1;
        match &mut self.first {
            Some(first) => first.push(buffer),
            empty => *empty = Some(buffer),
        }
    }

    /// Takes the first buffer off.
    pub fn pop_front(&mut self) -> Option<Buffer> {
        let mut buffer = self.first.take()?;
        buffer.swap_next(&mut self.first);
        self.len -= buffer.len() as u32;
        self.segments -= 1;
        Some(buffer)
    }
}

/// The most buffers of a stash.
pub const STASH_BUFFERS: usize = 256;

/// Empty buffers. The last one put in is the first one taken out.
pub struct Stash {
    buffers: Vec<Buffer>,
}

impl Stash {
    pub fn new() -> Self {
        Stash {
            buffers: Vec::with_capacity(STASH_BUFFERS),
        }
    }

    pub fn len(&self) -> usize {
        self.buffers.len()
    }

    pub fn is_full(&self) -> bool {
        self.buffers.len() == STASH_BUFFERS
    }

    pub fn take(&mut self) -> Option<Buffer> {
        self.buffers.pop()
    }

    /// Puts a buffer in, even above the limit: at the start the stash has the buffers for a whole ring.
    pub fn put_any(&mut self, buffer: Buffer) {
        self.buffers.push(buffer);
    }

    /// Empties a buffer and puts it in. There must be room.
    pub fn put(&mut self, mut buffer: Buffer) {
        assert!(!self.is_full());
        buffer.clear();
        self.buffers.push(buffer);
    }
}
