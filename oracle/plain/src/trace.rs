//! What an execution did, kept in the caller's bytes, 16 for each row that was completed.

use crate::op::Row;

pub struct Trace<'a> {
    entries: &'a mut [[u8; 16]],
    len: usize,
    /// The greatest number of entries there ever were.
    longest: usize,
}

/// What a completed row says beside its place and opcode.
#[derive(Clone, Copy)]
pub struct Done {
    slot: u8,
    offers: u8,
    value: u64,
}

impl Done {
    /// Of a row that has neither slot nor value.
    pub const BARE: Done = Done::value(0);

    /// Of a row that has no slot.
    pub const fn value(value: u64) -> Done {
        Done {
            slot: 255,
            offers: 0,
            value,
        }
    }

    /// Of a row that had no choice of its slot.
    pub fn at(slot: usize, value: u64) -> Done {
        Done::read(slot, 0, value)
    }

    /// Of a row that read one of the slots offered.
    pub fn read(slot: usize, offers: u8, value: u64) -> Done {
        Done {
            slot: slot as u8,
            offers,
            value,
        }
    }
}

impl<'a> Trace<'a> {
    pub fn new(bytes: &'a mut [u8]) -> Trace<'a> {
        Trace {
            entries: bytes.as_chunks_mut().0,
            len: 0,
            longest: 0,
        }
    }

    pub fn restart(&mut self) {
        self.longest = self.longest.max(self.len);
        self.len = 0;
    }

    /// Adds a row. There is place: rows have to begin, and no more may begin than entries fit.
    pub fn push(&mut self, thread: u8, row: Row, opcode: u8, done: Done) {
        let head = [thread, row, opcode, done.slot, done.offers, 0, 0, 0];
        let entry = u128::from(u64::from_le_bytes(head)) | u128::from(done.value) << 64;
        self.entries[self.len] = entry.to_le_bytes();
        self.len += 1;
    }

    /// The bytes of the entries in use.
    pub fn used(&self) -> &[u8] {
        self.entries[..self.len].as_flattened()
    }

    /// Clears what longer executions have left behind.
    pub fn finish(&mut self) {
        let longest = self.longest.max(self.len);
        self.entries[self.len..longest].fill([0; 16]);
    }
}
