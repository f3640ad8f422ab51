//! Trace entries: 16 bytes, one for each row completed. Document 01, "Trace entry".

use crate::table::Row;

/// Bytes of an entry.
const ENTRY: usize = 16;

/// What a row's entry says beside thread, row and opcode.
#[derive(Debug, Clone, Copy)]
pub(crate) struct Seen {
    pub(crate) slot: u8,
    /// Offer mask, bit i for slot i.
    pub(crate) mask: u8,
    pub(crate) value: u64,
}

impl Seen {
    /// Of a row without slot and value.
    pub(crate) const NOTHING: Seen = Seen::value(0);

    /// Of a row with a value, but no slot.
    pub(crate) const fn value(value: u64) -> Seen {
        Seen {
            slot: 255,
            mask: 0,
            value,
        }
    }
}

/// The entries of one execution, at the start of the caller's buffer.
pub(crate) struct Trace<'a> {
    buffer: &'a mut [u8],
    used: usize,
}

impl<'a> Trace<'a> {
    pub(crate) fn new(buffer: &'a mut [u8]) -> Trace<'a> {
        Trace { buffer, used: 0 }
    }

    pub(crate) fn add(&mut self, thread: usize, number: usize, row: &Row, seen: Seen) {
        let entry = &mut self.buffer[self.used..self.used + ENTRY];
        let head = [thread as u8, number as u8, row.opcode, seen.slot];
        entry[..4].copy_from_slice(&head);
        entry[4..8].copy_from_slice(&[seen.mask, 0, 0, 0]);
        entry[8..].copy_from_slice(&seen.value.to_le_bytes());
        self.used += ENTRY;
    }

    /// Bytes used.
    pub(crate) fn used(&self) -> usize {
        self.used
    }
}
