//! Plain data cells, after the purpose of loom's `rt/cell.rs`; the rules are those of document 02,
//! section 5. No access is scheduled, none raises a version: each is judged by the causality that
//! the thread has anyway.

use crate::guard::Met;
use crate::rt::VersionVec;

/// A cell that nobody may use at once with a writer of it.
#[derive(Debug, Clone, Copy)]
pub(crate) struct Cell {
    value: u64,

    /// Everything that happened before some read.
    read_access: VersionVec,

    /// Everything that happened before some write, the making of the cell included.
    write_access: VersionVec,
}

impl Cell {
    /// The current thread makes the cell, as a write.
    pub(crate) fn new(value: u64) -> Cell {
        Cell {
            value,
            read_access: VersionVec::new(),
            write_access: causality(),
        }
    }

    pub(crate) fn read(&mut self) -> Result<u64, Met> {
        let current = causality();
        ordered(&current, &self.write_access, 10)?;
        self.read_access.join(&current);
        Ok(self.value)
    }

    pub(crate) fn write(&mut self, value: u64) -> Result<(), Met> {
        let current = causality();
        ordered(&current, &self.read_access, 11)?;
        ordered(&current, &self.write_access, 12)?;
        self.write_access.join(&current);
        self.value = value;
        Ok(())
    }
}

/// That of the current thread.
fn causality() -> VersionVec {
    super::execution(|execution| execution.threads.active().causality)
}

/// The accesses must have happened before; else they race with the present one.
fn ordered(current: &VersionVec, accesses: &VersionVec, kind: u64) -> Result<(), Met> {
    match current.ahead(accesses) {
        None => Ok(()),
        Some(other) => Err(Met {
            answer: 14,
            kind,
            other: other as u64,
        }),
    }
}
