//! A plain cell: data that only accesses ordered elsewhere may touch. Names follow loom's `rt/cell.rs`.

use crate::atomic::ordered;
use crate::fault::Race;
use crate::thread::Thread;
use crate::vv::VersionVec;

#[derive(Clone, Copy)]
pub struct PlainCell {
    value: u64,
    /// Everything that happened before some read.
    read_access: VersionVec,
    /// Everything that happened before some write, the making of the cell included.
    write_access: VersionVec,
}

// The races go on from those of atomic cells.
const READ_WRITE: u8 = 10;
const WRITE_READ: u8 = 11;
const WRITE_WRITE: u8 = 12;

impl PlainCell {
    /// Room for a cell. It has to be made anew for each execution.
    pub const UNMADE: PlainCell = PlainCell {
        value: 0,
        read_access: VersionVec::new(),
        write_access: VersionVec::new(),
    };

    /// Making the cell is its first write.
    pub fn make(thread: &Thread, value: u64) -> PlainCell {
        PlainCell {
            value,
            write_access: thread.causality,
            ..PlainCell::UNMADE
        }
    }

    pub fn read(&mut self, thread: &Thread) -> Result<u64, Race> {
        ordered(thread, &self.write_access, READ_WRITE)?;
        self.read_access.join(&thread.causality);
        Ok(self.value)
    }

    pub fn write(&mut self, thread: &Thread, value: u64) -> Result<(), Race> {
        ordered(thread, &self.read_access, WRITE_READ)?;
        ordered(thread, &self.write_access, WRITE_WRITE)?;
        self.write_access.join(&thread.causality);
        self.value = value;
        Ok(())
    }
}
