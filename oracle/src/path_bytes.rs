//! A child of path.rs, so that it sees the private fields there: document 01's record of 16 bytes
//! for each branch, and its counts of choices ("Path record", "Opened", "Open"). It reads; the one
//! thing it changes is to take back the branch of answer 17.

use super::{Entry, Load, Path, Schedule, Spurious, Thread};
use crate::rt::object;

/// Bytes of a record.
const RECORD: usize = 16;

impl Path {
    /// How many records there are.
    pub(crate) fn len(&self) -> usize {
        self.branches.len()
    }

    /// Writes every record at the buffer's start; says how many bytes they take.
    pub(crate) fn write(&self, buffer: &mut [u8]) -> usize {
        for (entry, bytes) in self
            .branches
            .entries()
            .iter()
            .zip(buffer.chunks_mut(RECORD))
        {
            bytes.copy_from_slice(&record(entry));
        }
        self.len() * RECORD
    }

    /// Slot chosen and offer mask of the load branch just taken.
    pub(crate) fn chosen(&self) -> (u8, u8) {
        let Entry::Load(load) = &self.branches.entries()[self.pos - 1] else {
            panic!("the branch just taken is not a load");
        };
        let offers = &load.values[..load.len as usize];
        let mask = offers.iter().fold(0, |mask, slot| mask | 1 << slot);
        (load.values[load.pos as usize], mask)
    }

    /// Pending marks on exploring records. Within an execution they only grow, and each by a Skip
    /// turned Pending; so the growth over an execution is the number opened by marks.
    pub(crate) fn pending(&self) -> u64 {
        self.branches.entries().iter().map(pending).sum()
    }

    /// Choices opened by the records from `first` on being added: len - 1 for an exploring load, 1
    /// for an exploring spurious branch.
    pub(crate) fn opened_by_adding(&self, first: usize) -> u64 {
        let added = |entry: &Entry| match entry {
            Entry::Load(load) if load.exploring => u64::from(load.len - 1),
            Entry::Spurious(spurious) => u64::from(spurious.exploring),
            _ => 0,
        };
        self.branches.entries()[first..].iter().map(added).sum()
    }

    /// Choices open in the path.
    pub(crate) fn open(&self) -> u64 {
        let open = |entry: &Entry| match entry {
            Entry::Schedule(_) => pending(entry),
            Entry::Load(load) if load.exploring => u64::from(load.len - 1 - load.pos),
            Entry::Spurious(spurious) => u64::from(spurious.exploring && !spurious.spur),
            _ => 0,
        };
        self.branches.entries().iter().map(open).sum()
    }

    /// Takes back the branch whose preemptions could not be counted (answer 17). One with a
    /// previous schedule, so it is never the first.
    pub(crate) fn remove_last(&mut self) {
        let keep = object::Ref::from_usize(self.branches.len() - 2);
        self.branches.truncate(keep);
    }
}

fn pending(entry: &Entry) -> u64 {
    match entry {
        Entry::Schedule(schedule) if schedule.exploring => {
            schedule.threads.iter().filter(|th| th.is_pending()).count() as u64
        }
        _ => 0,
    }
}

fn record(entry: &Entry) -> [u8; RECORD] {
    match entry {
        Entry::Schedule(schedule) => schedule_record(schedule),
        Entry::Load(load) => load_record(load),
        Entry::Spurious(spurious) => spurious_record(spurious),
    }
}

fn schedule_record(schedule: &Schedule) -> [u8; RECORD] {
    let mut bytes = [0; RECORD];
    bytes[0] = 1;
    bytes[1] = u8::from(schedule.exploring);
    bytes[2..7].copy_from_slice(&schedule.threads.map(state));
    bytes[7] = schedule.preemptions;
    bytes[8] = schedule.initial_active.unwrap_or(255);
    let prev = schedule.prev.map_or(65535, |prev| prev.as_usize() as u16);
    bytes[9..11].copy_from_slice(&prev.to_le_bytes());
    bytes
}

fn load_record(load: &Load) -> [u8; RECORD] {
    let mut bytes = [0; RECORD];
    bytes[0] = 2;
    bytes[1] = u8::from(load.exploring);
    bytes[2..9].copy_from_slice(&load.values);
    bytes[9] = load.pos;
    bytes[10] = load.len;
    bytes
}

fn spurious_record(spurious: &Spurious) -> [u8; RECORD] {
    let mut bytes = [0; RECORD];
    bytes[0] = 3;
    bytes[1] = u8::from(spurious.exploring);
    bytes[2] = u8::from(spurious.spur);
    bytes
}

fn state(thread: Thread) -> u8 {
    match thread {
        Thread::Disabled => 0,
        Thread::Skip => 1,
        Thread::Yield => 2,
        Thread::Pending => 3,
        Thread::Active => 4,
        Thread::Visited => 5,
    }
}
