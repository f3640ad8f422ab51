//! The choices of an execution, kept in the caller's bytes, 16 for each.
//!
//! Names follow loom's `rt/path.rs`. Bytes past the last record may be left over from a longer
//! path; a new record overwrites all 16, and `finish` clears the rest.

use crate::fault::Fault;
use crate::vv::MAX_THREADS;
use std::ops::Range;

pub type Record = [u8; 16];

const KIND: usize = 0;
const EXPLORING: usize = 1;
// Of a schedule record.
const THREADS: Range<usize> = 2..7;
const PREEMPTIONS: usize = 7;
const INITIAL: usize = 8;
const PREV: Range<usize> = 9..11;
// Of a load record.
const VALUES: usize = 2;
const POS: usize = 9;
const LEN: usize = 10;
// Of a spurious record.
const SPUR: usize = 2;

const SCHEDULE: u8 = 1;
const LOAD: u8 = 2;
const SPURIOUS: u8 = 3;

/// In a record, that no thread was first active.
const NOBODY: u8 = 255;
/// In a record, that no schedule comes before.
const NOWHERE: u16 = u16::MAX;

/// What a schedule record says about a thread, as a byte.
pub mod thread {
    /// Cannot run here.
    pub const DISABLED: u8 = 0;
    /// Could run, but nothing calls for it.
    pub const SKIP: u8 = 1;
    /// Has just yielded.
    pub const YIELD: u8 = 2;
    /// To be explored.
    pub const PENDING: u8 = 3;
    /// Runs in the present execution.
    pub const ACTIVE: u8 = 4;
    /// Explored.
    pub const VISITED: u8 = 5;
}

/// What every thread could do at a new schedule.
pub type Seed = [u8; MAX_THREADS];

pub struct Path<'a> {
    records: &'a mut [Record],
    /// Records in use.
    len: usize,
    /// Records that this execution has passed.
    pos: usize,
    /// The last schedule passed.
    last_schedule: Option<usize>,
    preemption_bound: Option<u8>,
    exploring: bool,
    skipping: bool,
    exploring_on_start: bool,
    /// Choices opened since the run began.
    opened: u64,
    /// The greatest number of records there ever were.
    longest: usize,
}

impl<'a> Path<'a> {
    /// An empty path that can grow to as many records as `bytes` holds.
    pub fn new(bytes: &'a mut [u8], preemption_bound: Option<u8>, exploring: bool) -> Path<'a> {
        Path {
            records: bytes.as_chunks_mut().0,
            len: 0,
            pos: 0,
            last_schedule: None,
            preemption_bound,
            exploring,
            skipping: false,
            exploring_on_start: exploring,
            opened: 0,
            longest: 0,
        }
    }

    pub fn critical(&mut self) -> Result<(), Fault> {
        self.set_exploring(false)
    }

    pub fn explore_state(&mut self) -> Result<(), Fault> {
        self.set_exploring(true)
    }

    fn set_exploring(&mut self, exploring: bool) -> Result<(), Fault> {
        if self.skipping {
            return Ok(());
        }
        if self.exploring == exploring {
            return Err(Fault::Exploring);
        }
        self.exploring = exploring;
        Ok(())
    }

    pub fn skip_branch(&mut self) {
        self.exploring = false;
        self.skipping = true;
    }

    /// Whether the known choices are used up, so that the next branch is a new one.
    pub fn is_traversed(&self) -> bool {
        self.pos == self.len
    }

    pub fn pos(&self) -> usize {
        self.pos
    }

    pub fn opened(&self) -> u64 {
        self.opened
    }

    /// Choices still open.
    pub fn open(&self) -> u64 {
        self.records[..self.len].iter().map(open).sum()
    }

    /// The bytes of the records in use.
    pub fn used(&self) -> &[u8] {
        self.records[..self.len].as_flattened()
    }

    /// Adds a load that may return each store of `offers`, a bit for each slot.
    pub fn push_load(&mut self, offers: u8) -> Result<(), Fault> {
        self.require_place()?;
        let mut record = self.blank(LOAD);
        let mut len = 0;
        let mut rest = offers;
        while rest != 0 {
            record[VALUES + len] = rest.trailing_zeros() as u8;
            rest &= rest - 1;
            len += 1;
        }
        record[LEN] = len as u8;
        self.push(record);
        Ok(())
    }

    /// The slot to read, and all that could be read instead, a bit for each slot.
    #[inline]
    pub fn branch_load(&mut self) -> (usize, u8) {
        let record = &self.records[self.pos];
        self.pos += 1;
        let len = record[LEN] as usize;
        let offers = record[VALUES..][..len]
            .iter()
            .fold(0, |offers, slot| offers | 1 << slot);
        (record[VALUES + record[POS] as usize] as usize, offers)
    }

    /// Whether something that may happen for no reason happens now.
    pub fn branch_spurious(&mut self) -> Result<bool, Fault> {
        if self.is_traversed() {
            self.require_place()?;
            self.push(self.blank(SPURIOUS));
        }
        let spur = self.records[self.pos][SPUR] != 0;
        self.pos += 1;
        Ok(spur)
    }

    /// The thread to run, if any can. The seed is asked for only if the branch is new.
    #[inline]
    pub fn branch_thread(&mut self, seed: impl FnOnce() -> Seed) -> Result<Option<usize>, Fault> {
        if self.is_traversed() {
            self.push_schedule(seed)?;
        }
        self.last_schedule = Some(self.pos);
        let active = active_thread_index(&self.records[self.pos]);
        self.pos += 1;
        Ok(active)
    }

    // Most branches are taken again, not new, and they should not have to step around this.
    #[inline(never)]
    fn push_schedule(&mut self, seed: impl FnOnce() -> Seed) -> Result<(), Fault> {
        self.require_place()?;
        let mut preemptions = 0;
        let mut prev_active = None;
        if let Some(prev) = self.last_schedule {
            let prev = &self.records[prev];
            preemptions = preemptions_after(prev).ok_or(Fault::Preemptions)?;
            prev_active = Some(active_thread_index(prev));
        }
        let mut record = self.blank(SCHEDULE);
        record[THREADS].copy_from_slice(&seed());
        // If nobody else can run, a thread that yielded goes on after all.
        let active = active_thread_index(&record).or_else(|| {
            let first = record[THREADS]
                .iter()
                .position(|&state| state == thread::YIELD)?;
            record[THREADS][first] = thread::ACTIVE;
            Some(first)
        });
        // A thread that was already running is preempted by any other choice here.
        let initial = active.filter(|_| prev_active.is_none_or(|prev| prev == active));
        record[INITIAL] = initial.map_or(NOBODY, |thread| thread as u8);
        record[PREEMPTIONS] = preemptions;
        let prev = self.last_schedule.map_or(NOWHERE, |prev| prev as u16);
        record[PREV].copy_from_slice(&prev.to_le_bytes());
        self.push(record);
        Ok(())
    }

    fn require_place(&self) -> Result<(), Fault> {
        if self.len < self.records.len() {
            Ok(())
        } else {
            Err(Fault::Branches)
        }
    }

    fn blank(&self, kind: u8) -> Record {
        let mut record = [0; 16];
        record[KIND] = kind;
        record[EXPLORING] = self.exploring.into();
        record
    }

    fn push(&mut self, record: Record) {
        self.opened += open(&record);
        self.records[self.len] = record;
        self.len += 1;
        self.longest = self.longest.max(self.len);
    }

    /// Asks for `thread` to be tried at the last exploring schedule up to `point`.
    pub fn backtrack(&mut self, point: usize, thread: usize) {
        let explored = |record: &Record| record[KIND] == SCHEDULE && record[EXPLORING] != 0;
        let Some(found) = self.records[..=point].iter().rposition(explored) else {
            return;
        };
        self.explore(found, thread);
        if self.preemption_bound.is_some() {
            if let Some(start) = prev(&self.records[found]) {
                self.backtrack_switch(start, thread);
            }
        }
    }

    /// Under a bound the first mark may come to nothing, so another goes to the last switch of
    /// threads before it, or to the very first schedule.
    fn backtrack_switch(&mut self, mut curr: usize, thread: usize) {
        while let Some(before) = prev(&self.records[curr]) {
            let switched = active_thread_index(&self.records[curr])
                != active_thread_index(&self.records[before]);
            if switched && self.records[curr][EXPLORING] != 0 {
                break;
            }
            curr = before;
        }
        if self.records[curr][EXPLORING] != 0 {
            self.explore(curr, thread);
        }
    }

    /// Asks for `thread` to be tried at one schedule or, if it could not run, for all that could.
    fn explore(&mut self, at: usize, thread: usize) {
        let record = &mut self.records[at];
        if self.preemption_bound == Some(record[PREEMPTIONS]) {
            return;
        }
        let states = &mut record[THREADS];
        let chosen = if states[thread] == thread::DISABLED {
            states
        } else {
            &mut states[thread..=thread]
        };
        for state in chosen {
            if *state == thread::SKIP {
                *state = thread::PENDING;
                self.opened += 1;
            }
        }
    }

    /// The last record with a choice open.
    pub fn last_open(&self) -> Option<usize> {
        self.records[..self.len]
            .iter()
            .rposition(|record| open(record) != 0)
    }

    /// Goes back to the start, takes the next choice of the record at `last`, which has one open,
    /// and drops all records after it.
    pub fn step(&mut self, last: usize) {
        self.pos = 0;
        self.last_schedule = None;
        self.exploring = self.exploring_on_start;
        self.skipping = false;
        self.len = last + 1;
        let record = &mut self.records[last];
        match record[KIND] {
            SCHEDULE => next_thread(&mut record[THREADS]),
            LOAD => record[POS] += 1,
            _ => record[SPUR] = 1,
        }
    }

    /// Clears what longer paths have left behind.
    pub fn finish(&mut self) {
        self.records[self.len..self.longest].fill([0; 16]);
    }
}

fn next_thread(states: &mut [u8]) {
    for (from, to) in [
        (thread::ACTIVE, thread::VISITED),
        (thread::PENDING, thread::ACTIVE),
    ] {
        if let Some(state) = states.iter_mut().find(|state| **state == from) {
            *state = to;
        }
    }
}

fn active_thread_index(record: &Record) -> Option<usize> {
    record[THREADS]
        .iter()
        .position(|&state| state == thread::ACTIVE)
}

fn prev(record: &Record) -> Option<usize> {
    let prev = u16::from_le_bytes([record[PREV.start], record[PREV.start + 1]]);
    (prev != NOWHERE).then_some(prev.into())
}

/// Preemptions up to and with this schedule's present choice, if a byte can count them.
fn preemptions_after(record: &Record) -> Option<u8> {
    let initial = record[INITIAL];
    let preempts = initial != NOBODY && active_thread_index(record) != Some(initial.into());
    record[PREEMPTIONS].checked_add(preempts.into())
}

/// Choices open at one record.
fn open(record: &Record) -> u64 {
    if record[EXPLORING] == 0 {
        return 0;
    }
    let open = match record[KIND] {
        SCHEDULE => record[THREADS]
            .iter()
            .filter(|&&state| state == thread::PENDING)
            .count(),
        LOAD => (record[LEN] - 1 - record[POS]).into(),
        _ => (1 - record[SPUR]).into(),
    };
    open as u64
}
