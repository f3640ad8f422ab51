//! One thread of the program that is being explored.

use crate::op::{Condition, Operation, Register};
use crate::vv::VersionVec;
use terms::Summary;

/// Registers of each thread.
pub const REGISTERS: usize = 4;

/// Whether a thread can be chosen.
#[derive(Clone, Copy, Debug, PartialEq, Eq)]
pub enum Run {
    Runnable,
    Blocked,
    Yielded,
    Ended,
}

pub struct Thread {
    pub id: usize,
    pub run: Run,
    /// The access it is about to make.
    pub operation: Option<Operation>,
    /// What happened before its next step.
    pub causality: VersionVec,
    /// Its causality at its last release fence.
    pub released: VersionVec,
    /// Which accesses are ordered before its next one, for the choice of other schedules.
    pub dpor_vv: VersionVec,
    /// Its version when it last yielded. Zero, below every mark, says that it never did.
    pub last_yield: u16,
    pub yields: u16,
    /// The row that begins next or is under way.
    pub next: u8,
    /// That row has begun and waits for this thread to be chosen again.
    pub begun: bool,
    /// Rows begun.
    pub rows: u16,
    registers: [u64; REGISTERS],
}

impl Thread {
    /// A thread at the start of an execution, before anything has happened.
    pub fn new(id: usize) -> Thread {
        Thread {
            id,
            run: Run::Runnable,
            operation: None,
            causality: VersionVec::new(),
            released: VersionVec::new(),
            dpor_vv: VersionVec::new(),
            last_yield: 0,
            yields: 0,
            next: 0,
            begun: false,
            rows: 0,
            registers: [0; REGISTERS],
        }
    }

    pub fn is_runnable(&self) -> bool {
        self.run == Run::Runnable
    }

    /// Its own part of its causality.
    pub fn version(&self) -> u16 {
        self.causality.get(self.id)
    }

    pub fn raise_version(&mut self) {
        self.causality.inc(self.id);
    }

    pub fn register(&self, register: Register) -> u64 {
        self.registers[usize::from(register)]
    }

    pub fn set_register(&mut self, register: Register, value: u64) {
        self.registers[usize::from(register)] = value;
    }

    pub fn holds(&self, condition: Condition) -> bool {
        self.register(condition.register) == condition.value
    }

    pub fn set_yield(&mut self) {
        self.run = Run::Yielded;
        self.operation = None;
        self.last_yield = self.version();
        self.yields += 1;
    }

    pub fn set_blocked(&mut self) {
        self.run = Run::Blocked;
        self.operation = None;
    }

    pub fn set_ended(&mut self) {
        self.run = Run::Ended;
        self.operation = None;
    }

    pub fn summary(&self) -> Summary {
        Summary {
            state: match self.run {
                Run::Runnable => 1,
                Run::Blocked => 2,
                Run::Yielded => 3,
                Run::Ended => 4,
            },
            rows: self.rows.into(),
            yields: self.yields.into(),
            version: self.version().into(),
        }
    }
}
