//! From the bytes of a table to a program, or to the first row that cannot be accepted.

use crate::op::Order::{self, AcqRel, Acquire, Relaxed, Release, SeqCst};
use crate::op::{Change, Condition, Op, Orders};
use crate::thread::{Thread, REGISTERS};
use crate::vv::MAX_THREADS;
use std::mem::take;

/// Atomic cells in a program at most.
pub const MAX_CELLS: usize = 4;
/// Plain cells in a program at most.
pub const MAX_PLAINS: usize = 4;
/// Rows in a thread at most.
pub const MAX_ROWS: usize = 64;
const HEADER: usize = 8;
const ROW: usize = 24;

/// An accepted table. It holds its rows itself, so that a run needs no memory beyond its stack.
pub struct Program {
    /// How many threads there are.
    pub threads: usize,
    /// How many atomic cells there are.
    pub cells: usize,
    /// Start values of the atomic cells.
    pub values: [u64; MAX_CELLS],
    /// How many plain cells there are.
    pub plains: usize,
    /// Start values of the plain cells.
    pub plain_values: [u64; MAX_PLAINS],
    /// Row count of each thread.
    pub counts: [u8; MAX_THREADS],
    /// Rows of each thread; those past its count are never looked at.
    rows: [[Op; MAX_ROWS]; MAX_THREADS],
}

/// Where a table is bad: its first bad row, or 255, 255 if it isn't even laid out as one.
#[derive(Clone, Copy, Debug, PartialEq, Eq)]
pub struct Refused {
    pub thread: u8,
    pub row: u8,
}

impl Refused {
    const LAYOUT: Refused = Refused {
        thread: 255,
        row: 255,
    };
}

impl Program {
    /// Judges header and length first, then the rows in the order of their bytes.
    pub fn decode(table: &[u8]) -> Result<Program, Refused> {
        let (mut program, rows) = Program::decode_header(table).ok_or(Refused::LAYOUT)?;
        let mut rows = rows.iter();
        for thread in 0..program.threads {
            for row in 0..program.counts[thread] {
                let bytes = rows.next().ok_or(Refused::LAYOUT)?;
                let op = Fields::read(bytes, program.limits(thread, row)).decode();
                let refused = Refused {
                    thread: thread as u8,
                    row,
                };
                program.rows[thread][usize::from(row)] = op.ok_or(refused)?;
            }
        }
        Ok(program)
    }

    /// A program still without its rows, and their bytes.
    fn decode_header(table: &[u8]) -> Option<(Program, &[[u8; ROW]])> {
        let (&[threads, cells, counts @ .., plains], rest) = table.split_first_chunk::<HEADER>()?;
        let [threads, cells, plains] = [threads, cells, plains].map(usize::from);
        if !(1..=MAX_THREADS).contains(&threads) || !(1..=MAX_CELLS).contains(&cells) {
            return None;
        }
        if plains > MAX_PLAINS {
            return None;
        }
        let (present, absent) = counts.split_at(threads);
        let too_many = |&count: &u8| usize::from(count) > MAX_ROWS;
        if present.iter().any(too_many) || absent.iter().any(|&count| count != 0) {
            return None;
        }
        let (values, rest) = start_values(rest, cells)?;
        let (plain_values, rest) = start_values(rest, plains)?;
        let program = Program {
            threads,
            cells,
            values,
            plains,
            plain_values,
            counts,
            rows: [[Op::Yield; MAX_ROWS]; MAX_THREADS],
        };
        let count: usize = present.iter().copied().map(usize::from).sum();
        let (rows, odd) = rest.as_chunks();
        (rows.len() == count && odd.is_empty()).then_some((program, rows))
    }

    /// The row that a thread is at, which must not be past its last one.
    pub fn row(&self, thread: &Thread) -> &Op {
        &self.rows[thread.id][usize::from(thread.next)]
    }

    fn limits(&self, thread: usize, row: u8) -> Limits {
        Limits {
            threads: self.threads,
            cells: self.cells,
            plains: self.plains,
            rows: self.counts[thread],
            row,
        }
    }
}

/// So many start values, and the bytes behind them. Places past the count are zero.
fn start_values<const N: usize>(bytes: &[u8], count: usize) -> Option<([u64; N], &[u8])> {
    let (starts, rest) = bytes.split_at_checked(8 * count)?;
    let mut values = [0; N];
    for (value, bytes) in values.iter_mut().zip(starts.as_chunks().0) {
        *value = u64::from_le_bytes(*bytes);
    }
    Some((values, rest))
}

/// What the fields of a row may name.
struct Limits {
    threads: usize,
    cells: usize,
    plains: usize,
    rows: u8,
    /// The row itself.
    row: u8,
}

/// The fields of one row. Taking a field leaves zero behind, so whatever is not zero in the end is
/// a field that this row may not use.
struct Fields {
    limits: Limits,
    opcode: u8,
    place: u8,
    order: u8,
    failure: u8,
    change: u8,
    register: u8,
    target: u16,
    a: u64,
    b: u64,
}

impl Fields {
    fn read(bytes: &[u8; ROW], limits: Limits) -> Fields {
        let [opcode, place, order, failure, change, register, t0, t1, operands @ ..] = *bytes;
        let operands = u128::from_le_bytes(operands);
        Fields {
            limits,
            opcode,
            place,
            order,
            failure,
            change,
            register,
            target: u16::from_le_bytes([t0, t1]),
            a: operands as u64,
            b: (operands >> 64) as u64,
        }
    }

    fn decode(mut self) -> Option<Op> {
        let f = &mut self;
        let op = match take(&mut f.opcode) {
            0 => Op::Load(f.cell()?, f.order(READ)?, f.register()?),
            1 => Op::Store(f.cell()?, f.order(WRITE)?, f.a()),
            2 => Op::StoreRegister(f.cell()?, f.order(WRITE)?, f.register()?),
            3 => f.rmw()?,
            4 => Op::Fence(f.order(FENCE)?),
            5 => Op::UnsyncLoad(f.cell()?, f.register()?),
            6 => Op::WithMut(f.cell()?, f.register()?, f.change()?),
            7 => Op::Yield,
            8 => Op::Join(f.thread()?),
            9 => Op::Jump(f.elsewhere()?),
            10 => Op::JumpIf(f.condition()?, f.target()?),
            11 => Op::JumpUnless(f.condition()?, f.target()?),
            12 => Op::Check(f.condition()?),
            13 => Op::Critical,
            14 => Op::ExploreState,
            15 => Op::SkipBranch,
            16 => Op::Spurious(f.register()?),
            17 => Op::PlainRead(f.plain()?, f.register()?),
            18 => Op::PlainWrite(f.plain()?, f.a()),
            19..=255 => return None,
        };
        self.nothing_left().then_some(op)
    }

    /// Only the two changes that may fail have a failure order.
    fn rmw(&mut self) -> Option<Op> {
        let cell = self.cell()?;
        let success = self.order(ANY)?;
        let register = self.register()?;
        let change = self.change()?;
        let failure = match change {
            Change::CompareExchange { .. } | Change::DecrementUnlessZero => {
                order(take(&mut self.failure), READ)?
            }
            _ => Order::Relaxed,
        };
        Some(Op::Rmw(cell, Orders { success, failure }, register, change))
    }

    fn change(&mut self) -> Option<Change> {
        Some(match take(&mut self.change) {
            0 => Change::Swap(self.a()),
            1 => Change::Add(self.a()),
            2 => Change::Sub(self.a()),
            3 => Change::And(self.a()),
            4 => Change::Or(self.a()),
            5 => Change::Xor(self.a()),
            6 => Change::Nand(self.a()),
            7 => Change::Max(self.a()),
            8 => Change::Min(self.a()),
            9 => Change::SignedMax(self.a()),
            10 => Change::SignedMin(self.a()),
            11 => Change::CompareExchange {
                expected: self.a(),
                new: take(&mut self.b),
            },
            12 => Change::DecrementUnlessZero,
            13..=255 => return None,
        })
    }

    fn condition(&mut self) -> Option<Condition> {
        let register = self.register()?;
        let value = self.a();
        Some(Condition { register, value })
    }

    fn cell(&mut self) -> Option<u8> {
        let cell = take(&mut self.place);
        (usize::from(cell) < self.limits.cells).then_some(cell)
    }

    fn plain(&mut self) -> Option<u8> {
        let plain = take(&mut self.place);
        (usize::from(plain) < self.limits.plains).then_some(plain)
    }

    fn thread(&mut self) -> Option<u8> {
        let thread = take(&mut self.place);
        (usize::from(thread) < self.limits.threads).then_some(thread)
    }

    fn register(&mut self) -> Option<u8> {
        let register = take(&mut self.register);
        (usize::from(register) < REGISTERS).then_some(register)
    }

    /// A jump may go to just past the last row: the thread then ends.
    fn target(&mut self) -> Option<u8> {
        let target = u8::try_from(take(&mut self.target)).ok()?;
        (target <= self.limits.rows).then_some(target)
    }

    /// A jump without a condition may not go to its own row, which it would never leave.
    fn elsewhere(&mut self) -> Option<u8> {
        self.target().filter(|&target| target != self.limits.row)
    }

    fn a(&mut self) -> u64 {
        take(&mut self.a)
    }

    fn order(&mut self, allowed: &[Order]) -> Option<Order> {
        order(take(&mut self.order), allowed)
    }

    fn nothing_left(&self) -> bool {
        let small = self.place | self.order | self.failure | self.change | self.register;
        small == 0 && self.target == 0 && self.a == 0 && self.b == 0
    }
}

const ANY: &[Order] = &[Relaxed, Release, Acquire, AcqRel, SeqCst];
const READ: &[Order] = &[Relaxed, Acquire, SeqCst];
const WRITE: &[Order] = &[Relaxed, Release, SeqCst];
const FENCE: &[Order] = &[Release, Acquire, AcqRel, SeqCst];

fn order(byte: u8, allowed: &[Order]) -> Option<Order> {
    allowed.iter().copied().find(|&order| order as u8 == byte)
}
