//! The rows of a program, decoded.

/// How strongly an access synchronises.
#[derive(Clone, Copy, Debug, PartialEq, Eq)]
pub enum Order {
    Relaxed,
    Release,
    Acquire,
    AcqRel,
    SeqCst,
}

impl Order {
    pub fn acquires(self) -> bool {
        matches!(self, Order::Acquire | Order::AcqRel | Order::SeqCst)
    }

    pub fn releases(self) -> bool {
        matches!(self, Order::Release | Order::AcqRel | Order::SeqCst)
    }
}

/// What a read-modify-write or an exclusive access does to the value it finds.
#[derive(Clone, Copy, Debug, PartialEq, Eq)]
pub enum Change {
    Swap(u64),
    Add(u64),
    Sub(u64),
    And(u64),
    Or(u64),
    Xor(u64),
    Nand(u64),
    Max(u64),
    Min(u64),
    SignedMax(u64),
    SignedMin(u64),
    CompareExchange { expected: u64, new: u64 },
    DecrementUnlessZero,
}

impl Change {
    /// The value to write, or none where the change fails.
    pub fn apply(self, value: u64) -> Option<u64> {
        Some(match self {
            Change::Swap(a) => a,
            Change::Add(a) => value.wrapping_add(a),
            Change::Sub(a) => value.wrapping_sub(a),
            Change::And(a) => value & a,
            Change::Or(a) => value | a,
            Change::Xor(a) => value ^ a,
            Change::Nand(a) => !(value & a),
            Change::Max(a) => value.max(a),
            Change::Min(a) => value.min(a),
            Change::SignedMax(a) => (value as i64).max(a as i64) as u64,
            Change::SignedMin(a) => (value as i64).min(a as i64) as u64,
            Change::CompareExchange { expected, new } if value == expected => new,
            Change::CompareExchange { .. } => return None,
            Change::DecrementUnlessZero => return value.checked_sub(1),
        })
    }
}

/// Position of a cell among those of its sort.
pub type Cell = u8;
/// Position of a register.
pub type Register = u8;
/// Position of a row in its thread.
pub type Row = u8;

/// The orders of a read-modify-write that succeeds and of one that fails.
#[derive(Clone, Copy, Debug, PartialEq, Eq)]
pub struct Orders {
    pub success: Order,
    pub failure: Order,
}

/// That a register holds a value.
#[derive(Clone, Copy, Debug, PartialEq, Eq)]
pub struct Condition {
    pub register: Register,
    pub value: u64,
}

/// One row. The variants stand in the order of their opcodes.
#[derive(Clone, Copy, Debug, PartialEq, Eq)]
pub enum Op {
    Load(Cell, Order, Register),
    Store(Cell, Order, u64),
    StoreRegister(Cell, Order, Register),
    Rmw(Cell, Orders, Register, Change),
    Fence(Order),
    UnsyncLoad(Cell, Register),
    WithMut(Cell, Register, Change),
    Yield,
    /// Waits for a thread to end.
    Join(u8),
    Jump(Row),
    JumpIf(Condition, Row),
    JumpUnless(Condition, Row),
    Check(Condition),
    Critical,
    ExploreState,
    SkipBranch,
    Spurious(Register),
    PlainRead(Cell, Register),
    PlainWrite(Cell, u64),
}

/// How a pending access depends on others of its cell. A read-modify-write counts as a store, also
/// when it fails: nobody can know that before it has read.
#[derive(Clone, Copy, Debug, PartialEq, Eq)]
pub enum Action {
    Load,
    Store,
}

/// The access a thread is about to make.
#[derive(Clone, Copy, Debug, PartialEq, Eq)]
pub struct Operation {
    pub cell: Cell,
    pub action: Action,
}

impl Op {
    /// The number that stands for this row in tables and traces.
    pub fn opcode(&self) -> u8 {
        match self {
            Op::Load(..) => 0,
            Op::Store(..) => 1,
            Op::StoreRegister(..) => 2,
            Op::Rmw(..) => 3,
            Op::Fence(..) => 4,
            Op::UnsyncLoad(..) => 5,
            Op::WithMut(..) => 6,
            Op::Yield => 7,
            Op::Join(..) => 8,
            Op::Jump(..) => 9,
            Op::JumpIf(..) => 10,
            Op::JumpUnless(..) => 11,
            Op::Check(..) => 12,
            Op::Critical => 13,
            Op::ExploreState => 14,
            Op::SkipBranch => 15,
            Op::Spurious(..) => 16,
            Op::PlainRead(..) => 17,
            Op::PlainWrite(..) => 18,
        }
    }

    /// The access that has to be scheduled before this row acts, if it is one.
    pub fn operation(&self) -> Option<Operation> {
        let (cell, action) = match *self {
            Op::Load(cell, ..) => (cell, Action::Load),
            Op::Store(cell, ..) => (cell, Action::Store),
            Op::StoreRegister(cell, ..) => (cell, Action::Store),
            Op::Rmw(cell, ..) => (cell, Action::Store),
            _ => return None,
        };
        Some(Operation { cell, action })
    }
}

#[cfg(test)]
mod tests {
    use super::*;

    #[test]
    fn changes() {
        let low = 1 << 63;
        assert_eq!(Change::Swap(3).apply(9), Some(3));
        assert_eq!(Change::Add(2).apply(u64::MAX), Some(1));
        assert_eq!(Change::Sub(2).apply(1), Some(u64::MAX));
        assert_eq!(Change::And(6).apply(3), Some(2));
        assert_eq!(Change::Or(6).apply(3), Some(7));
        assert_eq!(Change::Xor(6).apply(3), Some(5));
        assert_eq!(Change::Nand(6).apply(3), Some(!2));
        assert_eq!(Change::Max(6).apply(low), Some(low));
        assert_eq!(Change::Min(6).apply(low), Some(6));
        assert_eq!(Change::SignedMax(6).apply(low), Some(6));
        assert_eq!(Change::SignedMin(6).apply(low), Some(low));
        let exchange = Change::CompareExchange {
            expected: 4,
            new: 5,
        };
        assert_eq!((exchange.apply(4), exchange.apply(5)), (Some(5), None));
        assert_eq!(Change::DecrementUnlessZero.apply(1), Some(0));
        assert_eq!(Change::DecrementUnlessZero.apply(0), None);
    }
}
