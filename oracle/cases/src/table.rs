//! Programs as rows, and their bytes. A program may be as wrong as it likes: what is refused is for
//! the explorers to say.

pub const RELAXED: u8 = 0;
pub const RELEASE: u8 = 1;
pub const ACQUIRE: u8 = 2;
pub const ACQ_REL: u8 = 3;
pub const SEQ_CST: u8 = 4;

/// The names of the orders, by number.
pub const ORDERS: [&str; 5] = ["Relaxed", "Release", "Acquire", "AcqRel", "SeqCst"];

pub const SWAP: u8 = 0;
pub const ADD: u8 = 1;
pub const SUBTRACT: u8 = 2;
pub const AND: u8 = 3;
pub const OR: u8 = 4;
pub const XOR: u8 = 5;
pub const NAND: u8 = 6;
pub const MAX: u8 = 7;
pub const MIN: u8 = 8;
pub const SIGNED_MAX: u8 = 9;
pub const SIGNED_MIN: u8 = 10;
pub const COMPARE: u8 = 11;
pub const DECREMENT: u8 = 12;

/// The names of the change kinds, by number.
pub const CHANGES: [&str; 13] = [
    "swap",
    "add",
    "subtract",
    "and",
    "or",
    "xor",
    "nand",
    "unsigned max",
    "unsigned min",
    "signed max",
    "signed min",
    "compare",
    "decrement",
];

/// The names of the opcodes, by number.
pub const OPCODES: [&str; 19] = [
    "load",
    "store a",
    "store register",
    "RMW",
    "fence",
    "unsynchronised load",
    "exclusive",
    "yield",
    "join",
    "jump",
    "jump if",
    "jump if not",
    "check",
    "critical",
    "explore_state",
    "skip_branch",
    "branch_spurious",
    "plain read",
    "plain write",
];

/// Bytes of one row.
pub const ROW: usize = 24;
/// Bytes of the header.
pub const HEADER: usize = 8;

/// One row of a table, field by field.
#[derive(Clone, Copy, Debug, Default, PartialEq, Eq)]
pub struct Row {
    pub opcode: u8,
    /// Atomic cell, plain cell or thread.
    pub place: u8,
    pub order: u8,
    pub failure: u8,
    pub change: u8,
    pub register: u8,
    pub target: u16,
    pub a: u64,
    pub b: u64,
}

impl Row {
    /// The row's bytes in the table.
    pub fn bytes(&self) -> [u8; ROW] {
        let mut out = [0; ROW];
        out[0] = self.opcode;
        out[1] = self.place;
        out[2] = self.order;
        out[3] = self.failure;
        out[4] = self.change;
        out[5] = self.register;
        out[6..8].copy_from_slice(&self.target.to_le_bytes());
        out[8..16].copy_from_slice(&self.a.to_le_bytes());
        out[16..24].copy_from_slice(&self.b.to_le_bytes());
        out
    }

    /// The row that has these bytes.
    pub fn read(bytes: &[u8; ROW]) -> Row {
        let number = |at: usize| {
            let mut eight = [0; 8];
            eight.copy_from_slice(&bytes[at..at + 8]);
            u64::from_le_bytes(eight)
        };
        Row {
            opcode: bytes[0],
            place: bytes[1],
            order: bytes[2],
            failure: bytes[3],
            change: bytes[4],
            register: bytes[5],
            target: u16::from_le_bytes([bytes[6], bytes[7]]),
            a: number(8),
            b: number(16),
        }
    }

    /// Whether the opcode takes an order.
    pub fn has_order(&self) -> bool {
        self.opcode <= 4
    }

    /// Whether the opcode takes a change kind.
    pub fn has_change(&self) -> bool {
        matches!(self.opcode, 3 | 6)
    }

    /// Whether the row takes a failure order.
    pub fn has_failure(&self) -> bool {
        self.opcode == 3 && self.change >= COMPARE
    }

    /// Whether the row names an atomic cell.
    pub fn has_cell(&self) -> bool {
        matches!(self.opcode, 0..=3 | 5 | 6)
    }

    /// Whether the row names a plain cell.
    pub fn has_plain(&self) -> bool {
        matches!(self.opcode, 17 | 18)
    }

    /// Whether the row names a jump target.
    pub fn has_target(&self) -> bool {
        matches!(self.opcode, 9..=11)
    }

    /// Whether the row uses operand a.
    pub fn has_a(&self) -> bool {
        match self.opcode {
            1 | 10..=12 | 18 => true,
            3 | 6 => self.change <= COMPARE,
            _ => false,
        }
    }

    /// Whether the row names a register.
    pub fn has_register(&self) -> bool {
        matches!(self.opcode, 0 | 2 | 3 | 5 | 6 | 10..=12 | 16 | 17)
    }
}

fn row(opcode: u8) -> Row {
    Row { opcode, ..Row::default() }
}

pub fn load(cell: u8, order: u8, register: u8) -> Row {
    Row { place: cell, order, register, ..row(0) }
}

pub fn store(cell: u8, order: u8, a: u64) -> Row {
    Row { place: cell, order, a, ..row(1) }
}

pub fn store_register(cell: u8, order: u8, register: u8) -> Row {
    Row { place: cell, order, register, ..row(2) }
}

/// An RMW of a kind that cannot fail.
pub fn rmw(cell: u8, order: u8, change: u8, register: u8, a: u64) -> Row {
    Row { place: cell, order, change, register, a, ..row(3) }
}

/// An RMW that writes `b` where it finds `a`.
pub fn compare(cell: u8, orders: [u8; 2], register: u8, a: u64, b: u64) -> Row {
    Row { failure: orders[1], b, ..rmw(cell, orders[0], COMPARE, register, a) }
}

/// An RMW that takes one away unless it finds 0.
pub fn decrement(cell: u8, orders: [u8; 2], register: u8) -> Row {
    Row { failure: orders[1], ..rmw(cell, orders[0], DECREMENT, register, 0) }
}

pub fn fence(order: u8) -> Row {
    Row { order, ..row(4) }
}

pub fn unsync_load(cell: u8, register: u8) -> Row {
    Row { place: cell, register, ..row(5) }
}

/// An exclusive change; `b` counts for kind 11 alone.
pub fn exclusive(cell: u8, change: u8, register: u8, a: u64) -> Row {
    Row { place: cell, change, register, a, ..row(6) }
}

/// An exclusive change that writes `b` where it finds `a`.
pub fn exclusive_compare(cell: u8, register: u8, a: u64, b: u64) -> Row {
    Row { b, ..exclusive(cell, COMPARE, register, a) }
}

pub fn yields() -> Row {
    row(7)
}

pub fn join(thread: u8) -> Row {
    Row { place: thread, ..row(8) }
}

pub fn jump(target: u16) -> Row {
    Row { target, ..row(9) }
}

pub fn jump_if(register: u8, a: u64, target: u16) -> Row {
    Row { register, a, target, ..row(10) }
}

pub fn jump_if_not(register: u8, a: u64, target: u16) -> Row {
    Row { register, a, target, ..row(11) }
}

pub fn check(register: u8, a: u64) -> Row {
    Row { register, a, ..row(12) }
}

pub fn critical() -> Row {
    row(13)
}

pub fn explore_state() -> Row {
    row(14)
}

pub fn skip_branch() -> Row {
    row(15)
}

pub fn spurious(register: u8) -> Row {
    Row { register, ..row(16) }
}

pub fn plain_read(plain: u8, register: u8) -> Row {
    Row { place: plain, register, ..row(17) }
}

pub fn plain_write(plain: u8, a: u64) -> Row {
    Row { place: plain, a, ..row(18) }
}

/// A whole program: the start values of its cells and the rows of each thread.
#[derive(Clone, Debug, Default, PartialEq, Eq)]
pub struct Program {
    /// Of the atomic cells.
    pub starts: Vec<u64>,
    /// Of the plain cells.
    pub plains: Vec<u64>,
    pub threads: Vec<Vec<Row>>,
}

impl Program {
    /// A program without threads or plain cells; the atomic cells start at these values.
    pub fn new(starts: &[u64]) -> Program {
        Program { starts: starts.to_vec(), ..Program::default() }
    }

    /// The same with plain cells that start at these values.
    pub fn plain(mut self, starts: &[u64]) -> Program {
        self.plains = starts.to_vec();
        self
    }

    /// The same with one thread more.
    pub fn thread(mut self, rows: &[Row]) -> Program {
        self.threads.push(rows.to_vec());
        self
    }

    /// The table. Counts that do not fit the header are cut to a byte, and threads past the fifth
    /// have no place in it: only a damaged program has such.
    pub fn table(&self) -> Vec<u8> {
        let mut out = vec![0; HEADER];
        out[0] = self.threads.len() as u8;
        out[1] = self.starts.len() as u8;
        out[7] = self.plains.len() as u8;
        for (t, rows) in self.threads.iter().take(5).enumerate() {
            out[2 + t] = rows.len() as u8;
        }
        for start in self.starts.iter().chain(&self.plains) {
            out.extend_from_slice(&start.to_le_bytes());
        }
        for rows in &self.threads {
            for row in rows {
                out.extend_from_slice(&row.bytes());
            }
        }
        out
    }

    /// Where a row's bytes begin in the table.
    pub fn row_at(&self, thread: usize, row: usize) -> usize {
        let before: usize = self.threads[..thread].iter().map(Vec::len).sum();
        HEADER + 8 * (self.starts.len() + self.plains.len()) + ROW * (before + row)
    }

    /// The program of an accepted table. Nothing is checked but that the bytes are there.
    pub fn read(table: &[u8]) -> Option<Program> {
        let (&threads, &cells, &plains) = (table.first()?, table.get(1)?, table.get(7)?);
        let mut at = HEADER;
        let mut program = Program::default();
        for (starts, count) in [(&mut program.starts, cells), (&mut program.plains, plains)] {
            for _ in 0..count {
                let eight = table.get(at..at + 8)?.try_into().ok()?;
                starts.push(u64::from_le_bytes(eight));
                at += 8;
            }
        }
        for t in 0..usize::from(threads) {
            let mut rows = Vec::new();
            for _ in 0..*table.get(2 + t)? {
                rows.push(Row::read(table.get(at..at + ROW)?.try_into().ok()?));
                at += ROW;
            }
            program.threads.push(rows);
        }
        Some(program)
    }
}

#[cfg(test)]
mod tests {
    use super::*;

    #[test]
    fn a_table_reads_back() {
        let program = Program::new(&[7, u64::MAX])
            .thread(&[compare(1, [ACQ_REL, ACQUIRE], 3, 5, 6), jump(0)])
            .thread(&[])
            .thread(&[exclusive_compare(0, 2, 1, 9)]);
        let table = program.table();
        assert_eq!(table.len(), 8 + 16 + 72);
        assert_eq!(program.row_at(2, 0), 8 + 16 + 48);
        assert_eq!(Program::read(&table), Some(program));
        assert_eq!(Program::read(&table[..95]), None);
        let plain =
            Program::new(&[7]).plain(&[8, 9]).thread(&[plain_write(1, 5), plain_read(0, 3)]);
        let table = plain.table();
        assert_eq!((table.len(), table[7]), (8 + 24 + 48, 2));
        assert_eq!((plain.row_at(0, 1), table[plain.row_at(0, 1)]), (8 + 24 + 24, 17));
        assert_eq!(Program::read(&table), Some(plain));
    }
}
