//! Programs and final conditions as text: a reader and a writer, written from docs/GRAMMAR.md alone. The
//! proved ones are compared with them.

#![forbid(unsafe_code)]

mod condition;
mod cursor;
mod read;
mod row;
mod token;
mod write;

pub use read::{read, CELLS, PLAINS, ROWS, THREADS};
pub use write::write;

/// What a text stands for: the bytes of a table, and those of a final condition, none where it has none.
#[derive(Clone, Debug, PartialEq, Eq)]
pub struct Program {
    pub table: Vec<u8>,
    pub condition: Vec<u8>,
}

/// A place in a text. Both count from 1, the column in bytes.
#[derive(Clone, Copy, Debug, PartialEq, Eq, PartialOrd, Ord)]
pub struct Place {
    pub line: u64,
    pub column: u64,
}

/// A text that is refused, by the place of the first token that cannot stand where it does, or of the
/// end where one is missing.
#[derive(Clone, Copy, Debug, PartialEq, Eq)]
pub struct Refused(pub Place);

/// The names of the orders, by their numbers in a table.
const ORDERS: [&str; 5] = ["relaxed", "release", "acquire", "acqrel", "seqcst"];

/// The names of the changes that take one number, by their numbers in a table.
const CHANGES: [&str; 11] =
    ["swap", "add", "sub", "and", "or", "xor", "nand", "max", "min", "signed_max", "signed_min"];
/// The numbers of the two changes that may fail.
const COMPARE_EXCHANGE: u8 = 11;
const DECREMENT: u8 = 12;

/// How the signs of comparisons are written, by their bytes in a condition less one.
const SIGNS: [&str; 6] = ["=", "!=", "<", "<=", ">", ">="];

const REGISTERS: [&str; 4] = ["r0", "r1", "r2", "r3"];

/// The names of the plain cells.
const PLAIN_CELLS: [&str; 4] = ["p0", "p1", "p2", "p3"];

/// Bytes of a table's header and of a row.
const HEADER: usize = 8;
const ROW: usize = 24;
