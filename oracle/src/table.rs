//! The table: which bytes are accepted, and the rows they hold. Document 01, "Table"; plain cells
//! are those of document 02, section 5, and a jump to itself is refused by its section 6.

use crate::limits::MAX_ROWS;
use crate::rt::MAX_THREADS;

use std::sync::atomic::Ordering;

const HEADER: usize = 8;
const ROW: usize = 24;

/// An accepted table.
#[derive(Debug)]
pub(crate) struct Program {
    pub(crate) threads: usize,
    cells: usize,
    plains: usize,
    /// The start values of the atomic cells, then those of the plain ones.
    starts: Vec<u64>,
    /// Where each thread's rows begin, and at last where the last thread's end.
    firsts: [usize; MAX_THREADS + 1],
    rows: Vec<Row>,
}

/// A row as it stands in the table.
#[derive(Debug, Clone, Copy)]
pub(crate) struct Row {
    pub(crate) opcode: u8,
    /// Atomic cell, plain cell, or thread for a join.
    pub(crate) place: u8,
    pub(crate) order: u8,
    pub(crate) failure: u8,
    pub(crate) change: u8,
    pub(crate) register: u8,
    pub(crate) target: u16,
    pub(crate) a: u64,
    pub(crate) b: u64,
}

/// A refused table: thread and row of its first bad row, or 255 and 255 for header or length.
#[derive(Debug, Clone, Copy, PartialEq, Eq)]
pub(crate) struct Bad {
    pub(crate) thread: u64,
    pub(crate) row: u64,
}

impl Program {
    pub(crate) fn read(table: &[u8]) -> Result<Program, Bad> {
        let mut program = Program::shape(table).ok_or(Bad {
            thread: 255,
            row: 255,
        })?;
        let rows = &table[HEADER + 8 * program.starts.len()..];
        program.rows = rows.chunks_exact(ROW).map(Row::read).collect();
        for thread in 0..program.threads {
            for (number, row) in program.of(thread).iter().enumerate() {
                if !program.accepts(thread, number, row) {
                    return Err(Bad {
                        thread: thread as u64,
                        row: number as u64,
                    });
                }
            }
        }
        Ok(program)
    }

    /// Header and length; the rows are still to be read.
    fn shape(table: &[u8]) -> Option<Program> {
        let header: &[u8; HEADER] = table.first_chunk()?;
        let [threads, cells, counts @ .., plains] = *header;
        let (threads, cells) = (usize::from(threads), usize::from(cells));
        let plains = usize::from(plains);
        let named = (1..=MAX_THREADS).contains(&threads) && (1..=4).contains(&cells) && plains <= 4;
        if !named || counts.iter().any(|&count| usize::from(count) > MAX_ROWS) {
            return None;
        }
        if counts[threads..].iter().any(|&count| count != 0) {
            return None;
        }
        let mut firsts = [0; MAX_THREADS + 1];
        for (thread, count) in counts.into_iter().enumerate() {
            firsts[thread + 1] = firsts[thread] + usize::from(count);
        }
        let rows = HEADER + 8 * (cells + plains);
        if table.len() != rows + ROW * firsts[MAX_THREADS] {
            return None;
        }
        let starts = table[HEADER..rows].chunks_exact(8).map(number).collect();
        Some(Program {
            threads,
            cells,
            plains,
            starts,
            firsts,
            rows: Vec::new(),
        })
    }

    /// The rows of a thread.
    pub(crate) fn of(&self, thread: usize) -> &[Row] {
        &self.rows[self.firsts[thread]..self.firsts[thread + 1]]
    }

    /// The start values, one for each atomic cell.
    pub(crate) fn starts(&self) -> &[u64] {
        &self.starts[..self.cells]
    }

    /// The start values, one for each plain cell.
    pub(crate) fn plain_starts(&self) -> &[u64] {
        &self.starts[self.cells..]
    }

    /// A used field is in range, any other is zero, and the row does not jump to itself whatever
    /// comes. With a condition it may: that is the mistake that answer 12 is there for.
    fn accepts(&self, thread: usize, number: usize, row: &Row) -> bool {
        let Some(used) = Used::of(row) else {
            return false;
        };
        let places = match used.place {
            Place::None => 1,
            Place::Cell => self.cells,
            Place::Plain => self.plains,
            Place::Thread => self.threads,
        };
        let targets = if used.target {
            self.of(thread).len()
        } else {
            0
        };
        usize::from(row.place) < places
            && used.orders.contains(&row.order)
            && used.failures.contains(&row.failure)
            && row.change <= if used.change { 12 } else { 0 }
            && row.register <= if used.register { 3 } else { 0 }
            && usize::from(row.target) <= targets
            && !(row.opcode == 9 && usize::from(row.target) == number)
            && (used.a || row.a == 0)
            && (used.b || row.b == 0)
    }
}

impl Row {
    fn read(bytes: &[u8]) -> Row {
        Row {
            opcode: bytes[0],
            place: bytes[1],
            order: bytes[2],
            failure: bytes[3],
            change: bytes[4],
            register: bytes[5],
            target: u16::from_le_bytes([bytes[6], bytes[7]]),
            a: number(&bytes[8..]),
            b: number(&bytes[16..]),
        }
    }
}

/// The u64 at the start of these bytes.
fn number(bytes: &[u8]) -> u64 {
    let first: &[u8; 8] = bytes.first_chunk().expect("eight bytes");
    u64::from_le_bytes(*first)
}

pub(crate) fn ordering(order: u8) -> Ordering {
    match order {
        0 => Ordering::Relaxed,
        1 => Ordering::Release,
        2 => Ordering::Acquire,
        3 => Ordering::AcqRel,
        4 => Ordering::SeqCst,
        other => unreachable!("order {other} was accepted"),
    }
}

enum Place {
    None,
    Cell,
    Plain,
    Thread,
}

/// Which fields a row uses. An order that is not used is zero, so its list is that of zero alone.
struct Used {
    place: Place,
    orders: &'static [u8],
    failures: &'static [u8],
    change: bool,
    register: bool,
    target: bool,
    a: bool,
    b: bool,
}

impl Used {
    const NOTHING: Used = Used {
        place: Place::None,
        orders: &[0],
        failures: &[0],
        change: false,
        register: false,
        target: false,
        a: false,
        b: false,
    };

    /// None for an opcode that there is not.
    fn of(row: &Row) -> Option<Used> {
        let mut used = Used::NOTHING;
        match row.opcode {
            0..=3 | 5 | 6 => used.place = Place::Cell,
            8 => used.place = Place::Thread,
            4 | 7 | 9..=16 => {}
            17 | 18 => used.place = Place::Plain,
            19..=255 => return None,
        }
        match row.opcode {
            0 => used.orders = &[0, 2, 4],
            1 | 2 => used.orders = &[0, 1, 4],
            3 => used.orders = &[0, 1, 2, 3, 4],
            4 => used.orders = &[1, 2, 3, 4],
            _ => {}
        }
        used.register = matches!(row.opcode, 0 | 2 | 3 | 5 | 6 | 10 | 11 | 12 | 16 | 17);
        used.target = matches!(row.opcode, 9..=11);
        used.change = matches!(row.opcode, 3 | 6);
        used.a = matches!(row.opcode, 1 | 10 | 11 | 12 | 18) || used.change && row.change <= 11;
        used.b = used.change && row.change == 11;
        if row.opcode == 3 && matches!(row.change, 11 | 12) {
            used.failures = &[0, 2, 4];
        }
        Some(used)
    }
}
