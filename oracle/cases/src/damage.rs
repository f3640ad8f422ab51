//! Spoiling a sound case in one of the ways that have to be refused: settings, buffers, list,
//! header, length, single fields of rows. Now and then what comes out is sound after all: no harm.

use crate::draw::{any_row, own_jump, Room};
use crate::format::Case;
use crate::random::Random;
use crate::table::*;
use oracle::limits::{MAX_BRANCHES, MAX_EXECUTIONS, MAX_OPERATIONS, MAX_ROWS};

/// Spoils the case. `program` is what its table was made from.
pub fn spoil(r: &mut Random, case: &mut Case, program: &Program) {
    match r.below(24) {
        0..=2 => spoil_setting(r, case),
        3..=4 => case.path = other_length(r, case.path),
        5 => case.trace = other_length(r, case.trace),
        6 => case.list = Some(r.pick(&[0, 1, 4, 6, 10])),
        7..=9 => spoil_length(r, &mut case.table),
        10..=12 => spoil_header(r, &mut case.table),
        13 => case.table = random_bytes(r),
        14 => scatter(r, &mut case.table),
        _ => spoil_row(r, case, program),
    }
}

/// Limits at zero, one above their range, and far out.
fn spoil_setting(r: &mut Random, case: &mut Case) {
    let far = u64::MAX - r.below(2);
    match r.below(3) {
        0 => {
            case.settings.branches = r.pick(&[0, MAX_BRANCHES + 1, 1 << 60, far]);
            case.path = r.pick(&[case.path, 0, 16, 16 * (MAX_BRANCHES as usize + 1)]);
        }
        1 => {
            case.settings.operations = r.pick(&[0, MAX_OPERATIONS + 1, 1 << 60, far]);
            case.trace = r.pick(&[case.trace, 0, 16]);
        }
        _ => case.settings.executions = r.pick(&[0, MAX_EXECUTIONS + 1, 1 << 32, far]),
    }
}

fn other_length(r: &mut Random, length: usize) -> usize {
    let longer = [length + 1, length + 8, length + 16, 2 * length];
    let shorter = [1, 8, 16, length].map(|less| length.saturating_sub(less));
    let lengths = if r.chance(1, 2) { longer } else { shorter };
    r.pick(&lengths)
}

fn spoil_length(r: &mut Random, table: &mut Vec<u8>) {
    let length = table.len();
    let new = match r.below(8) {
        0..=2 => length - 1,
        3 => length.saturating_sub(ROW),
        4 => r.position(length),
        5 => length + ROW,
        _ => length + 1,
    };
    table.resize(new, 0);
}

fn spoil_header(r: &mut Random, table: &mut [u8]) {
    let (threads, cells, plains) = (usize::from(table[0]), table[1], table[7]);
    match r.below(6) {
        0 => table[0] = r.pick(&[0, 6, 255, threads as u8 % 5 + 1]),
        1 => table[1] = r.pick(&[0, 5, 255, cells % 4 + 1]),
        2 => table[2 + r.position(threads)] = r.pick(&[MAX_ROWS as u8 + 1, 255]),
        3 => table[2 + r.position(threads)] ^= 1,
        4 if threads < 5 => table[r.between(2 + threads as u64, 6) as usize] = 1,
        _ if plains > 0 && r.chance(1, 2) => table[7] = r.pick(&[0, 5, 255, plains % 4 + 1]),
        _ => table[7] = r.between(1, 255) as u8,
    }
}

fn random_bytes(r: &mut Random) -> Vec<u8> {
    let length = r.pick(&[0, 1, 7, 8, 9, 16, 40, 64, 200]);
    let mut bytes: Vec<u8> = (0..length).map(|_| r.number() as u8).collect();
    // A sound header in front lets the judgement get as far as the length or the first row.
    if r.chance(1, 2) && length >= 40 {
        bytes[..8].copy_from_slice(&[1, 1, 1, 0, 0, 0, 0, 0]);
        bytes.truncate(40);
    }
    bytes
}

/// Changes a byte or two anywhere.
fn scatter(r: &mut Random, table: &mut [u8]) {
    let small = if table[7] == 0 { 18 } else { 20 };
    for _ in 0..r.between(1, 2) {
        let at = r.position(table.len());
        table[at] = match r.below(3) {
            0 => r.number() as u8,
            1 => table[at] ^ (1 << r.below(8)),
            _ => r.below(small) as u8,
        };
    }
}

/// Spoils one or two rows: of two, only the first is to be named.
fn spoil_row(r: &mut Random, case: &mut Case, program: &Program) {
    for _ in 0..r.between(1, 2) {
        let thread = r.position(program.threads.len());
        let rows = program.threads[thread].len();
        if rows == 0 {
            continue;
        }
        let at = program.row_at(thread, r.position(rows));
        let room = Room {
            cells: program.starts.len() as u8,
            plains: program.plains.len() as u8,
            threads: program.threads.len() as u8,
            rows: rows as u16,
        };
        let bytes = &mut case.table[at..at + ROW];
        let mut row = Row::read((&*bytes).try_into().expect("a whole row"));
        // Another opcode than the one at hand, so that rare ones are spoilt as well.
        if r.chance(1, 2) {
            row = any_row(r, room);
        }
        spoil_field(r, &mut row, room);
        bytes.copy_from_slice(&row.bytes());
    }
}

/// Lets one or two rows jump to themselves, with or without a condition.
pub fn jump_to_itself(r: &mut Random, case: &mut Case, program: &Program) {
    for _ in 0..r.pick(&[1, 1, 1, 2]) {
        let thread = r.position(program.threads.len());
        let rows = program.threads[thread].len();
        if rows == 0 {
            continue;
        }
        let own = r.position(rows);
        let at = program.row_at(thread, own);
        // A table that was cut off may lack the row.
        if let Some(bytes) = case.table.get_mut(at..at + ROW) {
            bytes.copy_from_slice(&own_jump(r, own as u16).bytes());
        }
    }
}

fn spoil_field(r: &mut Random, row: &mut Row, room: Room) {
    // The first opcode that is none: without plain cells there is none to read or write.
    let none: u8 = if room.plains == 0 { 17 } else { 19 };
    match r.below(10) {
        0 if r.chance(1, 2) => row.opcode = r.pick(&[none, none + 1, 32, 128, 255]),
        0 => row.opcode = r.between(none.into(), 255) as u8,
        1 if row.has_plain() => row.place = r.pick(&[room.plains, 4, 5, 255]),
        1 => row.place = r.pick(&[room.cells, room.threads, 5, 255]),
        2 => row.order = r.pick(&[0, 1, 2, 3, 4, 1, 2, 3, 5, 255]),
        3 => row.failure = r.pick(&[1, 3, 5, 2, 255]),
        4 => row.change = r.pick(&[13, 255, 1, 11, 12]),
        5 => row.register = r.pick(&[4, 255, 1]),
        6 => row.target = r.pick(&[room.rows + 1, u16::MAX, 1, 256]),
        7 => row.a = r.pick(&[1, 1 << 56, 1 << 63]),
        8 => row.b = r.pick(&[1, 1 << 56, 1 << 63]),
        _ => row.opcode = r.below(none.into()) as u8,
    }
}
