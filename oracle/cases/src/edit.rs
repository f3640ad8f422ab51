//! Small random changes of a program. They keep it such as a table may have it, so that what the
//! recipes lay out is also met from nearby.

use crate::draw::*;
use crate::random::Random;
use crate::table::*;
use oracle::limits::MAX_ROWS;

/// Makes one random change.
pub fn once(r: &mut Random, program: &mut Program) {
    match r.below(if program.plains.is_empty() { 16 } else { 19 }) {
        0..=3 => reorder(r, program),
        4 => revalue(r, program),
        5 => move_cell(r, program),
        6..=8 => insert_any(r, program),
        9 => replace(r, program),
        10 => remove(r, program),
        11 => exchange(r, program),
        12 => program.threads.rotate_left(1),
        13 => repeat_thread(r, program),
        14 => add_cell(r, program),
        16 => add_plain(r, program),
        17..=18 => insert_plain(r, program),
        _ => {
            let thread = r.position(program.threads.len());
            let row = r.pick(&[yields(), critical(), explore_state(), skip_branch()]);
            insert_somewhere(r, program, thread, row);
        }
    }
    mend(program);
}

/// A thread and a row of it, where there is one at all.
fn somewhere(r: &mut Random, program: &Program) -> Option<(usize, usize)> {
    let thread = r.position(program.threads.len());
    let rows = program.threads[thread].len();
    (rows > 0).then(|| (thread, r.position(rows)))
}

fn room(program: &Program, thread: usize) -> Room {
    Room {
        cells: program.starts.len() as u8,
        plains: program.plains.len() as u8,
        threads: program.threads.len() as u8,
        rows: program.threads[thread].len() as u16,
    }
}

/// Gives a row other orders.
fn reorder(r: &mut Random, program: &mut Program) {
    let Some((t, i)) = somewhere(r, program) else {
        return;
    };
    let row = &mut program.threads[t][i];
    row.order = match row.opcode {
        0 => load_order(r),
        1 | 2 => store_order(r),
        3 => rmw_order(r),
        4 => fence_order(r),
        _ => row.order,
    };
    if row.has_failure() {
        row.failure = load_order(r);
    }
}

/// Gives a row another operand or register.
fn revalue(r: &mut Random, program: &mut Program) {
    let Some((t, i)) = somewhere(r, program) else {
        return;
    };
    let row = &mut program.threads[t][i];
    if row.has_a() {
        row.a = value(r);
    } else if row.has_register() {
        row.register = register(r);
    }
}

/// Turns an access to another cell.
fn move_cell(r: &mut Random, program: &mut Program) {
    let cell = r.below(program.starts.len() as u64) as u8;
    let Some((t, i)) = somewhere(r, program) else {
        return;
    };
    let row = &mut program.threads[t][i];
    if row.has_cell() {
        row.place = cell;
    } else if row.has_plain() {
        row.place = r.position(program.plains.len()) as u8;
    }
}

fn insert_any(r: &mut Random, program: &mut Program) {
    let thread = r.position(program.threads.len());
    let row = any_row(r, room(program, thread));
    insert_somewhere(r, program, thread, row);
}

/// Puts a plain access in.
pub fn insert_plain(r: &mut Random, program: &mut Program) {
    let thread = r.position(program.threads.len());
    let row = any_plain(r, program.plains.len() as u8);
    insert_somewhere(r, program, thread, row);
}

/// Puts a row in; jumps past the place go on meaning the same row.
pub fn insert_somewhere(r: &mut Random, program: &mut Program, thread: usize, row: Row) {
    let rows = &mut program.threads[thread];
    if rows.len() >= MAX_ROWS {
        return;
    }
    let at = r.position(rows.len() + 1);
    for old in rows.iter_mut().filter(|old| old.has_target()) {
        old.target += u16::from(usize::from(old.target) > at);
    }
    rows.insert(at, row);
}

fn replace(r: &mut Random, program: &mut Program) {
    if let Some((t, i)) = somewhere(r, program) {
        program.threads[t][i] = any_row(r, room(program, t));
    }
}

fn remove(r: &mut Random, program: &mut Program) {
    if let Some((t, i)) = somewhere(r, program) {
        program.threads[t].remove(i);
    }
}

/// Exchanges two neighbouring rows.
fn exchange(r: &mut Random, program: &mut Program) {
    if let Some((t, i)) = somewhere(r, program) {
        if i > 0 {
            program.threads[t].swap(i - 1, i);
        }
    }
}

/// Gives a thread a double.
fn repeat_thread(r: &mut Random, program: &mut Program) {
    if program.threads.len() < 5 {
        let copy = program.threads[r.position(program.threads.len())].clone();
        program.threads.push(copy);
    }
}

fn add_cell(r: &mut Random, program: &mut Program) {
    if program.starts.len() < 4 {
        program.starts.push(value(r));
    }
}

fn add_plain(r: &mut Random, program: &mut Program) {
    if program.plains.len() < 4 {
        program.plains.push(value(r));
    }
}

/// Brings what a change has put out of range back into it, and gives a jump to its own row a
/// condition.
fn mend(program: &mut Program) {
    let threads = program.threads.len() as u8;
    for rows in &mut program.threads {
        let end = rows.len() as u16;
        for row in rows.iter_mut() {
            row.target = row.target.min(end);
            if row.opcode == 8 {
                row.place %= threads;
            }
        }
        condition_own_jumps(rows);
    }
}
