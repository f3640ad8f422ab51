//! Random orders, values and rows, nearly all of them such as a table may have: a row alone does not
//! know whether it jumps to itself.

use crate::random::Random;
use crate::table::*;

pub fn load_order(r: &mut Random) -> u8 {
    r.pick(&[RELAXED, RELAXED, RELAXED, ACQUIRE, ACQUIRE, SEQ_CST])
}

pub fn store_order(r: &mut Random) -> u8 {
    r.pick(&[RELAXED, RELAXED, RELAXED, RELEASE, RELEASE, SEQ_CST])
}

pub fn rmw_order(r: &mut Random) -> u8 {
    r.pick(&[RELAXED, RELAXED, RELEASE, ACQUIRE, ACQ_REL, ACQ_REL, SEQ_CST])
}

pub fn fence_order(r: &mut Random) -> u8 {
    r.pick(&[RELEASE, ACQUIRE, ACQ_REL, SEQ_CST])
}

/// Mostly small, so that what one thread writes is what another one compares with; now and then at
/// an edge of the signed or unsigned range.
pub fn value(r: &mut Random) -> u64 {
    const EDGES: [u64; 6] =
        [u64::MAX, u64::MAX - 1, 1 << 63, (1 << 63) - 1, (1 << 63) + 1, 0xffff_ffff];
    match r.below(16) {
        0 => r.pick(&EDGES),
        1 => r.number(),
        _ => r.below(4),
    }
}

pub fn register(r: &mut Random) -> u8 {
    r.pick(&[0, 0, 0, 1, 1, 2, 3])
}

/// An RMW of any kind on the cell.
pub fn any_rmw(r: &mut Random, cell: u8) -> Row {
    let change = r.below(13) as u8;
    rmw_of(r, cell, change)
}

fn rmw_of(r: &mut Random, cell: u8, change: u8) -> Row {
    let orders = [rmw_order(r), load_order(r)];
    let to = register(r);
    match change {
        COMPARE => compare(cell, orders, to, r.below(3), value(r)),
        DECREMENT => decrement(cell, orders, to),
        _ => rmw(cell, orders[0], change, to, value(r)),
    }
}

/// An exclusive change of any kind of the cell.
pub fn any_exclusive(r: &mut Random, cell: u8) -> Row {
    let change = r.below(13) as u8;
    let to = register(r);
    match change {
        COMPARE => exclusive_compare(cell, to, r.below(3), value(r)),
        DECREMENT => exclusive(cell, DECREMENT, to, 0),
        _ => exclusive(cell, change, to, value(r)),
    }
}

/// What a row drawn for a program may name.
#[derive(Clone, Copy, Debug)]
pub struct Room {
    pub cells: u8,
    pub plains: u8,
    pub threads: u8,
    /// Row count of the thread the row goes to.
    pub rows: u16,
}

/// A plain read or write of one of so many plain cells.
pub fn any_plain(r: &mut Random, plains: u8) -> Row {
    let plain = r.below(u64::from(plains)) as u8;
    match r.below(2) {
        0 => plain_read(plain, register(r)),
        _ => plain_write(plain, value(r)),
    }
}

/// Any row at all; accesses come more often than the rest.
pub fn any_row(r: &mut Random, room: Room) -> Row {
    let cell = r.below(u64::from(room.cells)) as u8;
    match r.below(if room.plains == 0 { 40 } else { 48 }) {
        0..=9 => load(cell, load_order(r), register(r)),
        10..=16 => store(cell, store_order(r), value(r)),
        17..=18 => store_register(cell, store_order(r), register(r)),
        19..=25 => any_rmw(r, cell),
        26..=28 => fence(fence_order(r)),
        29 => unsync_load(cell, register(r)),
        30 => any_exclusive(r, cell),
        31..=32 => yields(),
        33 => join(r.below(u64::from(room.threads)) as u8),
        34..=36 => any_jump(r, room.rows),
        37 => check(register(r), r.below(3)),
        38 => spurious(register(r)),
        39 => r.pick(&[critical(), explore_state(), skip_branch()]),
        _ => any_plain(r, room.plains),
    }
}

/// All rows of a thread.
pub fn any_rows(r: &mut Random, room: Room) -> Vec<Row> {
    let mut rows: Vec<Row> = (0..room.rows).map(|_| any_row(r, room)).collect();
    condition_own_jumps(&mut rows);
    rows
}

/// Gives each jump to its own row a condition: without one it is refused, with one that holds it
/// goes on as long.
pub fn condition_own_jumps(rows: &mut [Row]) {
    for (own, row) in (0..).zip(rows) {
        if *row == jump(own) {
            *row = jump_if(0, 0, own);
        }
    }
}

/// A jump to the row itself, of any of the three kinds; the first is refused.
pub fn own_jump(r: &mut Random, own: u16) -> Row {
    match r.below(4) {
        0..=1 => jump(own),
        2 => jump_if(register(r), r.below(3), own),
        _ => jump_if_not(register(r), r.below(3), own),
    }
}

fn any_jump(r: &mut Random, rows: u16) -> Row {
    let target = r.below(u64::from(rows) + 1) as u16;
    match r.below(5) {
        0 => jump(target),
        1..=2 => jump_if(register(r), r.below(3), target),
        _ => jump_if_not(register(r), r.below(3), target),
    }
}
