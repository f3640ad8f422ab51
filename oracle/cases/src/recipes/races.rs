//! Accesses with and without synchronisation to the same cell.

use crate::draw::*;
use crate::random::Random;
use crate::table::*;

/// Accesses with and without synchronisation to the same cells, joined or not.
pub(super) fn unsynchronised(r: &mut Random) -> Program {
    let cells = r.between(1, 2);
    let mut program = Program::new(&vec![r.below(3); cells as usize]);
    let threads = r.between(2, 3);
    for t in 0..threads {
        let mut rows = Vec::new();
        for _ in 0..r.between(1, 3) {
            let cell = r.below(cells) as u8;
            rows.push(match r.below(7) {
                0 => load(cell, load_order(r), 0),
                1 => store(cell, store_order(r), 1),
                2 => any_rmw(r, cell),
                3 | 4 => unsync_load(cell, 0),
                _ => any_exclusive(r, cell),
            });
        }
        if r.chance(1, 3) {
            rows.insert(0, join((t + 1) as u8 % threads as u8));
        }
        program = program.thread(&rows);
    }
    program
}

/// An RMW on a cell that was looked at without synchronisation: what it checks before it
/// synchronises differs from what it would check afterwards.
pub(super) fn unsynchronised_change(r: &mut Random) -> Program {
    let look = match r.below(3) {
        0 => any_exclusive(r, 0),
        _ => unsync_load(0, 0),
    };
    let change = [rmw(0, r.pick(&[ACQUIRE, ACQ_REL, SEQ_CST]), ADD, 0, 1), any_rmw(r, 0)];
    let mut second = vec![r.pick(&change)];
    if r.chance(1, 2) {
        second.insert(0, load(0, load_order(r), 1));
    }
    Program::new(&[0])
        .thread(&[look, store(0, r.pick(&[RELEASE, SEQ_CST, RELAXED]), 1)])
        .thread(&second)
}

/// Threads that change one cell by RMWs of any kind, and a last one that looks at the sum.
pub(super) fn counters(r: &mut Random) -> Program {
    let mut program = Program::new(&[value(r)]);
    let threads = r.between(1, 3);
    for _ in 0..threads {
        let mut rows = Vec::new();
        for _ in 0..r.between(1, 3) {
            rows.push(any_rmw(r, 0));
        }
        program = program.thread(&rows);
    }
    let mut rows: Vec<Row> = (0..threads).map(|t| join(t as u8)).collect();
    rows.push(unsync_load(0, 0));
    rows.push(any_exclusive(r, 0));
    if r.chance(1, 3) {
        rows.push(check(0, r.below(4)));
    }
    program.thread(&rows)
}

/// A first thread that waits for the others and then uses the cells without synchronisation.
pub(super) fn handed_over(r: &mut Random) -> Program {
    let workers = r.between(1, 3);
    let mut first: Vec<Row> = (1..=workers).map(|t| join(t as u8)).collect();
    if r.chance(1, 4) {
        first.pop();
    }
    first.push(any_exclusive(r, 0));
    first.push(unsync_load(1, 1));
    if r.chance(1, 2) {
        first.insert(0, store(1, store_order(r), 1));
    }
    let mut program = Program::new(&[0, 0]).thread(&first);
    for _ in 0..workers {
        let cell = r.below(2) as u8;
        program = program.thread(&[any_rmw(r, cell), load(1 - cell, load_order(r), 0)]);
    }
    program
}
