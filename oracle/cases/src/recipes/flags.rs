//! Rows 13 to 15.

use crate::draw::*;
use crate::random::Random;
use crate::table::*;

/// Rows 13 to 15 around accesses that would otherwise be explored.
pub(super) fn flags(r: &mut Random) -> Program {
    let mut program = Program::new(&[0]);
    for t in 0..r.between(1, 3) {
        let mut rows = Vec::new();
        for _ in 0..r.between(1, 3) {
            rows.push(match r.below(3) {
                0 => store(0, store_order(r), t + 1),
                1 => any_rmw(r, 0),
                _ => load(0, load_order(r), 0),
            });
        }
        let from = r.position(rows.len() + 1);
        rows.insert(from, r.pick(&[critical(), explore_state(), explore_state()]));
        let until = r.between(from as u64 + 1, rows.len() as u64) as usize;
        rows.insert(until, r.pick(&[explore_state(), critical(), skip_branch()]));
        if r.chance(1, 4) {
            rows.insert(0, skip_branch());
        }
        if r.chance(1, 4) {
            rows.insert(0, spurious(1));
        }
        program = program.thread(&rows);
    }
    program
}

/// Threads of which each switches exploring off or on for the next, if they run in order: records
/// that explore and records that do not alternate.
pub(super) fn relay(r: &mut Random) -> Program {
    let mut program = Program::new(&[0, 0]);
    let threads = r.between(2, 4);
    for t in 0..threads {
        let mut rows = Vec::new();
        if t % 2 == 1 {
            rows.push(explore_state());
        }
        for _ in 0..r.between(1, 2) {
            let cell = r.below(2) as u8;
            rows.push(match r.below(3) {
                0 => load(cell, load_order(r), 0),
                1 => any_rmw(r, cell),
                _ => store(cell, store_order(r), t),
            });
        }
        if t % 2 == 0 && t + 1 < threads {
            rows.push(critical());
        }
        program = program.thread(&rows);
    }
    program
}
