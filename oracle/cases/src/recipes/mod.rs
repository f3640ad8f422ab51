//! The shapes of programs that cases are made from. Rows drawn evenly seldom meet: two threads have
//! to touch the same cell in a telling way before anything happens. So each recipe lays out a known
//! pattern of concurrent programs and draws its orders, values and lengths.

mod flags;
mod messages;
mod plain;
mod races;
mod stores;
mod waiting;

use crate::draw::*;
use crate::random::Random;
use crate::table::*;
use oracle::limits::MAX_ROWS;

pub use waiting::{left_alone, ping_pong};

pub type Recipe = fn(&mut Random) -> Program;

/// A recipe stands here as often as its weight.
const RECIPES: [Recipe; 37] = [
    messages::message_passing,
    messages::message_passing,
    messages::store_buffering,
    messages::load_buffering,
    messages::independent_reads,
    stores::coherence,
    stores::coherence,
    waiting::cas_lock,
    waiting::spin_wait,
    waiting::spin_wait,
    messages::fences,
    messages::fence_chain,
    messages::global_fences,
    messages::release_sequence,
    races::unsynchronised_change,
    messages::third_party,
    races::unsynchronised,
    races::unsynchronised,
    races::unsynchronised,
    stores::many_stores,
    stores::many_stores,
    stores::store_loop,
    stores::reread,
    races::counters,
    waiting::joins,
    waiting::joins,
    waiting::late_joiner,
    races::handed_over,
    flags::flags,
    flags::flags,
    flags::relay,
    waiting::spurious_loop,
    waiting::ping_pong,
    stores::equal_orders,
    stores::replaced_slot,
    soup,
    soup,
];

/// The same for programs with plain cells.
const PLAIN: [Recipe; 15] = [
    plain::handed_over,
    plain::handed_over,
    plain::fenced,
    plain::joined,
    plain::joined,
    plain::at_once,
    plain::at_once,
    plain::handed_back,
    plain::locked,
    plain::release_sequence,
    plain::third_party,
    plain::many_readers,
    plain::sprinkled,
    plain::sprinkled,
    plain::soup,
];

/// A program by one of the recipes.
pub fn program(r: &mut Random) -> Program {
    r.pick(&RECIPES)(r)
}

/// A program with plain cells by one of the recipes.
pub fn plain_program(r: &mut Random) -> Program {
    r.pick(&PLAIN)(r)
}

/// A write of the data that a flag then guards, and the matching read.
fn guarded(r: &mut Random, cell: u8) -> (Row, Row) {
    let write = match r.below(3) {
        0 => exclusive(cell, SWAP, 3, 1),
        _ => store(cell, store_order(r), 1),
    };
    let read = match r.below(4) {
        0 => unsync_load(cell, 1),
        1 => any_exclusive(r, cell),
        _ => load(cell, load_order(r), 1),
    };
    (write, read)
}

/// Rows without any plan.
fn soup(r: &mut Random) -> Program {
    soup_over(r, &[])
}

/// The same with plain cells that start at these values.
fn soup_over(r: &mut Random, plains: &[u64]) -> Program {
    let threads = r.pick(&[1, 2, 2, 2, 3, 3, 4, 5]);
    let cells = r.pick(&[1, 1, 1, 2, 2, 3, 4]);
    let starts: Vec<u64> = (0..cells).map(|_| value(r)).collect();
    let mut program = Program::new(&starts).plain(plains);
    for _ in 0..threads {
        let rows = if r.chance(1, 40) { r.between(20, MAX_ROWS as u64) } else { r.below(7) };
        let room = Room {
            cells: cells as u8,
            plains: plains.len() as u8,
            threads: threads as u8,
            rows: rows as u16,
        };
        program = program.thread(&any_rows(r, room));
    }
    program
}
