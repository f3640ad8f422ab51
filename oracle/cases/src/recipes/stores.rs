//! Many stores to one cell: what is offered, which slot is used again, which orders are equal.

use crate::draw::*;
use crate::random::Random;
use crate::table::*;

/// A few stores to one cell by one or two threads, read twice or more by others.
pub(super) fn coherence(r: &mut Random) -> Program {
    let mut program = Program::new(&[0]);
    let mut next = 1;
    for _ in 0..r.between(1, 2) {
        let mut rows = Vec::new();
        for _ in 0..r.between(1, 3) {
            rows.push(store(0, store_order(r), next));
            next += 1;
        }
        if r.chance(1, 3) {
            rows.push(load(0, load_order(r), 0));
        }
        program = program.thread(&rows);
    }
    for _ in 0..r.between(1, 2) {
        let mut rows = Vec::new();
        for to in 0..r.between(1, 3) {
            rows.push(load(0, load_order(r), to as u8));
        }
        program = program.thread(&rows);
    }
    program
}

/// So many stores to one cell that the oldest slots are used again, with a reader or two.
pub(super) fn many_stores(r: &mut Random) -> Program {
    let mut program = Program::new(&[0]);
    let writers = r.between(1, 2);
    for w in 0..writers {
        let mut rows = Vec::new();
        for value in 0..r.between(4, 11) / writers {
            let value = 1 + value + 100 * w;
            rows.push(match r.below(6) {
                0 => rmw(0, rmw_order(r), ADD, 0, value),
                1 => load(0, load_order(r), 0),
                _ => store(0, store_order(r), value),
            });
        }
        program = program.thread(&rows);
    }
    let mut rows = vec![load(0, load_order(r), 0)];
    if r.chance(1, 2) {
        rows.push(yields());
    }
    if r.chance(1, 2) {
        rows.push(any_rmw(r, 0));
    }
    if r.chance(1, 2) {
        rows.push(load(0, load_order(r), 1));
    }
    program.thread(&rows)
}

/// A thread that reads a store, tells of it, and reads again: what another one has seen by hearing
/// of it goes by the first sight.
pub(super) fn reread(r: &mut Random) -> Program {
    let again = match r.below(3) {
        0 => any_rmw(r, 0),
        _ => load(0, load_order(r), 1),
    };
    let tell = store(1, r.pick(&[RELEASE, RELEASE, SEQ_CST, RELAXED]), 1);
    let hear = load(1, r.pick(&[ACQUIRE, ACQUIRE, SEQ_CST, RELAXED]), 0);
    Program::new(&[0, 0])
        .thread(&[store(0, store_order(r), 1)])
        .thread(&[load(0, load_order(r), 0), jump_if_not(0, 1, 4), tell, again])
        .thread(&[hear, jump_if_not(0, 1, 3), load(0, load_order(r), 1)])
}

/// A counter driven in a loop past the number of slots, its steps copied to a second cell.
pub(super) fn store_loop(r: &mut Random) -> Program {
    let last = r.between(4, 12);
    let mut rows = vec![rmw(0, rmw_order(r), ADD, 0, 1), jump_if_not(0, last, 0)];
    if r.chance(2, 3) {
        rows.insert(1, store_register(1, store_order(r), 0));
    }
    let mut program = Program::new(&[0, 0]).thread(&rows);
    for _ in 0..r.below(2) + 1 {
        let cell = r.below(2) as u8;
        let mut rows = vec![load(cell, load_order(r), 0), load(cell, load_order(r), 1)];
        if r.chance(1, 3) {
            rows.insert(1, any_rmw(r, cell));
        }
        program = program.thread(&rows);
    }
    program
}

/// Rows 13 and 14 around rows, where a recipe holds back all choices but those it is about.
fn only(held: bool, rows: &[Row]) -> Vec<Row> {
    match held {
        true => [&[explore_state()], rows, &[critical()]].concat(),
        false => rows.to_vec(),
    }
}

/// The way to two stores of equal order: one thread stores twice and reads the first of them again
/// after a third thread has tied it to a foreign store, whose author then reads the second. Further
/// stores may take a slot in front of both, so that some scans do not meet the two.
pub(super) fn equal_orders(r: &mut Random) -> Program {
    let held = r.chance(2, 3);
    let mut first = vec![store(0, store_order(r), 1), store(0, store_order(r), 2), yields()];
    if held {
        first.insert(0, critical());
    }
    first.push(load(0, RELAXED, 0));
    let mut second = vec![store(0, RELAXED, 3), yields()];
    second.extend(only(held, &[load(0, RELAXED, 0)]));
    if r.chance(1, 2) {
        second.extend((0..r.between(3, 5)).map(|value| store(0, RELAXED, 4 + value)));
    }
    let change = any_rmw(r, 0);
    second.push(r.pick(&[load(0, RELAXED, 1), change]));
    let mut third = only(held, &[load(0, RELAXED, 0), load(0, RELAXED, 1)]);
    if r.chance(1, 3) {
        third.extend([yields(), load(0, RELAXED, 2)]);
    }
    let program = Program::new(&[0]);
    program.thread(&first).thread(&second).thread(&third)
}

/// The way to a store that takes the slot of the one store it has its order from: one thread ties
/// the oldest store to its own, another fills the slots, a last one reads the oldest and stores.
pub(super) fn replaced_slot(r: &mut Random) -> Program {
    let held = r.chance(3, 4);
    let fill: Vec<Row> = (0..r.between(4, 6)).map(|value| store(0, RELAXED, 3 + value)).collect();
    let mut first = vec![store(0, RELAXED, 1)];
    if held {
        first.insert(0, critical());
    }
    let mut last = only(held, &[load(0, RELAXED, 0)]);
    last.push(store(0, store_order(r), 9));
    let change = any_rmw(r, 0);
    last.extend(only(held, &[r.pick(&[load(0, RELAXED, 1), change])]));
    Program::new(&[0])
        .thread(&first)
        .thread(&[store(0, RELAXED, 2), load(0, RELAXED, 0)])
        .thread(&fill)
        .thread(&last)
}
