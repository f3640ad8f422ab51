//! Threads that wait: locks, spin loops, joins, spurious wakes, swaps.

use super::guarded;
use crate::draw::*;
use crate::random::Random;
use crate::table::*;

/// Threads that take a lock by compare and write, change data, and give it back.
pub(super) fn cas_lock(r: &mut Random) -> Program {
    let mut program = Program::new(&[0, 0]);
    let (take, give) = (rmw_order(r), store_order(r));
    let waits = r.chance(3, 4);
    for _ in 0..r.between(2, 3) {
        let work = match r.below(3) {
            0 => any_exclusive(r, 1),
            1 => unsync_load(1, 1),
            _ => any_rmw(r, 1),
        };
        let wait = if waits { yields() } else { jump(0) };
        program = program.thread(&[
            compare(0, [take, load_order(r)], 0, 0, 1),
            jump_if(0, 0, 4),
            wait,
            jump(0),
            work,
            store(0, give, 0),
        ]);
    }
    program
}

/// A thread that reads a flag over and over, yielding or not, until another one has raised it.
pub(super) fn spin_wait(r: &mut Random) -> Program {
    let (write, read) = guarded(r, 1);
    let mut setter = vec![write, store(0, store_order(r), 1)];
    if r.chance(1, 3) {
        setter.insert(1, yields());
    }
    let mut waiter = vec![load(0, load_order(r), 0), jump_if(0, 1, 4), yields(), jump(0)];
    if r.chance(1, 4) {
        waiter = vec![load(0, load_order(r), 0), jump_if_not(0, 1, 0)];
    }
    waiter.push(read);
    let program = Program::new(&[0, 0]);
    if r.chance(1, 2) {
        program.thread(&setter).thread(&waiter)
    } else {
        program.thread(&waiter).thread(&setter)
    }
}

/// A thread that yields where nobody else can run any more, since the others have ended or wait for
/// it: it is picked all the same, and goes on yielded until it ends, blocks or meets a fault.
pub fn left_alone(r: &mut Random) -> Program {
    let threads = r.between(1, 4);
    let yielder = r.below(threads);
    let mut program = Program::new(&[0, 0, 0]);
    for thread in 0..threads {
        let rows = match thread == yielder {
            true => spins(r, threads as u8),
            false => leaves(r, yielder as u8),
        };
        program = program.thread(&rows);
    }
    program
}

/// Waits for a flag, tries a number of times, or just yields; then goes on, if it comes to that.
fn spins(r: &mut Random, threads: u8) -> Vec<Row> {
    let mut rows = match r.below(5) {
        0..=1 => vec![load(0, load_order(r), 0), jump_if(0, 1, 4), yields(), jump(0)],
        2..=3 => {
            let turn = rmw(2, rmw_order(r), ADD, 0, 1);
            vec![turn, jump_if(0, r.between(1, 4), 4), yields(), jump(0)]
        }
        _ => vec![yields(); r.between(1, 3) as usize],
    };
    for _ in 0..r.pick(&[0, 1, 1, 2, 3]) {
        rows.push(match r.below(10) {
            0 => unsync_load(1, 1),
            1 => any_exclusive(r, 1),
            2 => load(1, load_order(r), 1),
            3 => any_rmw(r, 0),
            4 => store(0, store_order(r), 1),
            5..=6 => check(r.below(2) as u8, r.below(3)),
            7 => join(r.below(threads.into()) as u8),
            8 => r.pick(&[critical(), explore_state(), spurious(1), fence(SEQ_CST)]),
            _ => yields(),
        });
    }
    rows
}

/// Raises the flag or does not, and ends or waits for the yielder.
fn leaves(r: &mut Random, yielder: u8) -> Vec<Row> {
    let mut rows = match r.below(5) {
        0 => vec![store(0, store_order(r), 1)],
        1 => vec![store(1, store_order(r), 1)],
        2 => vec![any_exclusive(r, 1)],
        3 => vec![load(2, load_order(r), 0)],
        _ => Vec::new(),
    };
    if r.chance(1, 2) {
        rows.push(join(yielder));
        if r.chance(1, 2) {
            rows.push(r.pick(&[store(2, RELAXED, 9), load(2, ACQUIRE, 1), yields(), check(0, 0)]));
        }
    }
    rows
}

/// Joins in a chain, in a ring, on oneself, on one that yields last.
pub(super) fn joins(r: &mut Random) -> Program {
    let threads = r.between(1, 5);
    let ring = r.chance(1, 4);
    let mut program = Program::new(&[0]);
    for t in 0..threads {
        let mut rows = Vec::new();
        if r.chance(2, 3) {
            rows.push(match r.below(4) {
                0 => store(0, store_order(r), t),
                1 => load(0, load_order(r), 0),
                2 => unsync_load(0, 0),
                _ => yields(),
            });
        }
        let on = if ring { (t + 1) % threads } else { r.below(threads) };
        if ring || on > t || r.chance(1, 12) {
            rows.push(join(on as u8));
        }
        if r.chance(1, 3) {
            rows.push(match r.below(4) {
                0 => any_rmw(r, 0),
                1 => any_exclusive(r, 0),
                2 => check(0, 0),
                _ => yields(),
            });
        }
        program = program.thread(&rows);
    }
    program
}

/// A first thread that waits for the last one before it touches what the others touch: where their
/// accesses were chosen it could not run, so all that could are to be tried there.
pub(super) fn late_joiner(r: &mut Random) -> Program {
    let threads = r.between(3, 4);
    let access = |r: &mut Random, cell: u8| match r.below(4) {
        0 => load(cell, load_order(r), 0),
        1 => any_rmw(r, cell),
        _ => store(cell, store_order(r), 1),
    };
    let mut first = vec![join(threads as u8 - 1), access(r, 0)];
    if r.chance(1, 4) {
        first.insert(0, access(r, 0));
    }
    let mut program = Program::new(&[0, 0]).thread(&first);
    for _ in 1..threads {
        let cell = r.pick(&[0, 0, 1]);
        let mut rows = vec![access(r, cell)];
        if r.chance(1, 3) {
            rows.push(yields());
        }
        program = program.thread(&rows);
    }
    program
}

/// Waiting that may be broken off by a spurious wake.
pub(super) fn spurious_loop(r: &mut Random) -> Program {
    let wait = [
        spurious(0),
        jump_if(0, r.below(2), r.pick(&[0, 4])),
        load(0, load_order(r), 1),
        jump_if(1, 0, r.pick(&[0, 0, 4, 5])),
        any_rmw(r, 0),
    ];
    let mut program = Program::new(&[r.below(2)]).thread(&wait);
    if r.chance(2, 3) {
        program = program.thread(&[store(0, store_order(r), 1), spurious(0), check(0, 0)]);
    }
    program
}

/// Two or three threads that swap their numbers into one cell until one reads its own back: every
/// switch is a preemption, which is what a bound counts.
pub fn ping_pong(r: &mut Random) -> Program {
    let mut program = Program::new(&[0]);
    let skips = r.chance(1, 2);
    let length = if skips { 3 } else { 2 };
    for t in 0..r.between(2, 3) {
        let mut rows = vec![rmw(0, rmw_order(r), SWAP, 0, t + 1), jump_if_not(0, t + 1, 0)];
        if skips {
            rows.push(skip_branch());
        }
        if r.chance(1, 4) {
            rows.insert(1, jump_if(0, r.below(3), length));
            rows[2].target = 0;
        }
        program = program.thread(&rows);
    }
    program
}
