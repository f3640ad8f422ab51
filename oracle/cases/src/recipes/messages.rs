//! Data handed from thread to thread: flags, fences, release sequences.

use super::guarded;
use crate::draw::*;
use crate::random::Random;
use crate::table::*;

/// One thread writes data and raises a flag, the others read the data where they see the flag.
pub(super) fn message_passing(r: &mut Random) -> Program {
    let (write, read) = guarded(r, 0);
    let mut program = Program::new(&[0, 0]).thread(&[write, store(1, store_order(r), 1)]);
    for _ in 0..r.between(1, 2) {
        // An RMW that fails is a load by its failure order.
        let look = match r.below(4) {
            0 => compare(1, [rmw_order(r), load_order(r)], 0, 7, 8),
            _ => load(1, load_order(r), 0),
        };
        let mut rows = vec![look, jump_if_not(0, 1, 3), read];
        if r.chance(1, 3) {
            rows.push(check(1, 1));
            rows[1].target = 4;
        }
        program = program.thread(&rows);
    }
    program
}

/// Each of two threads writes its cell and reads the other's, with fences between or not.
pub(super) fn store_buffering(r: &mut Random) -> Program {
    let mut program = Program::new(&[0, 0]);
    let fenced = r.chance(1, 2);
    for mine in 0..2 {
        let mut rows = vec![store(mine, store_order(r), 1)];
        if fenced {
            let other = fence_order(r);
            rows.push(fence(r.pick(&[SEQ_CST, SEQ_CST, other])));
        }
        rows.push(load(1 - mine, load_order(r), 0));
        program = program.thread(&rows);
    }
    if r.chance(1, 2) {
        program = program.thread(&[join(0), join(1), load(0, RELAXED, 0), check(0, 1)]);
    }
    program
}

/// Each of two threads reads one cell and writes what it read, or 1, to the other.
pub(super) fn load_buffering(r: &mut Random) -> Program {
    let mut program = Program::new(&[r.below(2), 0]);
    for mine in 0..2 {
        let write = match r.below(2) {
            0 => store_register(1 - mine, store_order(r), 0),
            _ => store(1 - mine, store_order(r), 1),
        };
        program = program.thread(&[load(mine, load_order(r), 0), write]);
    }
    program
}

/// Two writers of two cells and two readers that read them in opposite order.
pub(super) fn independent_reads(r: &mut Random) -> Program {
    let order = [store_order(r), store_order(r), load_order(r), load_order(r)];
    Program::new(&[0, 0])
        .thread(&[store(0, order[0], 1)])
        .thread(&[store(1, order[1], 1)])
        .thread(&[load(0, order[2], 0), load(1, order[2], 1)])
        .thread(&[load(1, order[3], 0), load(0, order[3], 1)])
}

/// Message passing where fences carry what the relaxed accesses do not.
pub(super) fn fences(r: &mut Random) -> Program {
    let (write, read) = guarded(r, 0);
    let mut writer = vec![write, fence(fence_order(r)), store(1, RELAXED, 1)];
    if r.chance(1, 4) {
        writer.push(store(1, RELAXED, 2));
    }
    let reader = [load(1, RELAXED, 0), jump_if(0, 0, 4), fence(fence_order(r)), read];
    Program::new(&[0, 0]).thread(&writer).thread(&reader)
}

/// A reader whose fence finds one store through another: what the middle thread only saw, the last
/// one may acquire, depending on the order in which the fence goes through cells and stores.
pub(super) fn fence_chain(r: &mut Random) -> Program {
    let (first, second) = if r.chance(1, 2) { (1, 0) } else { (0, 1) };
    let second = if r.chance(1, 3) { first } else { second };
    let (write, read) = guarded(r, 2);
    let mut writer = vec![write];
    for value in 0..r.below(7) {
        writer.push(store(first, RELAXED, 10 + value));
    }
    writer.push(store(first, RELEASE, 1));
    Program::new(&[0, 0, 0])
        .thread(&writer)
        .thread(&[
            load(first, RELAXED, 0),
            jump_if_not(0, 1, 3),
            store(second, r.pick(&[RELEASE, SEQ_CST]), 2),
        ])
        .thread(&[
            load(second, RELAXED, 0),
            jump_if_not(0, 2, 4),
            fence(r.pick(&[ACQUIRE, ACQ_REL, SEQ_CST])),
            read,
        ])
}

/// SeqCst fences that meet in the global vector, and a reader of what the second one released.
pub(super) fn global_fences(r: &mut Random) -> Program {
    let (write, read) = guarded(r, 1);
    let mut second = vec![fence(r.pick(&[SEQ_CST, SEQ_CST, ACQ_REL])), store(0, store_order(r), 1)];
    if r.chance(1, 3) {
        second.insert(1, fence(fence_order(r)));
    }
    let program = Program::new(&[0, 0]).thread(&[write, fence(SEQ_CST)]).thread(&second);
    if r.chance(1, 4) {
        return program.thread(&[fence(SEQ_CST), read]);
    }
    program.thread(&[load(0, load_order(r), 0), jump_if_not(0, 1, 3), read])
}

/// A release store, RMWs by others on top of it, and a reader of the last.
pub(super) fn release_sequence(r: &mut Random) -> Program {
    let (write, read) = guarded(r, 1);
    let mut program = Program::new(&[0, 0]).thread(&[write, store(0, store_order(r), 1)]);
    for _ in 0..r.between(1, 2) {
        program = program.thread(&[rmw(0, rmw_order(r), ADD, 0, 1)]);
    }
    program.thread(&[load(0, load_order(r), 0), jump_if_not(0, 2, 3), read])
}

/// A thread that hears by a relaxed flag of what another one did after acquiring from the first:
/// the other thread of its race tells what was recorded before the synchronisation.
pub(super) fn third_party(r: &mut Random) -> Program {
    let (first, last) = match r.below(3) {
        0 => (any_rmw(r, 0), unsync_load(0, 1)),
        1 => (load(0, load_order(r), 0), any_exclusive(r, 0)),
        _ => (load(0, r.pick(&[ACQUIRE, SEQ_CST]), 0), any_exclusive(r, 0)),
    };
    Program::new(&[0, 0])
        .thread(&[store(0, r.pick(&[RELEASE, SEQ_CST]), 1)])
        .thread(&[first, jump_if_not(first.register, 1, 3), store(1, RELAXED, 1)])
        .thread(&[load(1, RELAXED, 0), jump_if_not(0, 1, 3), last])
}
