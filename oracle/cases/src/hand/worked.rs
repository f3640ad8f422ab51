//! The small hand-offs with known outcomes, P1 to P11.

use super::{hand, Hand};
use crate::table::*;

pub(super) fn all() -> Vec<Hand> {
    let mut all = explored();
    all.push(fence_order());
    all.extend(changes());
    all
}

fn explored() -> Vec<Hand> {
    let one_load = || Program::new(&[7]).thread(&[load(0, RELAXED, 0)]);
    let two_threads =
        || Program::new(&[0]).thread(&[store(0, RELAXED, 1)]).thread(&[load(0, RELAXED, 0)]);
    vec![
        hand("P1", 0, one_load())
            .shows("one thread, cell 7, load: path and trace to the byte")
            .limits(3, 1, 10),
        hand("P2", 11, one_load()).shows("the same with one branch less").limits(2, 1, 10),
        hand("P3", 0, two_threads())
            .shows("a store and a load: 5 executions, values 0,1,0,0,1, opened 4"),
        hand("P4", 0, two_threads()).shows("P3 with bound 0: 2 executions").bound(0),
        hand("P5", 0, two_threads()).shows("P3 with bound 1: 3 executions").bound(1),
        hand("P6", 10, Program::new(&[0]).thread(&[join(0)])).shows("a thread joins itself"),
        hand(
            "P7",
            14,
            Program::new(&[0]).thread(&[exclusive(0, SWAP, 0, 1)]).thread(&[load(0, RELAXED, 0)]),
        )
        .shows("thread 0 exclusive, thread 1 load: kind 1, other 0"),
    ]
}

/// At count 9 slot 6 is older than slot 0. Thread 1 saw slot 6 (a Release store of thread 0) and
/// then stored slot 0; thread 2 saw slot 0 only. A fence that goes from the oldest store to the
/// newest passes slot 6 while it is unseen, so thread 0's exclusive change stays unordered: a race.
/// A fence that went by slot number would see slot 6 after it had joined slot 0: no race.
fn fence_order() -> Hand {
    let mut first = vec![exclusive(1, SWAP, 0, 1)];
    first.extend((1..=5).map(|value| store(0, RELAXED, value)));
    first.push(store(0, RELEASE, 6));
    let second =
        [load(0, RELAXED, 0), jump_if_not(0, 6, 4), store(0, RELEASE, 7), store(0, RELAXED, 8)];
    let third = [load(0, RELAXED, 0), jump_if_not(0, 7, 4), fence(ACQUIRE), unsync_load(1, 1)];
    let program = Program::new(&[0, 0]).thread(&first).thread(&second).thread(&third);
    hand("P8", 14, program).shows("an acquire fence at count 9 goes 2,3,4,5,6,0,1: kind 2, other 0")
}

fn changes() -> Vec<Hand> {
    let max = u64::MAX;
    let (least, most) = (1 << 63, (1 << 63) - 1);
    let signed = |start: u64, a: u64, by_exclusive: bool, left: u64| {
        let row = match by_exclusive {
            false => rmw(0, RELAXED, SIGNED_MAX, 0, a),
            true => exclusive(0, SIGNED_MAX, 0, a),
        };
        Program::new(&[start]).thread(&[row, check(0, start), load(0, RELAXED, 1), check(1, left)])
    };
    let at_zero =
        |row: Row| Program::new(&[0]).thread(&[row, check(0, 0), load(0, RELAXED, 1), check(1, 0)]);
    vec![
        hand("P9", 0, signed(max, 0, false, 0)).shows("signed max of 2^64-1 and 0 is 0, by an RMW"),
        hand("P9-exclusive", 0, signed(max, 0, true, 0)).shows("the same by an exclusive change"),
        hand("P10", 0, signed(least, most, false, most))
            .shows("signed max of 2^63 and 2^63-1 is 2^63-1"),
        hand("P10-exclusive", 0, signed(least, most, true, most))
            .shows("the same by an exclusive change"),
        hand("P11", 0, at_zero(decrement(0, [RELAXED, RELAXED], 0)))
            .shows("a decrement at 0 fails, register 0"),
        hand("P11-exclusive", 0, at_zero(exclusive(0, DECREMENT, 0, 0)))
            .shows("the same by an exclusive change"),
    ]
}
