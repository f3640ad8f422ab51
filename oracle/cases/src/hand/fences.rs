//! Fences, released vectors and release sequences. The last thread looks at data without
//! synchronisation where it has seen what it waits for: a race tells that nothing was carried over.

use super::{hand, Hand};
use crate::table::*;

pub(super) fn all() -> Vec<Hand> {
    let mut all = pairs();
    all.extend(chains());
    all.extend(released());
    all.extend(sequences());
    all
}

/// Cell 0 is the flag, cell 1 the data.
fn message(writer: &[Row], reader: &[Row]) -> Program {
    let mut first = vec![exclusive(1, SWAP, 3, 1)];
    first.extend(writer);
    let mut last = vec![load(0, RELAXED, 0), jump_if_not(0, 1, 3 + reader.len() as u16)];
    last.extend(reader);
    last.push(unsync_load(1, 1));
    Program::new(&[0, 0]).thread(&first).thread(&last)
}

fn pairs() -> Vec<Hand> {
    let mut all = Vec::new();
    for before in 1..=4 {
        for after in 1..=4 {
            // A release side and an acquire side together carry the data over.
            let carried = before != ACQUIRE && after != RELEASE;
            let names = [before, after].map(|order| ORDERS[usize::from(order)]);
            let shows =
                format!("a fence {} before the flag, a fence {} after it", names[0], names[1]);
            let program = message(&[fence(before), store(0, RELAXED, 1)], &[fence(after)]);
            let answer = if carried { 0 } else { 14 };
            all.push(hand(&format!("fence-{before}-{after}"), answer, program).shows(&shows));
        }
    }
    all
}

/// What thread 1 only saw of thread 0, thread 2 acquires if its fence meets the stores in the right
/// order.
fn chain(first: u8, second: u8) -> Program {
    Program::new(&[0, 0, 0])
        .thread(&[exclusive(2, SWAP, 0, 1), store(first, RELEASE, 1)])
        .thread(&[load(first, RELAXED, 0), jump_if_not(0, 1, 3), store(second, RELEASE, 2)])
        .thread(&[
            load(second, RELAXED, 0),
            jump_if_not(0, 2, 4),
            fence(ACQUIRE),
            unsync_load(2, 1),
        ])
}

fn chains() -> Vec<Hand> {
    vec![
        hand("fence-cells-rise", 0, chain(1, 0))
            .shows("cell 0's join lets cell 1's store be seen: no race"),
        hand("fence-cells-fall", 14, chain(0, 1))
            .shows("the other way round cell 0 is passed before: kind 2"),
        hand("fence-same-cell", 14, chain(0, 0))
            .shows("in one cell the older store is passed before the newer"),
        hand(
            "fence-unseen",
            14,
            message(&[store(0, RELEASE, 2), store(0, RELAXED, 1)], &[fence(ACQUIRE)]),
        )
        .shows("a store that was not seen is not joined"),
    ]
}

fn released() -> Vec<Hand> {
    let snapshot =
        message(&[fence(RELEASE), store(0, RELAXED, 2), store(0, RELAXED, 1)], &[fence(ACQUIRE)]);
    let too_early = Program::new(&[0, 0])
        .thread(&[
            fence(RELEASE),
            store(0, RELAXED, 2),
            exclusive(1, SWAP, 3, 1),
            store(0, RELAXED, 1),
        ])
        .thread(&[load(0, ACQUIRE, 0), jump_if_not(0, 1, 3), unsync_load(1, 1)]);
    let global = |first: u8| {
        Program::new(&[0, 0])
            .thread(&[exclusive(1, SWAP, 0, 1), fence(SEQ_CST)])
            .thread(&[fence(first), store(0, RELAXED, 1)])
            .thread(&[load(0, ACQUIRE, 0), jump_if_not(0, 1, 3), unsync_load(1, 1)])
    };
    let direct = Program::new(&[0]).thread(&[exclusive(0, SWAP, 0, 1), fence(SEQ_CST)]).thread(&[
        fence(SEQ_CST),
        unsync_load(0, 0),
        check(0, 1),
    ]);
    let acq_rel = Program::new(&[0, 0, 0])
        .thread(&[exclusive(2, SWAP, 0, 1), store(0, RELEASE, 1)])
        .thread(&[load(0, RELAXED, 0), jump_if_not(0, 1, 4), fence(ACQ_REL), store(1, RELAXED, 1)])
        .thread(&[load(1, ACQUIRE, 0), jump_if_not(0, 1, 3), unsync_load(2, 1)]);
    vec![
        hand("released-stays", 0, snapshot).shows("a release fence holds for all later stores"),
        hand("released-is-a-snapshot", 14, too_early)
            .shows("what comes after the fence is not released by it: kind 2"),
        hand("released-before-global", 14, global(SEQ_CST))
            .shows("a SeqCst fence releases what was there before it took the global vector"),
        hand("released-acqrel", 0, acq_rel).shows("AcqRel acquires, then releases what it got"),
        hand("seqcst-fences", 0, direct).shows("two SeqCst fences order what stands around them"),
    ]
}

/// Cell 0 is the flag, cell 1 the data; thread 1 stands between writer and reader.
fn sequence(middle: Row, wanted: u64, last: u8) -> Program {
    Program::new(&[0, 0])
        .thread(&[exclusive(1, SWAP, 3, 1), store(0, RELEASE, 1)])
        .thread(&[middle])
        .thread(&[load(0, last, 0), jump_if_not(0, wanted, 3), unsync_load(1, 1)])
}

fn sequences() -> Vec<Hand> {
    let failing =
        Program::new(&[0, 0]).thread(&[exclusive(1, SWAP, 3, 1), store(0, RELEASE, 1)]).thread(&[
            compare(0, [RELAXED, ACQUIRE], 0, 7, 8),
            jump_if_not(0, 1, 3),
            unsync_load(1, 1),
        ]);
    let by_success =
        Program::new(&[0, 0]).thread(&[exclusive(1, SWAP, 3, 1), store(0, RELEASE, 1)]).thread(&[
            compare(0, [ACQUIRE, RELAXED], 0, 7, 8),
            jump_if_not(0, 1, 3),
            unsync_load(1, 1),
        ]);
    let own_release = Program::new(&[0, 0])
        .thread(&[store(0, RELAXED, 1)])
        .thread(&[exclusive(1, SWAP, 3, 1), rmw(0, RELEASE, ADD, 0, 1)])
        .thread(&[load(0, ACQUIRE, 0), jump_if_not(0, 2, 3), unsync_load(1, 1)]);
    vec![
        hand("sequence-relaxed", 0, sequence(rmw(0, RELAXED, ADD, 0, 1), 2, ACQUIRE))
            .shows("a relaxed RMW goes on with the release it read"),
        hand("sequence-broken", 14, sequence(store(0, RELAXED, 2), 2, ACQUIRE))
            .shows("a relaxed store does not"),
        hand("sequence-unread", 14, sequence(rmw(0, ACQ_REL, ADD, 0, 1), 2, RELAXED))
            .shows("a relaxed reader gets nothing of it"),
        hand("sequence-own", 0, own_release)
            .shows("the copied sync takes the RMW's own release as well"),
        hand("failure-order", 0, failing)
            .shows("an RMW that fails synchronises by its failure order"),
        hand("failure-order-only", 14, by_success).shows("and not by its success order"),
    ]
}
