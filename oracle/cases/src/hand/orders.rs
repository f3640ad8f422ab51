//! Stores of equal order, met and not met, and more preemptions than a byte counts.

use super::{hand, Hand};
use crate::table::*;

pub(super) fn all() -> Vec<Hand> {
    let mut all = equal();
    all.extend(scans());
    all.push(replaced());
    all.push(first_sight());
    all.extend(preempted());
    all
}

/// Two stores of equal order. Thread 0 stores k (slot 1) and s (slot 2), thread 1 stores a (slot
/// 3). Thread 2 reads a, then k, which takes a's order; thread 0 reads k again, which takes s's;
/// thread 1, who made a and has not seen k, reads s, which takes a's. Now k and s are equal. Only
/// the loads of threads 1 and 2 explore, so that this is reached soon.
fn equal_after(second: &[Row], third: &[Row]) -> Program {
    let first = [store(0, RELAXED, 1), store(0, RELAXED, 2), yields(), load(0, RELAXED, 0)];
    let mut author = vec![store(0, RELAXED, 3), yields(), explore_state(), load(0, RELAXED, 0)];
    author.extend(second);
    let mut reader = vec![explore_state(), load(0, RELAXED, 0), load(0, RELAXED, 1), critical()];
    reader.extend(third);
    Program::new(&[0]).thread(&first).thread(&author).thread(&reader)
}

/// Four stores of thread 1: the last takes slot 0, in front of k and s, and is above both.
fn four() -> Vec<Row> {
    (4..8).map(|value| store(0, RELAXED, value)).collect()
}

fn equal() -> Vec<Hand> {
    let read = load(0, RELAXED, 1);
    let change = rmw(0, RELAXED, ADD, 1, 1);
    let with = |last: Row| [four(), vec![last]].concat();
    let again = [yields(), yields(), load(0, RELAXED, 2)];
    vec![
        hand("equal-met-load", 13, equal_after(&[read], &[]))
            .shows("equal orders met in the scan of a load")
            .quiet(),
        hand("equal-met-rmw", 13, equal_after(&[change], &[]))
            .shows("equal orders met in the scan of an RMW")
            .quiet(),
        hand("equal-unmet-load", 0, equal_after(&with(read), &[]))
            .shows("both fall to slot 0, which thread 1 has seen, before they are compared")
            .quiet(),
        hand("equal-unmet-rmw", 0, equal_after(&with(change), &[]))
            .shows("for an RMW any greater store is enough")
            .quiet(),
        hand("equal-unmet-then-met", 13, equal_after(&with(read), &again))
            .shows("the same stores, met by thread 2, who has not seen slot 0")
            .quiet(),
    ]
}

/// What a load is offered.
fn scans() -> Vec<Hand> {
    let two = |first: &[Row], second: &[Row]| Program::new(&[0]).thread(first).thread(second);
    let stores = |order: u8| [store(0, order, 1), store(0, order, 2)];
    let reads = |order: u8| [load(0, order, 0), load(0, order, 1)];
    let mixed = two(&[store(0, SEQ_CST, 1), store(0, RELAXED, 2)], &reads(SEQ_CST));
    vec![
        hand("scan-relaxed", 0, two(&stores(RELAXED), &reads(RELAXED)))
            .shows("two relaxed stores, read twice: never backwards"),
        hand("scan-seqcst", 0, two(&stores(SEQ_CST), &reads(SEQ_CST)))
            .shows("a SeqCst load is not offered a SeqCst store below a SeqCst store"),
        hand("scan-seqcst-relaxed", 0, two(&stores(SEQ_CST), &reads(RELAXED)))
            .shows("a relaxed load is"),
        hand("scan-mixed", 0, mixed)
            .shows("the start value is no SeqCst store, and neither is the relaxed one"),
        hand(
            "scan-two-writers",
            0,
            Program::new(&[0])
                .thread(&[store(0, RELAXED, 1)])
                .thread(&[store(0, RELAXED, 2)])
                .thread(&reads(RELAXED)),
        )
        .shows("stores of two threads, unordered until a third reads both")
        .limits(64, 64, 200),
        hand("scan-rmw", 0, two(&stores(RELAXED), &[rmw(0, RELAXED, ADD, 0, 1)]))
            .shows("an RMW is offered the newest alone"),
    ]
}

/// A store that takes the slot of a store it is above. Thread 1 stores y (slot 2) and reads x (slot
/// 1), which is then above y; thread 2 fills the slots to 0; thread 3 reads x, and its own store
/// takes slot 1. It has x's order from the slot it replaces and from nowhere else: without it, y
/// would be below no store and the RMW would be offered y.
fn replaced() -> Hand {
    let fill: Vec<Row> = (3..8).map(|value| store(0, RELAXED, value)).collect();
    let last = [
        explore_state(),
        load(0, RELAXED, 0),
        critical(),
        jump_if_not(0, 1, 10),
        store(0, RELAXED, 8),
        explore_state(),
        rmw(0, RELAXED, ADD, 1, 0),
        critical(),
        jump_if_not(1, 2, 10),
        check(1, 0),
    ];
    let program = Program::new(&[0])
        .thread(&[store(0, RELAXED, 1)])
        .thread(&[store(0, RELAXED, 2), load(0, RELAXED, 0)])
        .thread(&fill)
        .thread(&last);
    hand("order-replaced", 0, program)
        .shows("a new store takes the order of the slot it replaces")
        .quiet()
}

/// Thread 1 reads 1, releases, and reads 1 again. Thread 2, who acquires what was released between,
/// has seen the store by thread 1's first sight of it; were the mark moved to the second, it would
/// be offered the start value.
fn first_sight() -> Hand {
    let program = Program::new(&[0, 0])
        .thread(&[store(0, RELAXED, 1)])
        .thread(&[
            load(0, RELAXED, 0),
            jump_if_not(0, 1, 4),
            store(1, RELEASE, 1),
            load(0, RELAXED, 1),
        ])
        .thread(&[load(1, ACQUIRE, 0), jump_if_not(0, 1, 4), load(0, RELAXED, 1), check(1, 1)]);
    hand("first-sight", 0, program).shows("a mark is made at first sight and stays")
}

/// Two threads swap their numbers into one cell; who reads its own back skips and ends. Each
/// execution goes one preemption further. With a last row, a thread leaves the loop for it at its
/// swap number `turns`, counted in a cell of its own without any branch.
fn swapping(last: Option<(Row, u64)>) -> Program {
    let mut program = Program::new(&[0, 0, 0]);
    for thread in 0..2 {
        let own = u64::from(thread) + 1;
        let rows = match last {
            None => vec![rmw(0, RELAXED, SWAP, 0, own), jump_if_not(0, own, 0), skip_branch()],
            Some((row, turns)) => vec![
                rmw(0, RELAXED, SWAP, 0, own),
                jump_if(0, own, 6),
                exclusive(thread + 1, ADD, 1, 1),
                jump_if_not(1, turns - 1, 0),
                row,
                jump(7),
                skip_branch(),
            ],
        };
        program = program.thread(&rows);
    }
    program
}

/// The same so that a scheduling meets both a full path and too many preemptions. Before it come
/// spurious rows, and only there: without them an earlier execution would need more records. Thread
/// 1 says in cell 2 that it ends; a thread that reads this there ends too.
fn swapping_full() -> Program {
    let first = [
        rmw(0, ACQ_REL, SWAP, 0, 1),
        jump_if(0, 1, 11),
        exclusive(1, ADD, 1, 1),
        jump_if_not(1, 128, 0),
        unsync_load(2, 2),
        jump_if(2, 1, 11),
        spurious(3),
        spurious(3),
        spurious(3),
        spurious(3),
        yields(),
        skip_branch(),
    ];
    let second = [
        rmw(0, ACQ_REL, SWAP, 0, 2),
        jump_if_not(0, 2, 0),
        skip_branch(),
        exclusive(2, SWAP, 3, 1),
    ];
    Program::new(&[0, 0, 0]).thread(&first).thread(&second)
}

fn preempted() -> Vec<Hand> {
    let swaps = |name: &str, answer: u64, shows: &str, last: Option<Row>| {
        // Thread 0 is the one that has made 129 swaps when the 256th preemption has been made.
        let program = swapping(last.map(|row| (row, 129)));
        hand(name, answer, program).shows(shows).limits(1_024, 4_096, 300)
    };
    let mut short = swaps("preempted-255", 1, "one execution less", None);
    short.case.settings.executions = 256;
    let bounded = swaps("preempted-bound", 1, "a bound keeps the count below", None);
    let full = hand("preempted-full", 11, swapping_full())
        .shows("a full path and too many preemptions at once: 11 comes first");
    vec![
        swaps(
            "preempted-256",
            17,
            "two threads swap their numbers; 17 in execution 257, at a swap",
            None,
        ),
        short,
        bounded.bound(254),
        full.limits(519, 4_096, 300),
        swaps("preempted-yield", 17, "at a yield: entry there, state yielded", Some(yields())),
        swaps("preempted-join", 17, "at a blocking join: no entry, state blocked", Some(join(1))),
        swaps("preempted-end", 17, "at an end: the row count, state ended", Some(jump(7))),
    ]
}
