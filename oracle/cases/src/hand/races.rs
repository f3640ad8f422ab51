//! Every race kind of atomic cells, and what is not a race.

use super::{hand, Hand};
use crate::table::*;

pub(super) fn all() -> Vec<Hand> {
    let mut all = kinds();
    all.extend(check_order());
    all.extend(changing());
    all.extend(others());
    all.extend(none());
    all
}

fn two(first: Row, second: Row) -> Program {
    Program::new(&[0]).thread(&[first]).thread(&[second])
}

fn change() -> Row {
    exclusive(0, ADD, 0, 1)
}

fn read() -> Row {
    load(0, RELAXED, 0)
}

fn write() -> Row {
    store(0, RELAXED, 1)
}

fn look() -> Row {
    unsync_load(0, 0)
}

fn kinds() -> Vec<Hand> {
    let kinds = [
        ("load after a mutation", change(), read()),
        ("unsynchronised load after a mutation", change(), look()),
        ("unsynchronised load after a store", write(), look()),
        ("store after a mutation", change(), write()),
        ("store after an unsynchronised load", look(), write()),
        ("exclusive after a load", read(), change()),
        ("exclusive after an unsynchronised load", look(), change()),
        ("exclusive after a store", write(), change()),
        ("exclusive after an exclusive", change(), change()),
    ];
    let mut all = Vec::new();
    for (n, (shows, first, second)) in kinds.into_iter().enumerate() {
        let name = format!("race-{}", n + 1);
        all.push(hand(&name, 14, two(first, second)).shows(shows).list(5));
    }
    all
}

/// Where two kinds would fit, the first in check order is given.
fn check_order() -> Vec<Hand> {
    let after = |rows: &[Row], last: Row| Program::new(&[0]).thread(rows).thread(&[last]);
    vec![
        hand("race-6-before-8", 14, after(&[rmw(0, RELAXED, ADD, 0, 1)], change()))
            .shows("exclusive after an RMW: kind 6"),
        hand("race-7-before-8", 14, after(&[look(), write()], change()))
            .shows("exclusive after an unsynchronised load and a store: kind 7"),
        hand("race-2-before-3", 14, after(&[write(), change()], look()))
            .shows("unsynchronised load after a store and a mutation: kind 2"),
        hand("race-4-before-5", 14, after(&[look(), change()], write()))
            .shows("store after an unsynchronised load and a mutation: kind 4"),
        hand("race-6-first", 14, after(&[change(), look(), write(), read()], change()))
            .shows("exclusive after everything: kind 6"),
        hand("race-load-branch", 14, two(change(), load(0, ACQUIRE, 1)))
            .shows("the load's branch is there before its race: three records")
            .limits(3, 9, 9),
        hand("race-load-full", 11, two(change(), load(0, ACQUIRE, 1)))
            .shows("without a place for it, 11 comes first")
            .limits(2, 9, 9),
    ]
}

/// RMWs and changes that fail.
fn changing() -> Vec<Hand> {
    let add = |order: u8| rmw(0, order, ADD, 0, 1);
    let fails = compare(0, [RELAXED, RELAXED], 0, 7, 8);
    let released =
        Program::new(&[0]).thread(&[look(), store(0, RELEASE, 1)]).thread(&[add(ACQ_REL)]);
    vec![
        hand("race-rmw-1", 14, two(change(), add(RELAXED)))
            .shows("an RMW after a mutation: kind 1"),
        hand("race-rmw-5", 14, two(look(), add(RELAXED)))
            .shows("an RMW after an unsynchronised load: kind 5, marks and branch made"),
        hand("race-rmw-unsynced", 14, released)
            .shows("an RMW checks the store race before it synchronises: kind 5"),
        hand("race-rmw-failing", 0, two(look(), fails))
            .shows("an RMW that fails checks no store race"),
        hand("race-failing-exclusive", 14, two(exclusive_compare(0, 0, 7, 8), read()))
            .shows("an exclusive change that fails counts as a mutation: kind 1"),
        hand("race-failing-decrement", 14, two(write(), exclusive(0, DECREMENT, 0, 0)))
            .shows("and still checks all four: kind 8"),
    ]
}

/// The other thread is the lowest one ahead, not always the one that made the access.
fn others() -> Vec<Hand> {
    let handed = |order: u8| {
        Program::new(&[0, 0])
            .thread(&[store(1, RELEASE, 1)])
            .thread(&[load(1, order, 0), jump_if_not(0, 1, 3), change()])
            .thread(&[load(1, RELAXED, 0), jump_if_not(0, 1, 3), look()])
    };
    // The flag in cell 1 is relaxed, so that thread 2 learns nothing but that thread 1 read 1.
    let before_sync = Program::new(&[0, 0])
        .thread(&[store(0, RELEASE, 1)])
        .thread(&[load(0, ACQUIRE, 0), jump_if_not(0, 1, 3), store(1, RELAXED, 1)])
        .thread(&[load(1, RELAXED, 0), jump_if_not(0, 1, 3), change()]);
    let stored_before = Program::new(&[0])
        .thread(&[store(0, RELEASE, 1)])
        .thread(&[rmw(0, ACQUIRE, ADD, 0, 1)])
        .thread(&[look()]);
    vec![
        hand("other-lowest", 14, handed(ACQUIRE))
            .shows("thread 1 made the access, but thread 0 is ahead too: other 0"),
        hand("other-made", 14, handed(RELAXED)).shows("without the synchronisation: other 1"),
        hand("other-loaded-at", 14, before_sync)
            .shows("a load is recorded before it synchronises: kind 6, other 1"),
        hand("other-stored-at", 14, stored_before)
            .shows("a store is named by the lowest thread ahead: kind 3, other 0"),
    ]
}

fn none() -> Vec<Hand> {
    let pass = |store_order: u8, load_order: u8| {
        Program::new(&[0, 0]).thread(&[change(), store(1, store_order, 1)]).thread(&[
            load(1, load_order, 0),
            jump_if_not(0, 1, 4),
            look(),
            change(),
        ])
    };
    let ended = Program::new(&[0]).thread(&[join(1), change(), look(), write(), read()]).thread(&[
        read(),
        write(),
        look(),
        change(),
    ]);
    vec![
        hand("safe-fresh", 0, two(look(), look()))
            .shows("a fresh cell may be looked at by all: its making is no store"),
        hand("safe-reads", 0, two(look(), read())).shows("loads of both sorts do not race"),
        hand("safe-atomics", 0, two(write(), rmw(0, RELAXED, ADD, 0, 1)))
            .shows("atomic accesses do not race"),
        hand("safe-passed", 0, pass(RELEASE, ACQUIRE))
            .shows("a message passed by release and acquire"),
        hand("safe-joined", 0, ended).shows("a join orders everything"),
        hand("unsafe-relaxed-store", 14, pass(RELAXED, ACQUIRE))
            .shows("the same with a relaxed store: kind 2"),
        hand("unsafe-relaxed-load", 14, pass(RELEASE, RELAXED))
            .shows("the same with a relaxed load: kind 2"),
    ]
}
