//! Answer 14: the nine kinds, their order, and who is named.

mod common;
use common::*;

/// Thread 0 does its row and ends; then thread 1 does its own. First execution only.
fn after(first: Row, second: Row) -> Ran {
    run(&table(&[5], &[&[first], &[second]]), &settings(8, 8, 1))
}

#[test]
fn nine_kinds() {
    let (load, unsync) = (load(0, SEQCST, 0), unsync_load(0, 0));
    let (store, change) = (store(0, SEQCST, 1), exclusive(0, 1, 0, 1));
    let kinds = [
        (change, load, 1),
        (change, unsync, 2),
        (store, unsync, 3),
        (change, store, 4),
        (unsync, store, 5),
        (load, change, 6),
        (unsync, change, 7),
        (store, change, 8),
        (change, change, 9),
    ];
    for (first, second, kind) in kinds {
        let ran = after(first, second);
        assert_eq!(ran.race(), [14, kind, 0]);
        assert_eq!(ran.fault(), [14, 1, 0]);
        assert_eq!(ran.report.rows, 2);
        // The faulting row has no entry. Opcodes 5 and 6 raise no version, the others do.
        assert_eq!(entries(ran.last_trace()).len(), 1);
        let raised = u64::from(second.opcode < 5);
        assert_eq!(ran.report.threads[1].version, 1 + raised);
        // The current thread's own accesses are no race.
        let both = run(&table(&[5], &[&[first, second]]), &settings(8, 8, 1));
        assert_eq!(both.report.answer, 0);
    }
}

#[test]
fn pairs_that_are_no_race() {
    let (load, unsync, store) = (load(0, RELAXED, 0), unsync_load(0, 0), store(0, RELAXED, 1));
    for (first, second) in [
        (load, unsync),
        (unsync, load),
        (unsync, unsync),
        (load, store),
        (store, load),
        (store, store),
    ] {
        assert_ne!(after(first, second).report.answer, 14);
    }
}

/// An RMW checks as a load first, then, if it succeeds, as a store; so kind 4 is never its own.
#[test]
fn races_of_an_rmw() {
    let swap = rmw(0, ACQREL, 0, 0, 1);
    assert_eq!(after(exclusive(0, 0, 0, 1), swap).race(), [14, 1, 0]);
    assert_eq!(after(unsync_load(0, 0), swap).race(), [14, 5, 0]);
    assert_eq!(after(swap, unsync_load(0, 0)).race(), [14, 3, 0]);
    assert_eq!(after(swap, exclusive(0, 0, 0, 1)).race(), [14, 6, 0]);
    let failing = compare(0, (ACQREL, ACQUIRE), 0, 6, 7);
    assert_eq!(after(unsync_load(0, 0), failing).race(), [0, 0, 255]);
    assert_eq!(after(failing, unsync_load(0, 0)).race(), [0, 0, 255]);
    assert_eq!(after(exclusive(0, 0, 0, 1), failing).race(), [14, 1, 0]);
    assert_eq!(after(failing, exclusive(0, 0, 0, 1)).race(), [14, 6, 0]);
}

/// A failing exclusive change still checks all four and still counts as a mutation.
#[test]
fn a_failing_exclusive_change() {
    let failing = Row {
        b: 9,
        ..exclusive(0, 11, 0, 6)
    };
    for (row, kind) in [
        (load(0, RELAXED, 0), 6),
        (unsync_load(0, 0), 7),
        (store(0, RELAXED, 1), 8),
        (failing, 9),
    ] {
        assert_eq!(after(row, failing).race(), [14, kind, 0]);
    }
    assert_eq!(after(failing, load(0, RELAXED, 0)).race(), [14, 1, 0]);
    let alone = run(&table(&[5], &[&[failing]]), &settings(8, 8, 1));
    let entry = entry_of(alone.last_trace(), 0, 0);
    assert_eq!((entry.slot, entry.value), (0, 5));
}

/// The order of the checks: thread 1 has stored and read unsynchronised, thread 0 has loaded.
#[test]
fn checks_come_in_order() {
    let prepared = [
        store(0, RELAXED, 1),
        unsync_load(0, 0),
        exclusive(0, 0, 0, 1),
    ];
    let last =
        |first: &[Row], row: Row| run(&table(&[5], &[first, &[row]]), &settings(16, 8, 1)).race();
    assert_eq!(last(&prepared, unsync_load(0, 0)), [14, 2, 0]);
    assert_eq!(last(&prepared, store(0, RELAXED, 1)), [14, 4, 0]);
    assert_eq!(last(&prepared, exclusive(0, 0, 0, 1)), [14, 7, 0]);
    assert_eq!(last(&prepared[..2], exclusive(0, 0, 0, 1)), [14, 7, 0]);
    assert_eq!(last(&prepared[..1], exclusive(0, 0, 0, 1)), [14, 8, 0]);
    let loaded = [load(0, RELAXED, 0), unsync_load(0, 0)];
    assert_eq!(last(&loaded, exclusive(0, 0, 0, 1)), [14, 6, 0]);
}

/// The other thread is the lowest that is ahead, not the one that made the access: thread 0 releases
/// after raising its version to 3, thread 1 acquires that and stores; thread 2 knows neither.
#[test]
fn the_lowest_thread_ahead_is_named() {
    let threads: [&[Row]; 3] = [
        &[store(1, RELEASE, 1)],
        &[rmw(1, ACQUIRE, 1, 0, 1), store(0, RELAXED, 1)],
        &[exclusive(0, 0, 0, 1)],
    ];
    let ran = run(&table(&[5, 0], &threads), &settings(16, 8, 1));
    assert_eq!(ran.race(), [14, 8, 0]);
    assert_eq!(ran.fault(), [14, 2, 0]);
    // Without the acquire it is thread 1.
    let threads: [&[Row]; 3] = [
        &[store(1, RELEASE, 1)],
        &[rmw(1, RELAXED, 1, 0, 1), store(0, RELAXED, 1)],
        &[exclusive(0, 0, 0, 1)],
    ];
    let ran = run(&table(&[5, 0], &threads), &settings(16, 8, 1));
    assert_eq!(ran.race(), [14, 8, 1]);
}

/// A join orders the accesses; a thread that only ran later does not.
#[test]
fn a_join_is_no_race() {
    let threads: [&[Row]; 2] = [
        &[join(1), exclusive(0, 0, 0, 9), load(0, RELAXED, 0)],
        &[store(0, RELAXED, 1), exclusive(0, 1, 0, 1)],
    ];
    let ran = run(&table(&[5], &threads), &settings(16, 8, 9));
    assert_eq!(ran.counts(), [0, 1, 0, 0]);
    // Thread 1: store 1 at slot 1, made 2 in place. Thread 0 leaves 9 there and reads it.
    let values: Vec<_> = entries(ran.last_trace());
    let values: Vec<_> = values.iter().map(|e| (e.opcode, e.slot, e.value)).collect();
    let expected = [(1, 1, 1), (6, 1, 2), (8, 255, 0), (6, 1, 9), (0, 1, 9)];
    assert_eq!(values, expected);
    // Thread 0: 2, raised by the join and by the load.
    assert_eq!(ran.report.threads[0].version, 4);
}
