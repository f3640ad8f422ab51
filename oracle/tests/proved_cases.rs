//! Document 01's cases P1 to P7 and P9 to P11; P8 stands in fences.rs.

mod common;
use common::*;
use terms::{Settings, Summary};

#[test]
fn p1_one_load_to_the_byte() {
    let p1 = table(&[7], &[&[load(0, RELAXED, 0)]]);
    let ran = run(&p1, &settings(3, 1, 1));
    assert_eq!(ran.counts(), [0, 1, 0, 0]);
    let trace = [0, 0, 0, 0, 1, 0, 0, 0, 7, 0, 0, 0, 0, 0, 0, 0];
    assert_eq!(ran.last_trace(), trace);
    let path = [
        [1, 1, 4, 0, 0, 0, 0, 0, 0, 255, 255, 0, 0, 0, 0, 0],
        [2, 1, 0, 0, 0, 0, 0, 0, 0, 0, 1, 0, 0, 0, 0, 0],
        [1, 1, 0, 0, 0, 0, 0, 0, 255, 0, 0, 0, 0, 0, 0, 0],
    ];
    assert_eq!(ran.last_path(), path.concat());
    // Thread 0 starts at version 2, and a load raises it.
    let ended = Summary {
        state: 4,
        rows: 1,
        yields: 0,
        version: 3,
    };
    assert_eq!(ran.report.threads[0], ended);
    assert_eq!(ran.report.threads[1..], [Summary::default(); 4]);
}

#[test]
fn p2_no_place_for_the_last_branch() {
    let p1 = table(&[7], &[&[load(0, RELAXED, 0)]]);
    let ran = run(&p1, &settings(2, 1, 1));
    // The thread is ending: its row is the row count, and it has ended already.
    assert_eq!(ran.fault(), [11, 0, 1]);
    assert_eq!(ran.counts(), [11, 1, 0, 0]);
    assert_eq!(ran.report.threads[0].state, 4);
    let whole = run(&p1, &settings(3, 1, 1));
    assert_eq!(ran.last_path(), &whole.last_path()[..32]);
    assert_eq!(ran.last_trace(), whole.last_trace());
}

fn p3() -> Vec<u8> {
    table(&[0], &[&[store(0, RELAXED, 1)], &[load(0, RELAXED, 0)]])
}

#[test]
fn p3_store_and_load() {
    let ran = run(&p3(), &settings(16, 8, 100));
    assert_eq!(ran.counts(), [0, 5, 4, 0]);
    assert_eq!(ran.values(1, 0), [0, 1, 0, 0, 1]);
}

/// Worked out by hand. First execution: thread 0 stores and ends; thread 1's load conflicts with
/// that store, so thread 1 is to be tried at record 0; the load may read either store.
#[test]
fn p3_first_execution_to_the_byte() {
    let ran = run(&p3(), &settings(16, 8, 1));
    assert_eq!(ran.counts(), [1, 1, 2, 2]);
    let path = [
        schedule_record([4, 3, 0, 0, 0], 0, 0, 65535),
        schedule_record([0, 4, 0, 0, 0], 0, 255, 0),
        schedule_record([0, 4, 0, 0, 0], 0, 1, 1),
        load_record(&[0, 1], 0),
        schedule_record([0, 0, 0, 0, 0], 0, 255, 2),
    ];
    assert_eq!(ran.last_path(), path.concat());
}

/// Fourth execution: thread 1 preempts at record 0, thread 0 at record 1 (the load waits there).
#[test]
fn p3_fourth_execution_to_the_byte() {
    let ran = run(&p3(), &settings(16, 8, 4));
    assert_eq!(ran.counts(), [1, 4, 4, 1]);
    let path = [
        schedule_record([5, 4, 0, 0, 0], 0, 0, 65535),
        schedule_record([4, 5, 0, 0, 0], 1, 1, 0),
        schedule_record([0, 4, 0, 0, 0], 2, 255, 1),
        load_record(&[0, 1], 0),
        schedule_record([0, 0, 0, 0, 0], 2, 255, 2),
    ];
    assert_eq!(ran.last_path(), path.concat());
    let order: Vec<u8> = entries(ran.last_trace()).iter().map(|e| e.thread).collect();
    assert_eq!(order, [0, 1]);
}

/// Nothing open at the Nth execution is 0, not 1.
#[test]
fn p3_at_each_budget() {
    let expected = [[1, 1, 2, 2], [1, 2, 2, 1], [1, 3, 3, 1], [1, 4, 4, 1]];
    for (n, counts) in (1..).zip(expected) {
        assert_eq!(run(&p3(), &settings(16, 8, n)).counts(), counts);
    }
    for n in [5, 6, 65535] {
        assert_eq!(run(&p3(), &settings(16, 8, n)).counts(), [0, 5, 4, 0]);
    }
}

#[test]
fn p4_p5_bounds() {
    let bounded = |bound| Settings {
        bound: Some(bound),
        ..settings(16, 8, 100)
    };
    // Bound 0 takes no mark, so only the load's two values are tried.
    let none = run(&p3(), &bounded(0));
    assert_eq!(none.counts(), [0, 2, 1, 0]);
    assert_eq!(none.values(1, 0), [0, 1]);
    // Bound 1: record 0 is marked; the record after that preemption is not.
    let one = run(&p3(), &bounded(1));
    assert_eq!(one.counts(), [0, 3, 2, 0]);
    assert_eq!(one.values(1, 0), [0, 1, 0]);
    assert_eq!(run(&p3(), &bounded(2)).counts(), [0, 5, 4, 0]);
    assert_eq!(run(&p3(), &bounded(255)).counts(), [0, 5, 4, 0]);
}

#[test]
fn p6_a_thread_joins_itself() {
    let ran = run(&table(&[0], &[&[join(0)]]), &settings(4, 4, 4));
    assert_eq!(ran.counts(), [10, 1, 0, 0]);
    assert_eq!(ran.fault(), [10, 255, 255]);
    let blocked = Summary {
        state: 2,
        rows: 1,
        yields: 0,
        version: 2,
    };
    assert_eq!(ran.report.threads[0], blocked);
    assert_eq!(ran.last_trace(), []);
    let none = schedule_record([0; 5], 0, 255, 65535);
    assert_eq!(ran.last_path(), none);
}

#[test]
fn p7_exclusive_and_load() {
    let p7 = table(&[0], &[&[exclusive(0, 0, 0, 1)], &[load(0, RELAXED, 0)]]);
    let ran = run(&p7, &settings(8, 8, 8));
    assert_eq!(ran.race(), [14, 1, 0]);
    assert_eq!(ran.fault(), [14, 1, 0]);
    assert_eq!(ran.report.executions, 1);
    // The load branch is pushed before the race is met; the row has no entry.
    let last = &ran.last_path()[ran.last_path().len() - 16..];
    assert_eq!(last, load_record(&[0], 0));
    assert_eq!(entries(ran.last_trace()).len(), 1);
    assert_eq!(ran.report.threads[1].version, 2);
}

/// Makes a change as RMW and as exclusive change; gives the value read and the one left.
fn change(row: Row, start: u64) -> (u64, u64) {
    let cells = [start, 0];
    let ran = run(
        &table(&cells, &[&[row, load(0, RELAXED, 1)]]),
        &settings(8, 4, 1),
    );
    let (read, left) = (ran.values(0, 0)[0], ran.values(0, 1)[0]);
    let exclusive = Row {
        opcode: 6,
        order: 0,
        failure: 0,
        ..row
    };
    let rows = [exclusive, store_register(1, RELAXED, row.register)];
    let ran = run(&table(&cells, &[&rows]), &settings(8, 4, 1));
    assert_eq!(ran.values(0, 0), [left]);
    assert_eq!(ran.values(0, 1), [read]);
    (read, left)
}

#[test]
fn p9_p10_signed_max() {
    let max = |start, a| change(rmw(0, RELAXED, 9, 0, a), start);
    assert_eq!(max(u64::MAX, 0), (u64::MAX, 0));
    assert_eq!(max(1 << 63, (1 << 63) - 1), (1 << 63, (1 << 63) - 1));
}

#[test]
fn p11_decrement_at_zero() {
    let rows = [
        decrement(0, (RELAXED, RELAXED), 2),
        check(2, 0),
        store(0, RELAXED, 5),
    ];
    let ran = run(&table(&[0], &[&rows]), &settings(8, 8, 1));
    assert_eq!(ran.counts(), [0, 1, 0, 0]);
    let entry = entry_of(ran.last_trace(), 0, 0);
    assert_eq!((entry.slot, entry.mask, entry.value), (0, 1, 0));
    // It stored nothing: the next store has slot 1.
    assert_eq!(entry_of(ran.last_trace(), 0, 2).slot, 1);
}

#[test]
fn every_change_kind() {
    let kind = |kind, a| rmw(0, ACQREL, kind, 0, a);
    let top = 1u64 << 63;
    assert_eq!(change(kind(0, 9), 5), (5, 9));
    assert_eq!(change(kind(1, 3), u64::MAX - 1), (u64::MAX - 1, 1));
    assert_eq!(change(kind(2, 3), 1), (1, u64::MAX - 1));
    assert_eq!(change(kind(3, 0b1100), 0b1010), (0b1010, 0b1000));
    assert_eq!(change(kind(4, 0b1100), 0b1010), (0b1010, 0b1110));
    assert_eq!(change(kind(5, 0b1100), 0b1010), (0b1010, 0b0110));
    assert_eq!(change(kind(6, 0b1100), 0b1010), (0b1010, !0b1000));
    assert_eq!(change(kind(7, top), 1), (1, top));
    assert_eq!(change(kind(8, top), 1), (1, 1));
    assert_eq!(change(kind(9, top), 1), (1, 1));
    assert_eq!(change(kind(10, top), 1), (1, top));
    let orders = (RELAXED, SEQCST);
    assert_eq!(change(compare(0, orders, 0, 5, 8), 5), (5, 8));
    assert_eq!(change(compare(0, orders, 0, 6, 8), 5), (5, 5));
    assert_eq!(change(decrement(0, orders, 0), 5), (5, 4));
    assert_eq!(change(decrement(0, orders, 0), 0), (0, 0));
}
