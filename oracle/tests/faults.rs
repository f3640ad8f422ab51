//! Answers 10, 13, 15, 16 and 17.

mod common;
use common::*;
use terms::{Settings, Summary};

fn summary(state: u64, rows: u64, yields: u64, version: u64) -> Summary {
    Summary {
        state,
        rows,
        yields,
        version,
    }
}

#[test]
fn ten_two_threads_join_each_other() {
    let ran = run(
        &table(&[0], &[&[join(1)], &[join(0)], &[]]),
        &settings(8, 8, 8),
    );
    assert_eq!(ran.fault(), [10, 255, 255]);
    assert_eq!(ran.report.threads[0], summary(2, 1, 0, 2));
    assert_eq!(ran.report.threads[1], summary(2, 1, 0, 1));
    // Thread 2 has ended; its end found no thread.
    assert_eq!(ran.report.threads[2], summary(4, 0, 0, 1));
    let path = [
        schedule_record([0, 4, 1, 0, 0], 0, 1, 65535),
        schedule_record([0, 0, 4, 0, 0], 0, 255, 0),
        schedule_record([0; 5], 0, 255, 1),
    ];
    assert_eq!(ran.last_path(), path.concat());
}

/// A yielded thread is no deadlock: the first Yield becomes Active.
#[test]
fn ten_only_when_none_is_yielded() {
    let rows: [&[Row]; 2] = [&[yields(), yields()], &[join(1)]];
    let ran = run(&table(&[0], &rows), &settings(8, 8, 8));
    assert_eq!(ran.fault(), [10, 255, 255]);
    assert_eq!(ran.report.threads[0], summary(4, 2, 2, 2));
    assert_eq!(entries(ran.last_trace()).len(), 2);
}

#[test]
fn fifteen_a_check_fails() {
    let rows = [check(1, 0), load(0, RELAXED, 1), check(1, 8)];
    let ran = run(&table(&[7], &[&rows]), &settings(8, 8, 8));
    assert_eq!(ran.fault(), [15, 0, 2]);
    assert_eq!(ran.report.rows, 3);
    assert_eq!(entries(ran.last_trace()).len(), 2);
    // In a later execution: the load of P3 reads 1 in the second.
    let rows: [&[Row]; 2] = [&[store(0, RELAXED, 1)], &[load(0, RELAXED, 3), check(3, 0)]];
    let ran = run(&table(&[0], &rows), &settings(16, 8, 100));
    assert_eq!(ran.fault(), [15, 1, 1]);
    assert_eq!(ran.counts(), [15, 2, 2, 1]);
    // A fault in the Nth execution is the fault, not 1.
    let ran = run(&table(&[0], &rows), &settings(16, 8, 2));
    assert_eq!(ran.counts(), [15, 2, 2, 1]);
}

#[test]
fn sixteen_in_both_directions() {
    let exploring = |rows: &[Row], exploring| {
        let settings = Settings {
            exploring,
            ..settings(8, 8, 8)
        };
        run(&table(&[0], &[rows]), &settings)
    };
    for (row, start) in [(critical(), false), (explore_state(), true)] {
        let ran = exploring(&[row], start);
        assert_eq!(ran.fault(), [16, 0, 0]);
        assert_eq!(ran.report.rows, 1);
        assert_eq!(ran.last_trace(), []);
        // The other way round it is none, but a second time is.
        let ran = exploring(&[row, row], !start);
        assert_eq!(ran.fault(), [16, 0, 1]);
        assert_eq!(entries(ran.last_trace()).len(), 1);
        // When skipping, both complete and change nothing.
        let ran = exploring(&[skip_branch(), skip_branch(), row, row], start);
        assert_eq!(ran.counts(), [0, 1, 0, 0]);
        assert_eq!(entries(ran.last_trace()).len(), 4);
        // The flag of the branch at the thread's end: skipping is not exploring.
        assert_eq!(ran.last_path()[..2], [1, 0]);
    }
    let ran = exploring(&[critical(), explore_state()], true);
    assert_eq!(ran.counts(), [0, 1, 0, 0]);
    assert_eq!(ran.last_path()[..2], [1, 1]);
}

/// Flags are one pair for all threads, reset at the start of each execution.
#[test]
fn sixteen_is_met_across_threads() {
    let rows: [&[Row]; 2] = [&[critical()], &[critical()]];
    let ran = run(&table(&[0], &rows), &settings(8, 8, 8));
    assert_eq!(ran.fault(), [16, 1, 0]);
    // Two executions by the spurious branch: the second starts exploring again.
    let rows = [spurious(0), critical()];
    let ran = run(&table(&[0], &[&rows]), &settings(8, 8, 8));
    assert_eq!(ran.counts(), [0, 2, 1, 0]);
}

/// The recipe for equal orders, one cell, all relaxed, slots: start 0, k 1, s 2, A 3.
///
/// Only loads explore, and no store comes after exploring begins, so nothing is marked and the
/// executions are the loads' choices. Yields lead the threads through: 0, 1, 2, 0, 1.
/// - Thread 0 stores k (3,0,0) and s (4,0,0); thread 1 stores A (1,2,0).
/// - Thread 2's first load has four offers. Unless it reads A, it skips: executions 1 to 3.
/// - Execution 4: it reads A, then k (offers k, s, A), whose order becomes (3,2,0). Thread 0 reads k
///   (offers k, s), which becomes (4,2,0). Thread 1 reads k (offers k, s); then k is alone.
/// - Execution 5: thread 1 reads s, whose order becomes (4,2,0), that of k. Its next row scans: slot
///   0 is dropped, slot 1 meets slot 2.
fn recipe(last: Row) -> Vec<u8> {
    let read = load(0, RELAXED, 0);
    let t0 = [
        store(0, RELAXED, 10),
        store(0, RELAXED, 20),
        yields(),
        explore_state(),
        read,
        critical(),
        yields(),
    ];
    let t1 = [store(0, RELAXED, 30), yields(), explore_state(), read, last];
    let t2 = [
        explore_state(),
        read,
        jump_if(0, 30, 4),
        skip_branch(),
        read,
        critical(),
        yields(),
    ];
    table(&[0], &[&t0, &t1, &t2])
}

#[test]
fn thirteen_by_the_recipe() {
    for last in [load(0, RELAXED, 0), rmw(0, RELAXED, 1, 0, 1)] {
        let settings = Settings {
            exploring: false,
            ..settings(64, 64, 100)
        };
        let ran = run(&recipe(last), &settings);
        assert_eq!(ran.fault(), [13, 1, 4]);
        // Opened: 3 + 2 + 1 + 1; left open: 2 of thread 2's second load, 1 of thread 0's.
        assert_eq!(ran.counts(), [13, 5, 7, 3]);
        let reads = entries(ran.last_trace());
        let reads = reads.iter().filter(|entry| entry.opcode == 0);
        let reads: Vec<_> = reads.map(|e| (e.thread, e.value, e.mask)).collect();
        assert_eq!(
            reads,
            [
                (2, 30, 0b1111),
                (2, 10, 0b1110),
                (0, 10, 0b0110),
                (1, 20, 0b0110)
            ]
        );
        // The version is raised before the scan: 1 + store, load and the row that faults.
        assert_eq!(ran.report.threads[1], summary(1, 5, 1, 4));
        // Its schedule branch is there, its load branch is not.
        assert_eq!(ran.last_path()[ran.last_path().len() - 16], 1);
    }
}

/// Two threads swap their numbers into one cell, and skip and end on reading their own back.
///
/// Each execution ends by one thread running alone; the deepest choice left is to preempt it, so
/// execution e has e - 1 preemptions, and 257 is the first with 256. Before the first of them thread
/// 0 begins swap, jump, swap, and thread 1 after it likewise; each later one gives the thread that
/// goes on its waiting swap, a jump and a swap begun.
#[test]
fn seventeen_by_swaps() {
    let rows = |own| {
        [
            rmw(0, RELAXED, 0, 0, own),
            jump_unless(0, own, 0),
            skip_branch(),
        ]
    };
    let swaps = table(&[0], &[&rows(1), &rows(2)]);
    let ran = run(&swaps, &settings(1024, 4096, 65535));
    assert_eq!(ran.fault(), [17, 0, 0]);
    // Left open: thread 1 at the very first branch, thread 0 at thread 1's first swap.
    assert_eq!(ran.counts(), [17, 257, 258, 2]);
    assert_eq!(ran.report.rows, 3 + 3 + 255 * 2);
    assert_eq!(ran.report.threads[0], summary(1, 3 + 128 * 2, 0, 2 + 129));
    assert_eq!(ran.report.threads[1], summary(1, 3 + 127 * 2, 0, 1 + 128));
    // Five records up to thread 1's first swap, then a schedule and a load each; the branch of the
    // fault is not added.
    let path = ran.last_path();
    assert_eq!(path.len(), 16 * (5 + 255 * 2));
    let schedule = &path[path.len() - 32..path.len() - 16];
    assert_eq!(schedule[..9], [1, 1, 4, 5, 0, 0, 0, 255, 1]);
    assert_eq!(path[path.len() - 16], 2);
}

/// One execution fewer is within 255; and the path of execution 256 needs 520 records, so with 519
/// it is 11 that is met.
#[test]
fn seventeen_is_not_met_before() {
    let rows = |own| {
        [
            rmw(0, RELAXED, 0, 0, own),
            jump_unless(0, own, 0),
            skip_branch(),
        ]
    };
    let swaps = table(&[0], &[&rows(1), &rows(2)]);
    let ran = run(&swaps, &settings(520, 4096, 256));
    assert_eq!(ran.report.answer, 1);
    assert_eq!(ran.last_path().len(), 16 * 520);
    let most = ran.last_path().chunks(16).filter(|record| record[0] == 1);
    assert_eq!(most.map(|record| record[7]).max(), Some(255));
    let ran = run(&swaps, &settings(519, 4096, 65535));
    assert_eq!([ran.report.answer, ran.report.executions], [11, 256]);
    let ran = run(&swaps, &settings(520, 4096, 65535));
    assert_eq!([ran.report.answer, ran.report.executions], [17, 257]);
}
