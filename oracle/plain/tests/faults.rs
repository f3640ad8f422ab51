//! Each answer from 10 on, and the budget.

mod common;
use common::*;
use terms::Settings;

fn at_fault(left: &Left) -> (u64, u64, u64) {
    (left.report.answer, left.report.thread, left.report.row)
}

#[test]
fn deadlock_of_two_joins() {
    let left = run(&table(&[0], &[&[join(1)], &[join(0)]]), &settings());
    assert_eq!(at_fault(&left), (10, 255, 255));
    assert_eq!(
        left.report.threads.map(|thread| thread.state),
        [2, 2, 0, 0, 0]
    );
    assert!(left.entries().is_empty());
    // The branch that found nobody stays.
    assert_eq!(
        left.path[16..32],
        [1, 1, 0, 0, 0, 0, 0, 0, 255, 0, 0, 0, 0, 0, 0, 0]
    );
}

fn branches(branches: u64) -> Settings {
    Settings {
        branches,
        ..settings()
    }
}

#[test]
fn no_place_for_an_access() {
    let access = table(&[0], &[&[store(0, RELAXED, 1), load(0, RELAXED, 0)]]);
    assert_eq!(at_fault(&run(&access, &branches(1))), (11, 0, 1));
    // The load was scheduled, so its version is raised; its own branch finds no place.
    let at_load = run(&access, &branches(2));
    assert_eq!(at_fault(&at_load), (11, 0, 1));
    let summary = at_load.report.threads[0];
    assert_eq!((summary.version, summary.rows), (4, 2));
    assert_eq!(at_load.entries().len(), 1);
    let bits = run(&table(&[0], &[&[spurious(0), spurious(1)]]), &branches(1));
    assert_eq!(at_fault(&bits), (11, 0, 1));
}

#[test]
fn no_place_for_a_thread_that_stops() {
    let wait = run(&table(&[0], &[&[spurious(0), join(1)], &[]]), &branches(1));
    assert_eq!(at_fault(&wait), (11, 0, 1));
    let summary = wait.report.threads[0];
    assert_eq!((summary.state, summary.version, summary.rows), (2, 2, 2));
    assert_eq!(wait.entries().len(), 1);
    let yields = run(&table(&[0], &[&[spurious(0), yield_now()]]), &branches(1));
    assert_eq!(at_fault(&yields), (11, 0, 1));
    let summary = yields.report.threads[0];
    assert_eq!((summary.state, summary.yields), (3, 1));
    assert_eq!(yields.entries().len(), 2);
    // The ended thread's joiner is free already.
    let ends = run(&table(&[0], &[&[join(1)], &[spurious(0)]]), &branches(2));
    assert_eq!(at_fault(&ends), (11, 1, 1));
    let states = ends.report.threads.map(|thread| thread.state);
    assert_eq!(states, [1, 4, 0, 0, 0]);
}

#[test]
fn a_yielder_that_is_picked_stays_yielded() {
    let states = |threads: &[&[Row]]| {
        let report = run(&table(&[0], threads), &settings()).report;
        [report.threads[0].state, report.threads[1].state]
    };
    let (again, fails) = (yield_now(), check(0, 1));
    assert_eq!(states(&[&[again, fails]]), [3, 0]);
    assert_eq!(states(&[&[again, store(0, RELAXED, 1), fails]]), [3, 0]);
    // The first yield gives way to thread 1, which ends.
    assert_eq!(states(&[&[again, again, join(1), fails], &[]]), [3, 4]);
    // One that gave way is runnable, and so is who waited for one that has ended.
    assert_eq!(states(&[&[again], &[fails]]), [1, 1]);
    assert_eq!(states(&[&[join(1), fails], &[again]]), [1, 4]);
    assert_eq!(states(&[&[again, join(0)]]), [2, 0]);
}

#[test]
fn no_more_rows_may_begin() {
    let limited = |operations| Settings {
        operations,
        ..settings()
    };
    let two = table(&[0], &[&[yield_now(), yield_now()]]);
    let left = run(&two, &limited(1));
    assert_eq!(at_fault(&left), (12, 0, 1));
    assert_eq!((left.report.rows, left.entries().len()), (1, 1));
    assert_eq!(run(&two, &limited(2)).report.answer, 0);
    let itself = [jump_if(0, 0, 0)];
    let spins = run(&table(&[0], &[&itself]), &limited(MAX_OPERATIONS));
    assert_eq!((at_fault(&spins), spins.report.rows), ((12, 0, 0), MAX_OPERATIONS));
    assert_eq!(spins.entries().len() as u64, MAX_OPERATIONS);
}

#[test]
fn equal_orders() {
    // Thread 0 stores k and s, thread 1 stores a. Thread 2 reads a, then k, so k comes after a;
    // thread 0 reads k again, so it comes after s as well. Thread 1, which has seen a but not k,
    // reads s, which so comes after a too. Now k and s have the same order, and the next scan meets
    // them. The yields make the threads take these turns; under bound 0 only loads are explored.
    let (k, s, a) = (1, 2, 3);
    let read = |register| load(0, RELAXED, register);
    let write = |value| store(0, RELAXED, value);
    let first = [
        write(k),
        write(s),
        yield_now(),
        read(0),
        yield_now(),
        read(0),
    ];
    let second = [write(a), yield_now(), read(0)];
    let left = run(
        &table(&[0], &[&first, &second, &[read(0), read(1)]]),
        &bounded(0),
    );
    assert_eq!(at_fault(&left), (13, 0, 5));
    let accesses = left.entries().iter().filter(|entry| entry[2] < 2);
    assert_eq!(
        accesses.map(value).collect::<Vec<_>>(),
        [k, s, a, a, k, k, s]
    );
    // The scan comes before the load's branch is added, and after its version is raised.
    assert_eq!(left.report.threads[0].version, 6);
    assert_eq!(
        left.history.last().unwrap().0.last_chunk::<16>().unwrap()[0],
        1
    );
}

#[test]
fn races_of_every_kind() {
    let by_load = load(0, RELAXED, 0);
    let by_store = store(0, RELAXED, 1);
    let by_rmw = rmw(0, SEQ_CST, 1, 0, 1);
    let plain_load = unsync_load(0, 0);
    let exclusive = with_mut(0, 1, 0, 1);
    for (kind, first, second) in [
        (1, exclusive, by_load),
        (2, exclusive, plain_load),
        (3, by_store, plain_load),
        (4, exclusive, by_store),
        (5, plain_load, by_store),
        (6, by_load, exclusive),
        (7, plain_load, exclusive),
        (8, by_store, exclusive),
        (9, exclusive, exclusive),
        (1, exclusive, by_rmw),
        (3, by_rmw, plain_load),
        (5, plain_load, by_rmw),
        (6, by_rmw, exclusive),
        (10, plain_write(0, 1), plain_read(0, 0)),
        (11, plain_read(0, 0), plain_write(0, 1)),
        (12, plain_write(0, 1), plain_write(0, 1)),
    ] {
        let threads: [&[Row]; 2] = [&[first], &[second]];
        let left = run(&table_with(&[0], &[0], &threads), &settings());
        assert_eq!(at_fault(&left), (14, 1, 0));
        assert_eq!((left.report.kind, left.report.other), (kind, 0));
        assert_eq!((left.report.executions, left.entries().len()), (1, 1));
    }
}

#[test]
fn a_plain_write_looks_at_readers_first() {
    let (read, write) = (plain_read(0, 0), plain_write(0, 1));
    for first in [[read, write], [write, read]] {
        let left = run(&table_with(&[0], &[0], &[&first, &[write]]), &settings());
        assert_eq!((left.report.kind, left.report.other), (11, 0));
    }
    let readers = run(&table_with(&[0], &[0], &[&[read], &[read]]), &settings());
    assert_eq!(readers.report.answer, 0);
}

#[test]
fn the_other_thread_of_a_race_is_the_lowest_ahead() {
    // Thread 1 makes the exclusive access, but it knows of a store of thread 0, unlike thread 2.
    let second = [join(0), with_mut(0, 0, 0, 1)];
    let threads: [&[Row]; 3] = [&[store(1, RELAXED, 1)], &second, &[load(0, RELAXED, 0)]];
    let left = run(&table(&[0, 0], &threads), &settings());
    assert_eq!(at_fault(&left), (14, 2, 0));
    assert_eq!((left.report.kind, left.report.other), (1, 0));
}

#[test]
fn a_check_fails() {
    let left = run(&table(&[0], &[&[check(0, 0), check(3, 1)]]), &settings());
    assert_eq!(at_fault(&left), (15, 0, 1));
    assert_eq!((left.report.rows, left.entries().len()), (2, 1));
}

#[test]
fn wrong_state_for_critical_and_explore_state() {
    let critical = table(&[0], &[&[bare(13), bare(13)]]);
    assert_eq!(at_fault(&run(&critical, &settings())), (16, 0, 1));
    let off = Settings {
        exploring: false,
        ..settings()
    };
    assert_eq!(at_fault(&run(&critical, &off)), (16, 0, 0));
    let explore = table(&[0], &[&[bare(14), bare(14)]]);
    assert_eq!(at_fault(&run(&explore, &settings())), (16, 0, 0));
    assert_eq!(at_fault(&run(&explore, &off)), (16, 0, 1));
}

#[test]
fn more_preemptions_than_a_byte_counts() {
    let side = |number| {
        [
            rmw(0, RELAXED, 0, 0, number),
            jump_unless(0, number, 0),
            bare(15),
        ]
    };
    let left = run(&table(&[0], &[&side(1), &side(2)]), &settings());
    assert_eq!((left.report.answer, left.report.executions), (17, 257));
}

#[test]
fn the_budget() {
    let table = table(&[0], &[&[store(0, RELAXED, 1)], &[load(0, RELAXED, 0)]]);
    for executions in 1..=6 {
        let report = run(
            &table,
            &Settings {
                executions,
                ..settings()
            },
        )
        .report;
        let expected = if executions < 5 {
            (1, executions)
        } else {
            (0, 5)
        };
        assert_eq!((report.answer, report.executions), expected);
        assert_eq!(
            (report.thread, report.row, report.open > 0),
            (255, 255, executions < 5)
        );
    }
}
