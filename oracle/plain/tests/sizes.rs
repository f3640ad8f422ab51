//! The smallest and the largest programs.

mod common;
use common::*;
use terms::Settings;

#[test]
fn threads_without_rows() {
    let one = run(&table(&[0], &[&[]]), &settings());
    assert_eq!(
        (one.report.answer, one.report.executions, one.report.rows),
        (0, 1, 0)
    );
    assert_eq!(
        one.history[0].0,
        [1, 1, 0, 0, 0, 0, 0, 0, 255, 255, 255, 0, 0, 0, 0, 0]
    );
    assert!(one.entries().is_empty());
    let five = run(
        &table(&[0, 1, 2, 3], &[&[], &[], &[], &[], &[]]),
        &settings(),
    );
    assert_eq!((five.report.answer, five.report.executions), (0, 1));
    assert_eq!(five.report.threads.map(|thread| thread.state), [4; 5]);
    assert_eq!(
        five.report.threads.map(|thread| thread.version),
        [2, 1, 1, 1, 1]
    );
    assert_eq!(five.history[0].0.len(), 5 * 16);
}

#[test]
fn a_thread_of_all_its_rows() {
    let mut rows = [check(0, 0); MAX_ROWS];
    rows[MAX_ROWS - 1] = jump(MAX_ROWS as u16);
    let left = run(&table(&[0], &[&rows]), &settings());
    assert_eq!((left.report.answer, left.report.rows), (0, MAX_ROWS as u64));
    let rows: Vec<u8> = left.entries().iter().map(|entry| entry[1]).collect();
    assert_eq!(rows, (0..MAX_ROWS as u8).collect::<Vec<u8>>());
}

#[test]
fn five_threads_of_all_their_rows() {
    let rows = [rmw(3, ACQ_REL, 1, 1, 1); MAX_ROWS];
    let adders = table(&[0, 0, 0, 0], &[&rows[..]; 5]);
    let left = run(
        &adders,
        &Settings {
            executions: 100,
            ..settings()
        },
    );
    assert_eq!(
        (left.report.answer, left.report.executions, left.report.rows),
        (1, 100, 5 * MAX_ROWS as u64)
    );
    assert_eq!(left.entries().iter().map(value).max(), Some(5 * MAX_ROWS as u64 - 1));
    let local = [check(0, 0); MAX_ROWS];
    let whole = run(&table(&[0], &[&local[..]; 5]), &settings());
    assert_eq!(
        (
            whole.report.answer,
            whole.report.executions,
            whole.report.rows
        ),
        (0, 1, 5 * MAX_ROWS as u64)
    );
}

#[test]
fn the_longest_path_and_trace() {
    // A load takes two records, so half as many of them fill the path; one more is to be scheduled.
    let loads = table(&[0], &[&[load(0, RELAXED, 0), load(0, RELAXED, 0), jump(0)]]);
    let left = run(&loads, &settings());
    assert_eq!(
        (left.report.answer, left.report.thread, left.report.row),
        (11, 0, 0)
    );
    assert_eq!(
        (left.report.rows, left.history[0].0.len() as u64),
        (3 * (MAX_BRANCHES / 4) + 1, 16 * MAX_BRANCHES)
    );
    let checks = table(&[0], &[&[check(0, 0), jump(0)]]);
    let left = run(&checks, &settings());
    assert_eq!(
        (left.report.answer, left.report.row, left.report.rows),
        (12, 0, MAX_OPERATIONS)
    );
    assert_eq!(left.history[0].1.len() as u64, 16 * MAX_OPERATIONS);
}
