//! Answer 18: a final condition that does not hold. What a condition's bytes may be is tested beside
//! their reader.

mod common;
use common::*;
use terms::Settings;

/// A comparison by its sign: 1 is `=`, 2 `!=`.
fn compared(sign: u8, thread: u8, register: u8, number: u64) -> Vec<u8> {
    [&[sign, thread, register][..], &number.to_le_bytes()].concat()
}

/// Both conditions, in a group.
fn both(left: &[u8], right: &[u8]) -> Vec<u8> {
    [&[7][..], left, &[9], right, &[8]].concat()
}

/// P3: the load reads 0, 1, 0, 0, 1.
fn p3() -> Vec<u8> {
    let threads: [&[Row]; 2] = [&[store(0, RELAXED, 1)], &[load(0, RELAXED, 2)]];
    table(&[0], &threads)
}

#[test]
fn a_condition_that_holds_changes_nothing() {
    let settings = settings(64, 64, 100);
    let ran = run(&p3(), &settings);
    assert_eq!(ran.counts(), [0, 5, 4, 0]);
    let held = run_claimed(&p3(), &compared(4, 1, 2, 1), &settings);
    assert_eq!((held.report, held.history), (ran.report, ran.history));
}

/// The run stops at the first execution at whose end it is false, and leaves what it left.
#[test]
fn the_first_end_where_it_is_false() {
    for (condition, stopped) in [
        (compared(2, 1, 2, 0), 1),
        (compared(1, 1, 2, 0), 2),
        (both(&compared(1, 0, 0, 0), &compared(1, 1, 2, 0)), 2),
    ] {
        let ran = run_claimed(&p3(), &condition, &settings(64, 64, 100));
        assert_eq!(ran.fault(), [18, 255, 255]);
        assert_eq!((ran.report.kind, ran.report.other), (0, 255));
        assert_eq!(ran.report.executions, stopped);
        assert!(ran.report.threads[..2]
            .iter()
            .all(|thread| thread.state == 4));
        let without = run(&p3(), &settings(64, 64, stopped));
        assert_eq!(without.report.answer, 1);
        assert_eq!(ran.history, without.history);
        let numbers = |ran: &Ran| {
            let report = &ran.report;
            (report.opened, report.open, report.rows, report.threads)
        };
        assert_eq!(numbers(&ran), numbers(&without));
    }
}

#[test]
fn ahead_of_0_and_1() {
    let settings = settings(64, 64, 100);
    let one = table(&[7], &[&[load(0, RELAXED, 0)]]);
    let ran = run_claimed(&one, &compared(2, 0, 0, 7), &settings);
    assert_eq!(ran.counts(), [18, 1, 0, 0]);
    let last = Settings {
        executions: 2,
        ..settings
    };
    let claim = compared(1, 1, 2, 0);
    assert_eq!(run_claimed(&p3(), &claim, &last).report.answer, 18);
    let first = Settings {
        executions: 1,
        ..settings
    };
    assert_eq!(run_claimed(&p3(), &claim, &first).report.answer, 1);
}

/// A fault is no end of all threads: nothing is judged there.
#[test]
fn a_fault_comes_first() {
    let settings = settings(64, 64, 100);
    let never = compared(2, 0, 0, 0);
    let alone = |row: Row| table(&[0], &[&[row]]);
    for (table, answer) in [(alone(join(0)), 10), (alone(check(0, 1)), 15)] {
        assert_eq!(run_claimed(&table, &never, &settings).report.answer, answer);
    }
    // The end's scheduling is a branch too.
    let short = Settings {
        branches: 2,
        ..settings
    };
    let one = alone(load(0, RELAXED, 0));
    assert_eq!(run_claimed(&one, &never, &short).report.answer, 11);
    let enough = Settings {
        branches: 3,
        ..settings
    };
    assert_eq!(run_claimed(&one, &never, &enough).report.answer, 18);
}

/// Registers are those of the last execution's end; they start at 0 in each.
#[test]
fn registers_start_again() {
    let rows = [spurious(0), jump_if(0, 1, 3), spurious(1)];
    let table = table(&[0], &[&rows]);
    let settings = settings(64, 64, 100);
    // Where register 0 is set, register 1 never was.
    let zero = compared(1, 0, 0, 0);
    let claim = [&[7][..], &zero, &[10], &compared(1, 0, 1, 0), &[8]].concat();
    assert_eq!(
        run_claimed(&table, &claim, &settings).counts(),
        [0, 3, 2, 0]
    );
    assert_eq!(
        run_claimed(&table, &zero, &settings).counts(),
        [18, 3, 2, 0]
    );
}
