//! Answers 2 to 5: their order, their report, and that nothing is touched.

mod common;
use common::*;
use oracle::limits::{MAX_BRANCHES, MAX_EXECUTIONS, MAX_OPERATIONS, MAX_ROWS};
use terms::{Report, Settings, Summary};

const MARK: Summary = Summary {
    state: 9,
    rows: 8,
    yields: 7,
    version: 6,
};

/// Runs with buffers of these lengths and sees that all of them stay as they are.
fn refused(table: &[u8], settings: &Settings, lengths: (usize, usize, Option<usize>)) -> Report {
    refused_claimed(table, &[], settings, lengths)
}

/// The same with a final condition.
fn refused_claimed(
    table: &[u8],
    condition: &[u8],
    settings: &Settings,
    lengths: (usize, usize, Option<usize>),
) -> Report {
    let mut path = vec![PATTERN; lengths.0];
    let mut trace = vec![PATTERN; lengths.1];
    let mut list = lengths.2.map(|length| vec![MARK; length]);
    let mut told = |_: &[u8], _: &[u8]| panic!("no execution is begun");
    let report = oracle::explore(
        table,
        condition,
        settings,
        &mut path,
        &mut trace,
        list.as_deref_mut(),
        &mut told,
    );
    assert!((2..=5).contains(&report.answer), "{report:?}");
    assert!(path.iter().chain(&trace).all(|&byte| byte == PATTERN));
    assert!(list.is_none_or(|list| list.iter().all(|record| *record == MARK)));
    report
}

fn good() -> Vec<u8> {
    table(&[7], &[&[load(0, RELAXED, 0)]])
}

/// Buffers as the settings ask for.
fn fitting(settings: &Settings) -> (usize, usize, Option<usize>) {
    let path = 16 * settings.branches as usize;
    (path, 16 * settings.operations as usize, Some(5))
}

#[test]
fn settings_out_of_range() {
    let refusal = Report::refusal(2, 255, 255);
    let wrong = [
        settings(0, 1, 1),
        settings(MAX_BRANCHES + 1, 1, 1),
        settings(1, 0, 1),
        settings(1, MAX_OPERATIONS + 1, 1),
        settings(1, 1, 0),
        settings(1, 1, MAX_EXECUTIONS + 1),
    ];
    for settings in wrong {
        let report = refused(&good(), &settings, fitting(&settings));
        assert_eq!(report, refusal, "{settings:?}");
        // Every later check would fail as well.
        assert_eq!(refused(&[], &settings, (3, 3, Some(3))), refusal);
    }
    for huge in [1 << 60, 1 << 63, u64::MAX] {
        for settings in [
            settings(huge, 1, 1),
            settings(1, huge, 1),
            settings(1, 1, huge),
        ] {
            assert_eq!(refused(&good(), &settings, (16, 16, Some(5))), refusal);
        }
    }
}

#[test]
fn buffer_lengths() {
    let settings = settings(3, 2, 1);
    let answer = |lengths| refused(&good(), &settings, lengths);
    for path in [0, 47, 49, 64] {
        assert_eq!(
            answer((path, 32, Some(5))),
            Report::refusal(3, 255, 255),
            "{path}"
        );
    }
    // 3 comes before 4.
    assert_eq!(answer((47, 31, Some(4))).answer, 3);
    for trace in [0, 31, 33, 48] {
        assert_eq!(
            answer((48, trace, Some(5))),
            Report::refusal(4, 255, 255),
            "{trace}"
        );
        assert_eq!(answer((48, trace, None)).answer, 4);
    }
    for list in [0, 4, 6] {
        assert_eq!(
            answer((48, 32, Some(list))),
            Report::refusal(4, 255, 255),
            "{list}"
        );
    }
    // 4 comes before 5.
    assert_eq!(refused(&[], &settings, (48, 31, Some(5))).answer, 4);
    assert_eq!(refused(&[], &settings, (48, 32, Some(6))).answer, 4);
}

/// Without a list there is none to judge; what the run leaves is the same.
#[test]
fn no_list_given() {
    let settings = settings(3, 1, 1);
    let (mut path, mut trace) = ([1; 48], [1; 16]);
    let (report, digest) =
        oracle::explore_digest(&good(), &[], &settings, &mut path, &mut trace, None);
    let ran = run(&good(), &settings);
    assert_eq!(report, ran.report);
    assert_eq!(path, ran.last_path());
    let mut expected = terms::Digest::default();
    expected.execution(&path, &trace);
    assert_eq!(digest, expected.value());
}

fn judged(table: &[u8]) -> Report {
    let settings = settings(16, 16, 1);
    refused(table, &settings, fitting(&settings))
}

/// Refused for its header or length.
fn bad_header(table: &[u8]) {
    assert_eq!(judged(table), Report::refusal(5, 255, 255), "{table:?}");
}

#[test]
fn header_and_length() {
    let good = table(&[7, 8], &[&[load(0, RELAXED, 0)], &[yields()]]);
    for length in 0..good.len() {
        bad_header(&good[..length]);
    }
    bad_header(&[good.clone(), vec![0]].concat());
    bad_header(&[good.clone(), vec![0; 24]].concat());
    // Byte 4 is the count of thread 2, which is absent.
    let edits = [(0, 0), (0, 6), (0, 255), (1, 0), (1, 5), (4, 1), (6, 1)];
    let many = MAX_ROWS as u8 + 1;
    for (at, value) in edits
        .into_iter()
        .chain([(7, 1), (7, 4), (7, 5), (7, 255), (2, many)])
    {
        let mut bad = good.clone();
        bad[at] = value;
        bad_header(&bad);
    }
    // A row too many, with the bytes for it.
    bad_header(&table(&[0], &[&[yields(); MAX_ROWS + 1]]));
    // A plain cell too many, with the bytes for it.
    bad_header(&table_with(&[0], &[0; 5], &[&[yields()]]));
    // An absent thread with rows, with the bytes for them.
    let mut absent = table(&[0], &[&[yields()], &[yields()]]);
    absent[0] = 1;
    bad_header(&absent);
    // A header is judged before any row.
    let mut both = table(
        &[0],
        &[&[Row {
            opcode: 19,
            ..yields()
        }]],
    );
    assert_eq!(judged(&both), Report::refusal(5, 0, 0));
    both[7] = 1;
    bad_header(&both);
}

#[test]
fn the_first_bad_row_is_named() {
    let bad = Row {
        opcode: 255,
        ..yields()
    };
    let ok = yields();
    let rows: [&[Row]; 4] = [&[ok, ok], &[], &[ok, ok, bad, bad], &[bad]];
    assert_eq!(judged(&table(&[0], &rows)), Report::refusal(5, 2, 2));
    let late: [&[Row]; 2] = [&[ok; MAX_ROWS], &[bad]];
    assert_eq!(judged(&table(&[0], &late)), Report::refusal(5, 1, 0));
}

/// A table of two threads, two cells and three plain cells; the row stands second of three in thread 1.
fn accepted(row: Row) -> bool {
    accepted_with(3, row)
}

/// The same with so many plain cells.
fn accepted_with(plains: usize, row: Row) -> bool {
    let rows = [check(0, 0), row, check(0, 0)];
    let table = table_with(&[0, 0], &vec![0; plains], &[&[], &rows]);
    let settings = settings(64, 64, 1);
    let mut path = vec![0; 16 * 64];
    let mut trace = path.clone();
    let report = oracle::explore(
        &table,
        &[],
        &settings,
        &mut path,
        &mut trace,
        None,
        &mut |_, _| {},
    );
    if report.answer == 5 {
        assert_eq!(report, Report::refusal(5, 1, 1));
    } else {
        assert_eq!(report.executions + report.open, 1 + report.opened);
    }
    report.answer != 5
}

/// A row of each opcode, with zero in every field that may be zero.
fn plain(opcode: u8) -> Row {
    Row {
        opcode,
        order: u8::from(opcode == 4),
        ..Row::default()
    }
}

#[test]
fn opcodes() {
    for opcode in 0..=255 {
        assert_eq!(accepted(plain(opcode)), opcode <= 18, "{opcode}");
    }
}

#[test]
fn orders() {
    let allowed: [&[u8]; 5] = [
        &[0, 2, 4],
        &[0, 1, 4],
        &[0, 1, 4],
        &[0, 1, 2, 3, 4],
        &[1, 2, 3, 4],
    ];
    for opcode in 0..=18 {
        for order in 0..=255 {
            let row = Row {
                order,
                ..plain(opcode)
            };
            let unused: &[u8] = &[0];
            let list = allowed.get(usize::from(opcode)).unwrap_or(&unused);
            assert_eq!(accepted(row), list.contains(&order), "{row:?}");
        }
    }
}

#[test]
fn failure_orders() {
    for (opcode, change) in [(3, 10), (3, 11), (3, 12), (6, 11), (6, 12), (0, 0)] {
        for failure in 0..=255 {
            let row = Row {
                failure,
                change,
                ..plain(opcode)
            };
            let used = opcode == 3 && change >= 11;
            let fits = failure == 0 || used && (failure == 2 || failure == 4);
            assert_eq!(accepted(row), fits, "{row:?}");
        }
    }
    // Not compared with the success order.
    assert!(accepted(compare(0, (RELAXED, SEQCST), 0, 1, 2)));
}

#[test]
fn changes_and_registers() {
    for opcode in 0..=18 {
        for value in 0..=255 {
            let change = Row {
                change: value,
                ..plain(opcode)
            };
            let changes = if matches!(opcode, 3 | 6) { 12 } else { 0 };
            assert_eq!(accepted(change), value <= changes, "{change:?}");
            let register = Row {
                register: value,
                ..plain(opcode)
            };
            let used = [0, 2, 3, 5, 6, 10, 11, 12, 16, 17].contains(&opcode);
            let registers = if used { 3 } else { 0 };
            assert_eq!(accepted(register), value <= registers, "{register:?}");
        }
    }
}

#[test]
fn places_and_targets() {
    for opcode in 0..=18 {
        for value in 0..=255 {
            let place = Row {
                place: value,
                ..plain(opcode)
            };
            // Two cells, two threads, three plain cells; a join may name its own thread.
            let last = match opcode {
                0..=3 | 5 | 6 | 8 => 1,
                17 | 18 => 2,
                _ => 0,
            };
            assert_eq!(accepted(place), value <= last, "{place:?}");
        }
        for target in [0, 1, 2, 3, 4, 255, 256, 257, 65535] {
            let row = Row {
                target,
                ..plain(opcode)
            };
            let targets = if matches!(opcode, 9..=11) { 3 } else { 0 };
            let itself = opcode == 9 && target == 1;
            assert_eq!(accepted(row), target <= targets && !itself, "{row:?}");
        }
    }
}

/// Five threads of three rows; this one of this thread is as given.
fn five(thread: usize, number: usize, row: Row) -> Vec<u8> {
    let mut rows = vec![vec![check(0, 0); 3]; 5];
    rows[thread][number] = row;
    let rows: Vec<&[Row]> = rows.iter().map(Vec::as_slice).collect();
    table(&[0], &rows)
}

/// The row's own number is that within its thread. With a condition it may jump there.
#[test]
fn a_jump_to_itself() {
    for (thread, number, target) in (0..60).map(|n| (n / 12, n / 4 % 3, n % 4)) {
        let at = |row: Row| five(thread, number, row);
        let runs = |row: Row| run(&at(row), &settings(64, 64, 1)).report.answer;
        let to = target as u16;
        if target == number {
            let refusal = Report::refusal(5, thread as u64, number as u64);
            assert_eq!(judged(&at(jump(to))), refusal);
        } else {
            assert_eq!(runs(jump(to)), if target < number { 12 } else { 0 });
        }
        let taken = if target <= number { 12 } else { 0 };
        assert_eq!(runs(jump_if(0, 0, to)), taken);
        assert_eq!(runs(jump_if(0, 1, to)), 0);
        assert_eq!(runs(jump_unless(0, 1, to)), taken);
        assert_eq!(runs(jump_unless(0, 0, to)), 0);
    }
    let mut last = [yields(); MAX_ROWS];
    last[MAX_ROWS - 1] = jump(MAX_ROWS as u16 - 1);
    let refusal = Report::refusal(5, 0, MAX_ROWS as u64 - 1);
    assert_eq!(judged(&table(&[0], &[&last])), refusal);
}

/// It is one bad row among others: the first in the order of the bytes is named.
#[test]
fn a_jump_to_itself_among_other_bad_rows() {
    let bad = check(4, 0);
    let rows: [&[Row]; 2] = [&[yields(), jump(1), bad], &[jump(0)]];
    assert_eq!(judged(&table(&[0], &rows)), Report::refusal(5, 0, 1));
    let rows: [&[Row]; 2] = [&[yields(), bad, jump(2)], &[jump(0)]];
    assert_eq!(judged(&table(&[0], &rows)), Report::refusal(5, 0, 1));
    let rows: [&[Row]; 2] = [&[jump(1), jump(0)], &[jump(0), bad]];
    assert_eq!(judged(&table(&[0], &rows)), Report::refusal(5, 1, 0));
    let mut short = table(&[0], &rows);
    short.pop();
    bad_header(&short);
}

#[test]
fn operands() {
    for opcode in 0..=18 {
        for change in 0..=12 {
            let changes = matches!(opcode, 3 | 6);
            if change > 0 && !changes {
                continue;
            }
            for operand in [1, 1 << 63] {
                let base = Row {
                    change,
                    ..plain(opcode)
                };
                let a = Row { a: operand, ..base };
                let uses_a = [1, 10, 11, 12, 18].contains(&opcode) || changes && change <= 11;
                assert_eq!(accepted(a), uses_a, "{a:?}");
                let b = Row { b: operand, ..base };
                assert_eq!(accepted(b), changes && change == 11, "{b:?}");
            }
        }
    }
}

/// A plain cell is there only if the header counts it, however many atomic ones there are.
#[test]
fn plain_cells_that_there_are() {
    for plains in 0..=4 {
        for place in 0..=255 {
            let there = usize::from(place) < plains;
            assert_eq!(accepted_with(plains, plain_read(place, 0)), there);
            assert_eq!(accepted_with(plains, plain_write(place, 1)), there);
        }
    }
}

/// Thread 0 of `good` has register 0; a condition about it is accepted, one about thread 1 is not.
#[test]
fn a_condition_is_judged_last() {
    let about = |thread: u8| [1, thread, 0, 7, 0, 0, 0, 0, 0, 0, 0];
    let (good, settings) = (good(), settings(8, 8, 1));
    let ran = run_claimed(&good, &about(0), &settings);
    assert_eq!(ran.counts(), [0, 1, 0, 0]);
    let judged = |table: &[u8], settings: &Settings, lengths| {
        refused_claimed(table, &about(1), settings, lengths)
    };
    let fits = fitting(&settings);
    let wrong = Report::refusal(5, 255, 255);
    assert_eq!(judged(&good, &settings, fits), wrong);
    assert_eq!(judged(&good[1..], &settings, fits), wrong);
    let bad_row = table(&[7], &[&[yields(), load(1, RELAXED, 0)]]);
    let refusal = Report::refusal(5, 0, 1);
    assert_eq!(judged(&bad_row, &settings, fits), refusal);
    for (lengths, answer) in [
        ((16, 128, None), 3),
        ((128, 16, None), 4),
        ((128, 128, Some(4)), 4),
    ] {
        let refusal = Report::refusal(answer, 255, 255);
        assert_eq!(judged(&good, &settings, lengths), refusal);
    }
    let none = Settings {
        executions: 0,
        ..settings
    };
    assert_eq!(judged(&good, &none, fits), Report::refusal(2, 255, 255));
}
