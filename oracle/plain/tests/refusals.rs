//! What is refused before anything runs. `run_in` tests that nothing was written.

mod common;
use common::*;
use terms::{Report, Settings};

fn good() -> Vec<u8> {
    table(&[0], &[&[load(0, RELAXED, 0)]])
}

fn refused(table: &[u8], thread: u64, row: u64) {
    assert_eq!(
        run(table, &settings()).report,
        Report::refusal(5, thread, row)
    );
}

/// Settings with these limits.
fn limits(branches: u64, operations: u64, executions: u64) -> Settings {
    Settings {
        branches,
        operations,
        executions,
        ..settings()
    }
}

#[test]
fn settings_out_of_range() {
    for (branches, operations, executions) in [
        (0, 1, 1),
        (MAX_BRANCHES + 1, 1, 1),
        (u64::MAX, 1, 1),
        (1, 0, 1),
        (1, MAX_OPERATIONS + 1, 1),
        (1, u64::MAX, 1),
        (1, 1, 0),
        (1, 1, MAX_EXECUTIONS + 1),
        (1, 1, u64::MAX),
    ] {
        let report = run(&good(), &limits(branches, operations, executions)).report;
        assert_eq!(report, Report::refusal(2, 255, 255));
    }
}

#[test]
fn limits_themselves_are_accepted() {
    for branches in [3, MAX_BRANCHES] {
        for operations in [1, MAX_OPERATIONS] {
            for executions in [1, MAX_EXECUTIONS] {
                for bound in [None, Some(0), Some(255)] {
                    let settings = Settings {
                        branches,
                        operations,
                        executions,
                        bound,
                        exploring: true,
                    };
                    assert_eq!(run(&good(), &settings).report.answer, 0);
                }
            }
        }
    }
}

#[test]
fn lengths_and_the_order_of_checks() {
    let s = Settings {
        branches: 4,
        operations: 2,
        ..settings()
    };
    let zero = Settings { executions: 0, ..s };
    let answer =
        |table: &[u8], s, path, trace, list| run_in(table, s, path, trace, list).report.answer;
    assert_eq!(answer(&good(), &s, 64, 32, 5), 0);
    for path in [0, 63, 65, 80] {
        assert_eq!(answer(&good(), &s, path, 32, 5), 3);
    }
    for trace in [0, 31, 33, 48] {
        assert_eq!(answer(&good(), &s, 64, trace, 5), 4);
    }
    for list in [0, 4, 6] {
        assert_eq!(answer(&good(), &s, 64, 32, list), 4);
    }
    assert_eq!(answer(&[], &zero, 0, 0, 0), 2);
    assert_eq!(answer(&[], &s, 0, 0, 0), 3);
    assert_eq!(answer(&[], &s, 64, 0, 0), 4);
    assert_eq!(answer(&[], &s, 64, 32, 0), 4);
    assert_eq!(answer(&[], &s, 64, 32, 5), 5);
}

#[test]
fn header_and_length() {
    let good = good();
    for len in 0..good.len() {
        refused(&good[..len], 255, 255);
    }
    refused(&[&good[..], &[0]].concat(), 255, 255);
    for (at, byte) in [
        (0, 0),
        (0, 6),
        (1, 0),
        (1, 5),
        (2, MAX_ROWS as u8 + 1),
        (2, 0),
        (2, 2),
        (3, 1),
        (6, 1),
        (7, 1),
        (7, 5),
        (7, 255),
    ] {
        let mut bad = good.clone();
        bad[at] = byte;
        refused(&bad, 255, 255);
    }
    // The layout is judged before the rows.
    let mut both = good.clone();
    both[16] = 19;
    refused(&both, 0, 0);
    both.push(0);
    refused(&both, 255, 255);
}

#[test]
fn the_first_bad_row_is_named() {
    let bad = bare(19);
    let row = yield_now();
    refused(&table(&[0], &[&[row, row, bad, bad]]), 0, 2);
    refused(&table(&[0], &[&[], &[row], &[row, bad], &[bad]]), 2, 1);
    let full = [row; MAX_ROWS];
    let mut last = full;
    last[MAX_ROWS - 1] = bad;
    refused(&table(&[0], &[&full, &full, &full, &full, &last]), 4, MAX_ROWS as u64 - 1);
}

#[test]
fn opcodes_past_the_last() {
    for opcode in 19..=255 {
        refused(&table_with(&[0], &[0], &[&[bare(opcode)]]), 0, 0);
    }
}

#[test]
fn plain_cells_that_are_not_there() {
    refused(&table_with(&[0], &[0; 5], &[&[]]), 255, 255);
    for plains in 0..=4 {
        for place in 0..=255 {
            for row in [plain_read(place, 3), plain_write(place, 1)] {
                let one = table_with(&[0], &[0, 0, 0, 0][..plains], &[&[yield_now(), row]]);
                match usize::from(place) < plains {
                    true => assert_eq!(run(&one, &settings()).report.answer, 0),
                    false => refused(&one, 0, 1),
                }
            }
        }
    }
}

/// A good row for every opcode, for each change kind where there is one.
fn good_rows() -> Vec<Fields> {
    let mut rows: Vec<Fields> = (0..=18)
        .map(|opcode| Fields {
            opcode,
            ..Fields::default()
        })
        .collect();
    rows[4].order = ACQUIRE;
    for change in 1..=12 {
        rows.push(Fields {
            opcode: 3,
            change,
            ..Fields::default()
        });
        rows.push(Fields {
            opcode: 6,
            change,
            ..Fields::default()
        });
    }
    rows
}

/// Which fields a row uses: place, order, failure, change, register, target, a, b.
fn used(row: &Fields) -> [bool; 8] {
    let (a, b) = (row.change != 12, row.change == 11);
    let fails = row.change > 10;
    match row.opcode {
        0 => [true, true, false, false, true, false, false, false],
        1 => [true, true, false, false, false, false, true, false],
        2 => [true, true, false, false, true, false, false, false],
        3 => [true, true, fails, true, true, false, a, b],
        4 => [false, true, false, false, false, false, false, false],
        5 => [true, false, false, false, true, false, false, false],
        6 => [true, false, false, true, true, false, a, b],
        8 => [true, false, false, false, false, false, false, false],
        9 => [false, false, false, false, false, true, false, false],
        10 | 11 => [false, false, false, false, true, true, true, false],
        12 => [false, false, false, false, true, false, true, false],
        16 => [false, false, false, false, true, false, false, false],
        17 => [true, false, false, false, true, false, false, false],
        18 => [true, false, false, false, false, false, true, false],
        _ => [false; 8],
    }
}

#[test]
fn unused_fields_are_zero() {
    for row in good_rows() {
        assert!(is_accepted(row));
        let touched = [
            Fields { place: 1, ..row },
            Fields {
                order: SEQ_CST,
                ..row
            },
            Fields {
                failure: ACQUIRE,
                ..row
            },
            Fields {
                change: if row.change == 0 { 1 } else { row.change },
                ..row
            },
            Fields { register: 3, ..row },
            Fields { target: 2, ..row },
            Fields { a: 1 << 63, ..row },
            Fields { b: 1, ..row },
        ];
        for (touched, used) in touched.into_iter().zip(used(&row)) {
            assert_eq!(is_accepted(touched), used || touched.row() == row.row());
        }
    }
}

#[test]
fn used_fields_stay_in_range() {
    for row in good_rows() {
        let [place, order, _, change, register, target, _, _] = used(&row);
        let one = |fields: Fields| refused(&table_with(&[0], &[0], &[&[fields.row()]]), 0, 0);
        if place {
            one(Fields { place: 1, ..row });
        }
        if order {
            one(Fields { order: 5, ..row });
        }
        if change {
            one(Fields { change: 13, ..row });
        }
        if register {
            one(Fields { register: 4, ..row });
        }
        if target {
            one(Fields { target: 2, ..row });
            one(Fields { target: 256, ..row });
            one(Fields { target: 257, ..row });
        }
    }
}

/// As the second row of two: a jump to row 0 or to the end goes elsewhere.
fn is_accepted(row: Fields) -> bool {
    let table = table_with(&[0, 0], &[0, 0], &[&[bare(15), row.row()], &[]]);
    run(&table, &settings()).report.answer != 5
}

#[test]
fn a_jump_to_itself() {
    let ok = yield_now();
    refused(&table(&[0], &[&[jump(0)]]), 0, 0);
    refused(&table(&[0], &[&[ok, ok, jump(2), jump(3)]]), 0, 2);
    refused(&table(&[0], &[&[ok, ok, bare(19), jump(3)]]), 0, 2);
    let ring: [&[Row]; 2] = [&[ok, ok, ok], &[jump(1), jump(0), jump(2)]];
    refused(&table(&[0], &ring), 1, 2);
    let last = MAX_ROWS - 1;
    let mut full = [ok; MAX_ROWS];
    full[last] = jump(last as u16);
    refused(&table(&[0], &[&[], &[], &full]), 2, last as u64);
    // Its own number in the table is another row's number in the thread.
    let other = table(&[0], &[&[ok, ok], &[jump(2), ok, ok]]);
    assert_eq!(run(&other, &settings()).report.answer, 0);
    // With a condition it is legal, and goes on until no more rows may begin if that holds.
    for (row, answer) in [
        (jump_if(0, 0, 1), 12),
        (jump_if(0, 1, 1), 0),
        (jump_unless(0, 1, 1), 12),
        (jump_unless(0, 0, 1), 0),
    ] {
        let left = run(&table(&[0], &[&[], &[ok, row]]), &settings());
        assert_eq!(left.report.answer, answer);
    }
}

#[test]
fn orders_of_each_opcode() {
    for (opcode, allowed) in [
        (0, [true, false, true, false, true]),
        (1, [true, true, false, false, true]),
        (2, [true, true, false, false, true]),
        (3, [true; 5]),
        (4, [false, true, true, true, true]),
    ] {
        for (order, allowed) in (0..).zip(allowed) {
            let row = Fields {
                opcode,
                order,
                ..Fields::default()
            };
            assert_eq!(is_accepted(row), allowed);
        }
    }
}

#[test]
fn failure_orders() {
    for change in [11, 12] {
        for order in 0..=4 {
            for failure in 0..=5 {
                let row = Fields {
                    opcode: 3,
                    order,
                    change,
                    failure,
                    ..Fields::default()
                };
                assert_eq!(is_accepted(row), [0, 2, 4].contains(&failure));
            }
        }
    }
}
