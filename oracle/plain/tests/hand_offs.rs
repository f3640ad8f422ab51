//! The small programs of which the outcome is known.

mod common;
use common::*;
use terms::Settings;

fn one_load() -> Vec<u8> {
    table(&[7], &[&[load(0, RELAXED, 0)]])
}

fn store_and_load() -> Vec<u8> {
    table(&[0], &[&[store(0, RELAXED, 1)], &[load(0, RELAXED, 0)]])
}

#[test]
fn p1_every_byte_of_one_load() {
    let left = run(
        &one_load(),
        &Settings {
            branches: 3,
            operations: 1,
            ..settings()
        },
    );
    assert_eq!(left.report.answer, 0);
    assert_eq!(left.report.executions, 1);
    let trace = [0, 0, 0, 0, 1, 0, 0, 0, 7, 0, 0, 0, 0, 0, 0, 0];
    let path = [
        [1, 1, 4, 0, 0, 0, 0, 0, 0, 255, 255, 0, 0, 0, 0, 0],
        [2, 1, 0, 0, 0, 0, 0, 0, 0, 0, 1, 0, 0, 0, 0, 0],
        [1, 1, 0, 0, 0, 0, 0, 0, 255, 0, 0, 0, 0, 0, 0, 0],
    ];
    assert_eq!(left.trace, trace);
    assert_eq!(left.path, path.as_flattened());
}

#[test]
fn p2_one_record_too_few() {
    let left = run(
        &one_load(),
        &Settings {
            branches: 2,
            operations: 1,
            ..settings()
        },
    );
    let report = left.report;
    assert_eq!((report.answer, report.thread, report.row), (11, 0, 1));
    assert_eq!(report.threads[0].state, 4);
}

#[test]
fn p3_store_and_load() {
    let left = run(&store_and_load(), &settings());
    let report = left.report;
    assert_eq!(
        (report.answer, report.executions, report.opened, report.open),
        (0, 5, 4, 0)
    );
    assert_eq!(left.values(0), [0, 1, 0, 0, 1]);
}

#[test]
fn p4_and_p5_with_a_bound() {
    let zero = run(&store_and_load(), &bounded(0)).report;
    assert_eq!((zero.answer, zero.executions), (0, 2));
    let one = run(&store_and_load(), &bounded(1)).report;
    assert_eq!((one.answer, one.executions), (0, 3));
}

#[test]
fn p6_a_thread_joins_itself() {
    let report = run(&table(&[0], &[&[join(0)]]), &settings()).report;
    assert_eq!((report.answer, report.thread, report.row), (10, 255, 255));
    assert_eq!((report.threads[0].state, report.rows), (2, 1));
}

#[test]
fn p7_exclusive_against_load() {
    let table = table(&[0], &[&[with_mut(0, 0, 0, 1)], &[load(0, RELAXED, 0)]]);
    let report = run(&table, &settings()).report;
    assert_eq!((report.answer, report.kind, report.other), (14, 1, 0));
    assert_eq!((report.thread, report.row), (1, 0));
}

#[test]
fn p9_and_p10_signed_max() {
    for (start, a, left) in [(u64::MAX, 0, 0), (1 << 63, (1 << 63) - 1, (1 << 63) - 1)] {
        let rows = [
            rmw(0, RELAXED, 9, 0, a),
            load(0, RELAXED, 1),
            check(0, start),
            check(1, left),
        ];
        assert_eq!(
            run(&table(&[start], &[&rows]), &settings()).report.answer,
            0
        );
        let rows = [
            with_mut(0, 9, 0, a),
            unsync_load(0, 1),
            check(0, start),
            check(1, left),
        ];
        let exclusive = run(&table(&[start], &[&rows]), &settings());
        assert_eq!(
            (exclusive.report.answer, exclusive.values(6)),
            (0, vec![left])
        );
    }
}

#[test]
fn p11_decrement_at_zero_fails() {
    let rows = [
        rmw(0, RELAXED, 12, 2, 0),
        load(0, RELAXED, 1),
        check(2, 0),
        check(1, 0),
    ];
    let left = run(&table(&[0], &[&rows]), &settings());
    assert_eq!(left.report.answer, 0);
    assert_eq!(left.values(3), [0]);
    // A success would have made a second store.
    assert_eq!(left.entries()[1][3..5], [0, 1]);
}

#[test]
fn counts_past_the_history() {
    for stores in [6, 7, 8, 16] {
        let mut rows: Vec<Row> = (1..=stores).map(|a| store(0, RELAXED, a)).collect();
        rows.extend([load(0, RELAXED, 0), check(0, stores)]);
        let left = run(&table(&[0], &[&rows]), &settings());
        assert_eq!((left.report.answer, left.report.executions), (0, 1));
        let slots: Vec<u8> = left.entries()[..stores as usize]
            .iter()
            .map(|entry| entry[3])
            .collect();
        assert_eq!(
            slots,
            (1..=stores as u8).map(|cnt| cnt % 7).collect::<Vec<_>>()
        );
    }
}

#[test]
fn messages_pass_only_with_release_and_acquire() {
    for (release, acquire, answer) in [
        (RELEASE, ACQUIRE, 0),
        (RELAXED, ACQUIRE, 15),
        (RELEASE, RELAXED, 15),
    ] {
        let writer = [store(0, RELAXED, 1), store(1, release, 1)];
        let reader = [
            load(1, acquire, 0),
            jump_unless(0, 1, 4),
            load(0, RELAXED, 1),
            check(1, 1),
        ];
        let report = run(&table(&[0, 0], &[&writer, &reader]), &settings()).report;
        assert_eq!(report.answer, answer);
    }
}

#[test]
fn fences_pass_messages_too() {
    for (release, acquire, answer) in [
        (RELEASE, ACQUIRE, 0),
        (ACQUIRE, ACQUIRE, 15),
        (RELEASE, RELEASE, 15),
        (SEQ_CST, ACQ_REL, 0),
    ] {
        let writer = [store(0, RELAXED, 1), fence(release), store(1, RELAXED, 1)];
        let reader = [
            load(1, RELAXED, 0),
            jump_unless(0, 1, 5),
            fence(acquire),
            load(0, RELAXED, 1),
            check(1, 1),
        ];
        let report = run(&table(&[0, 0], &[&writer, &reader]), &settings()).report;
        assert_eq!(report.answer, answer);
    }
}

#[test]
fn store_buffers_empty_at_sequentially_consistent_fences() {
    for (order, both_zero) in [(SEQ_CST, false), (ACQ_REL, true)] {
        let side = |mine, other| {
            [
                store(mine, RELAXED, 1),
                fence(order),
                load(other, RELAXED, 0),
            ]
        };
        let left = run(&table(&[0, 0], &[&side(0, 1), &side(1, 0)]), &settings());
        assert_eq!(left.report.answer, 0);
        let zeros = left.values(0).as_chunks::<2>().0.contains(&[0, 0]);
        assert_eq!(zeros, both_zero);
    }
}

#[test]
fn a_spinning_thread_yields_until_the_other_has_stored() {
    let waiter = [
        load(0, ACQUIRE, 0),
        jump_if(0, 1, 4),
        yield_now(),
        jump(0),
        unsync_load(1, 1),
        check(1, 9),
    ];
    let setter = [with_mut(1, 0, 0, 9), store(0, RELEASE, 1)];
    let report = run(&table(&[0, 0], &[&waiter, &setter]), &settings()).report;
    assert_eq!(report.answer, 0);
}

#[test]
fn a_joined_thread_has_handed_over_what_it_did() {
    let table = table(
        &[0],
        &[
            &[join(1), unsync_load(0, 0), check(0, 5)],
            &[store(0, RELAXED, 5)],
        ],
    );
    let report = run(&table, &settings()).report;
    assert_eq!((report.answer, report.executions), (0, 1));
    assert_eq!(
        (report.threads[0].version, report.threads[1].version),
        (3, 2)
    );
}

#[test]
fn exploring_only_where_wanted() {
    let on_later = [bare(14), spurious(0), bare(13), spurious(1)];
    let off = Settings {
        exploring: false,
        ..settings()
    };
    let left = run(&table(&[0], &[&on_later]), &off);
    assert_eq!(
        (
            left.report.answer,
            left.report.executions,
            left.report.opened
        ),
        (0, 2, 1)
    );
    assert_eq!(left.values(16), [0, 0, 1, 0]);
    let skipped = [
        spurious(0),
        bare(15),
        bare(15),
        bare(13),
        bare(14),
        spurious(1),
    ];
    let report = run(&table(&[0], &[&skipped]), &settings()).report;
    assert_eq!((report.answer, report.executions), (0, 2));
    let whole = run(&table(&[0], &[&[spurious(0), spurious(1)]]), &settings());
    assert_eq!(
        (whole.report.executions, whole.values(16)),
        (4, vec![0, 0, 0, 1, 1, 0, 1, 1])
    );
    let none = run(&table(&[0], &[&[spurious(0)]]), &off).report;
    assert_eq!((none.executions, none.opened, none.open), (1, 0, 0));
}

#[test]
fn a_shorter_execution_leaves_no_old_bytes() {
    // The second execution jumps over most rows; `run` tests the ends of both buffers.
    let mut rows = vec![spurious(0), jump_if(0, 1, 8)];
    rows.extend([load(0, RELAXED, 1); 6]);
    let left = run(&table(&[0], &[&rows]), &settings());
    assert_eq!((left.report.executions, left.report.rows), (2, 2));
    assert_eq!(left.history[0].0.len(), 14 * 16);
    assert_eq!(left.history[1].0.len(), 2 * 16);
}

#[test]
fn a_plain_buffer_is_handed_over() {
    let hand_off = |stored, loaded| {
        let writer = [plain_write(1, 7), store(0, stored, 1)];
        let reader = [
            load(0, loaded, 0),
            jump_unless(0, 1, 4),
            plain_read(1, 1),
            check(1, 7),
        ];
        run(&table_with(&[0], &[3, 0], &[&writer, &reader]), &settings())
    };
    let left = hand_off(RELEASE, ACQUIRE);
    assert_eq!((left.report.answer, left.values(17)), (0, vec![7, 7]));
    assert!(left.values(18).iter().all(|&value| value == 7));
    for (stored, loaded) in [(RELAXED, ACQUIRE), (RELEASE, RELAXED)] {
        let report = hand_off(stored, loaded).report;
        assert_eq!((report.answer, report.kind, report.other), (14, 10, 0));
        assert_eq!((report.thread, report.row), (1, 2));
    }
}

#[test]
fn plain_rows_are_never_scheduled() {
    let rows = [plain_read(0, 0), plain_write(0, 9), plain_read(0, 1)];
    let left = run(
        &table_with(&[0], &[5], &[&rows]),
        &Settings {
            branches: 1,
            operations: 3,
            ..settings()
        },
    );
    assert_eq!((left.report.answer, left.report.threads[0].version), (0, 2));
    let entry =
        |row: u8, opcode, value| [0, row, opcode, 255, 0, 0, 0, 0, value, 0, 0, 0, 0, 0, 0, 0];
    let entries = [entry(0, 17, 5), entry(1, 18, 9), entry(2, 17, 9)];
    assert_eq!(left.trace, entries.as_flattened());
}
