//! B, L and N at their ends, and where exactly 11 and 12 are met.

mod common;
use common::*;
use oracle::limits::{MAX_BRANCHES, MAX_OPERATIONS};
use terms::Summary;

/// Two loads in a loop add four records each time round, with three rows.
fn spin() -> Vec<u8> {
    table(&[0], &[&[load(0, RELAXED, 0), load(0, RELAXED, 1), jump(0)]])
}

#[test]
fn the_greatest_b_is_filled() {
    let ran = run(&spin(), &settings(MAX_BRANCHES, MAX_OPERATIONS, 1));
    let rounds = MAX_BRANCHES / 4;
    // Every load before has both its records; the next has begun and finds no place.
    assert_eq!(ran.fault(), [11, 0, 0]);
    assert_eq!(ran.counts(), [11, 1, 0, 0]);
    assert_eq!(ran.report.rows, 3 * rounds + 1);
    assert_eq!(ran.last_path().len() as u64, 16 * MAX_BRANCHES);
    assert_eq!(entries(ran.last_trace()).len() as u64, 3 * rounds);
    let summary = Summary {
        state: 1,
        rows: 3 * rounds + 1,
        yields: 0,
        version: 2 + 2 * rounds,
    };
    assert_eq!(ran.report.threads[0], summary);
    // prev is a position among all records, little-endian: that of the load before.
    let last = MAX_BRANCHES as usize - 2;
    let record = &ran.last_path()[16 * last..16 * (last + 1)];
    assert_eq!(record[9..11], (last as u16 - 2).to_le_bytes());
}

#[test]
fn the_greatest_l_is_filled() {
    let rows = [jump_if(0, 0, 0)];
    let ran = run(&table(&[0], &[&rows]), &settings(1, MAX_OPERATIONS, 1));
    assert_eq!(ran.fault(), [12, 0, 0]);
    assert_eq!(ran.report.rows, MAX_OPERATIONS);
    assert_eq!(ran.last_path(), []);
    let trace = entries(ran.last_trace());
    assert_eq!(trace.len() as u64, MAX_OPERATIONS);
    let jump = Entry {
        thread: 0,
        row: 0,
        opcode: 10,
        slot: 255,
        mask: 0,
        value: 0,
    };
    assert!(trace.iter().all(|entry| *entry == jump));
}

/// A yield adds one record, a store another.
#[test]
fn yields_and_stores_fill_b() {
    let rows = [yields(), store(0, SEQCST, 3), jump(0)];
    let ran = run(&table(&[0], &[&rows]), &settings(1024, 4096, 1));
    // Two records each time round, three rows; the 513th yield finds no place.
    assert_eq!(ran.fault(), [11, 0, 0]);
    assert_eq!(ran.report.rows, 3 * 512 + 1);
    assert_eq!(ran.report.threads[0].version, 2 + 512);
    assert_eq!(ran.report.threads[0].yields, 513);
}

#[test]
fn the_row_that_was_to_begin() {
    // After a jump it is the target.
    let rows = [jump(2), check(0, 0), check(0, 0)];
    let ran = run(&table(&[0], &[&rows]), &settings(4, 1, 1));
    assert_eq!(ran.fault(), [12, 0, 2]);
    assert_eq!(ran.report.rows, 1);
    assert_eq!(ran.report.threads[0].rows, 1);
    // In another thread: thread 0 ends without a row, thread 1's second row cannot begin.
    let rows: [&[Row]; 2] = [&[], &[check(0, 0), check(0, 0)]];
    let ran = run(&table(&[0], &rows), &settings(4, 1, 1));
    assert_eq!(ran.fault(), [12, 1, 1]);
    assert_eq!(ran.report.threads[0].state, 4);
}

/// Ending is no row: a thread ends with L begun, also by a jump to its row count.
#[test]
fn ending_needs_no_l() {
    let ran = run(&table(&[0], &[&[jump(1)]]), &settings(1, 1, 1));
    assert_eq!(ran.counts(), [0, 1, 0, 0]);
    let ran = run(&table(&[0], &[&[jump(2), check(0, 1)]]), &settings(1, 1, 1));
    assert_eq!(ran.counts(), [0, 1, 0, 0]);
    assert_eq!(ran.report.rows, 1);
}

/// A row in whose middle its thread was switched out is not begun again: thread 0's store waits
/// while thread 1's runs, and L = 2 is enough for both.
#[test]
fn a_waiting_row_is_begun_once() {
    let rows: [&[Row]; 2] = [&[store(0, RELAXED, 1)], &[store(0, RELAXED, 2)]];
    let ran = run(&table(&[0], &rows), &settings(16, 2, 100));
    assert_eq!(ran.report.answer, 0);
    let first: Vec<u8> = ran.history.iter().map(|(_, t)| t[0]).collect();
    assert!(first.contains(&1), "thread 1 went first in some execution");
    // L = 1: thread 1's row is the one that cannot begin.
    let ran = run(&table(&[0], &rows), &settings(16, 1, 100));
    assert_eq!(ran.fault(), [12, 1, 0]);
    assert_eq!(ran.counts(), [12, 1, 0, 0]);
}

#[test]
fn eleven_at_a_load_branch() {
    for row in [load(0, RELAXED, 0), rmw(0, RELAXED, 1, 0, 1)] {
        let ran = run(&table(&[0], &[&[row]]), &settings(1, 4, 1));
        // Scheduled, version raised, then no place for the load branch: no entry.
        assert_eq!(ran.fault(), [11, 0, 0]);
        assert_eq!(ran.last_path().len(), 16);
        assert_eq!(ran.last_trace(), []);
        assert_eq!(ran.report.rows, 1);
        assert_eq!(ran.report.threads[0].version, 3);
    }
}

#[test]
fn eleven_at_a_store_a_spurious_branch_a_yield_and_a_join() {
    let at = |row: Row| {
        let rows: [&[Row]; 2] = [&[spurious(0), row], &[]];
        run(&table(&[0], &rows), &settings(1, 4, 1))
    };
    let store = at(store(0, RELAXED, 1));
    assert_eq!(store.fault(), [11, 0, 1]);
    assert_eq!(entries(store.last_trace()).len(), 1);
    assert_eq!((store.report.threads[0].version, store.report.rows), (2, 2));
    let spurious = at(spurious(1));
    assert_eq!(spurious.fault(), [11, 0, 1]);
    assert_eq!(entries(spurious.last_trace()).len(), 1);
    // A yield's entry is there, and it stays yielded.
    let yielded = at(yields());
    assert_eq!(yielded.fault(), [11, 0, 1]);
    assert_eq!(entries(yielded.last_trace()).len(), 2);
    let summary = yielded.report.threads[0];
    assert_eq!((summary.state, summary.yields, summary.version), (3, 1, 2));
    // A blocking join's is not, its row is begun, its version not raised.
    let joined = at(join(1));
    assert_eq!(joined.fault(), [11, 0, 1]);
    assert_eq!(entries(joined.last_trace()).len(), 1);
    let summary = joined.report.threads[0];
    assert_eq!((summary.state, summary.rows, summary.version), (2, 2, 2));
}

/// At an end that meets 11, the joiner is runnable already.
#[test]
fn eleven_at_an_end() {
    let rows: [&[Row]; 2] = [&[join(1)], &[check(0, 0)]];
    let ran = run(&table(&[0], &rows), &settings(1, 4, 1));
    assert_eq!(ran.fault(), [11, 1, 1]);
    assert_eq!(ran.report.threads[0].state, 1);
    assert_eq!(ran.report.threads[1].state, 4);
    assert_eq!(entries(ran.last_trace()).len(), 1);
}

/// Marks made before 11 stay: at thread 1's load its conflict with record 0 is marked, then the
/// branch finds no place.
#[test]
fn marks_before_eleven_stay() {
    let rows: [&[Row]; 2] = [&[store(0, RELAXED, 1)], &[load(0, RELAXED, 0)]];
    let ran = run(&table(&[0], &rows), &settings(2, 4, 9));
    assert_eq!(ran.fault(), [11, 1, 0]);
    assert_eq!(ran.counts(), [11, 1, 1, 1]);
    let first = schedule_record([4, 3, 0, 0, 0], 0, 0, 65535);
    assert_eq!(ran.last_path()[..16], first);
}

/// Stores past the history: one thread has seen all, so a load has the newest alone.
#[test]
fn counts_seven_and_eight() {
    for stores in [5, 6, 7, 8, 14] {
        let mut rows: Vec<Row> = (1..=stores).map(|n| store(0, RELAXED, n)).collect();
        rows.extend([load(0, RELAXED, 0), rmw(0, RELAXED, 0, 1, 99)]);
        let ran = run(&table(&[0], &[&rows]), &settings(64, 64, 1));
        assert_eq!(ran.counts(), [0, 1, 0, 0]);
        let trace = entries(ran.last_trace());
        for (n, entry) in (1..=stores).zip(&trace) {
            assert_eq!((u64::from(entry.slot), entry.value), (n % 7, n));
        }
        for read in &trace[stores as usize..] {
            let newest = (stores % 7) as u8;
            assert_eq!(
                (read.slot, read.mask, read.value),
                (newest, 1 << newest, stores)
            );
        }
    }
}

/// A thread that has seen none of them may read any of the seven that are kept. Slots are offered
/// by number, so at count 8 the first is the newest store.
#[test]
fn offers_at_counts_seven_and_eight() {
    for (stores, first) in [(6, 0), (7, 7), (8, 7), (9, 7), (13, 7), (14, 14)] {
        let rows: Vec<Row> = (1..=stores).map(|n| store(0, RELAXED, n)).collect();
        let threads: [&[Row]; 2] = [&rows, &[load(0, RELAXED, 0)]];
        let ran = run(&table(&[0], &threads), &settings(64, 64, 1));
        let entry = entry_of(ran.last_trace(), 1, 0);
        assert_eq!((entry.slot, entry.mask, entry.value), (0, 0x7f, first));
        // Six more values, and the conflict of the load with the last store.
        assert_eq!(ran.counts(), [1, 1, 7, 7]);
    }
}
