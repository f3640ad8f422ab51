//! Plain data cells (document 02, section 5): what is read and written, race kinds 10 to 12, and what
//! a plain row leaves alone.

mod common;
use common::*;

/// One atomic cell at 0, a plain one at 7.
fn program(threads: &[&[Row]]) -> Vec<u8> {
    table_with(&[0], &[7], threads)
}

/// Thread 0 does its rows and ends; then thread 1 does its own. First execution only.
fn after(first: &[Row], second: &[Row]) -> Ran {
    run(&program(&[first, second]), &settings(8, 8, 1))
}

#[test]
fn values() {
    let rows = [
        plain_read(0, 2),
        plain_write(0, u64::MAX),
        plain_read(0, 1),
        plain_read(3, 0),
        plain_write(3, 5),
        plain_read(0, 3),
        check(2, 7),
        check(1, u64::MAX),
        check(0, 4),
        check(3, u64::MAX),
    ];
    let ran = run(
        &table_with(&[1], &[7, 2, 3, 4], &[&rows]),
        &settings(1, 10, 2),
    );
    assert_eq!(ran.counts(), [0, 1, 0, 0]);
    let values = [7, u64::MAX, u64::MAX, 4, 5, u64::MAX];
    for (row, value) in values.into_iter().enumerate() {
        let entry = entry_of(ran.last_trace(), 0, row as u8);
        let opcode = rows[row].opcode;
        assert_eq!((entry.opcode, entry.slot, entry.mask), (opcode, 255, 0));
        assert_eq!(entry.value, value);
    }
    // Nothing was scheduled but the end, no version raised.
    assert_eq!(ran.last_path().len(), 16);
    assert_eq!(ran.report.threads[0].version, 2);
}

#[test]
fn each_execution_starts_anew() {
    let rows = [spurious(0), plain_read(0, 1), plain_write(0, 9)];
    let ran = run(&program(&[&rows]), &settings(8, 8, 4));
    assert_eq!(ran.counts(), [0, 2, 1, 0]);
    assert_eq!(ran.values(0, 1), [7, 7]);
}

#[test]
fn three_kinds() {
    let (read, write) = (plain_read(0, 0), plain_write(0, 1));
    for (first, second, kind) in [(write, read, 10), (read, write, 11), (write, write, 12)] {
        let ran = after(&[first], &[second]);
        assert_eq!(ran.race(), [14, kind, 0]);
        assert_eq!(ran.fault(), [14, 1, 0]);
        assert_eq!(ran.report.rows, 2);
        assert_eq!(entries(ran.last_trace()).len(), 1);
        assert_eq!(ran.report.threads[1].version, 1);
        // The other way round, by a first thread that waits for nothing but lets the other go first.
        let turned = after(&[yields(), second], &[first]);
        assert_eq!(turned.race(), [14, kind, 1]);
        assert_eq!(turned.fault(), [14, 0, 1]);
        // The current thread's own accesses are no race, nor are other cells'.
        assert_eq!(after(&[first, second], &[]).report.answer, 0);
        let other = Row { place: 1, ..second };
        let apart = table_with(&[0], &[7, 7], &[&[first], &[other]]);
        assert_eq!(run(&apart, &settings(8, 8, 1)).report.answer, 0);
    }
    // Making the cell is no race with anybody, and readers are none among themselves.
    assert_eq!(after(&[], &[write, read]).report.answer, 0);
    assert_eq!(after(&[read], &[read]).report.answer, 0);
}

/// A write looks at the readers first, whoever wrote.
#[test]
fn readers_come_before_writers() {
    let (read, write) = (plain_read(0, 0), plain_write(0, 1));
    assert_eq!(after(&[read, write], &[write]).race(), [14, 11, 0]);
    assert_eq!(after(&[write, read], &[write]).race(), [14, 11, 0]);
    assert_eq!(after(&[write, read], &[read]).race(), [14, 10, 0]);
    // Thread 2 reads what thread 0 has written; thread 1 waits for it, or does not.
    let joined: [&[Row]; 3] = [&[write], &[join(2), write], &[join(0), read]];
    assert_eq!(run(&program(&joined), &settings(9, 9, 1)).report.answer, 0);
    let ends: [&[Row]; 3] = [&[write], &[yields(), write], &[join(0), read]];
    let ran = run(&program(&ends), &settings(9, 9, 1));
    assert_eq!((ran.race(), ran.report.thread), ([14, 11, 0], 1));
}

/// It need not be the one that made the access.
#[test]
fn the_other_thread_is_the_lowest_ahead() {
    // Thread 1 writes after a row of thread 0, which thread 2 knows nothing of.
    let threads: [&[Row]; 3] = [
        &[store(0, RELAXED, 1)],
        &[join(0), plain_write(0, 1)],
        &[plain_read(0, 0)],
    ];
    let ran = run(&program(&threads), &settings(16, 16, 1));
    assert_eq!((ran.race(), ran.fault()), ([14, 10, 0], [14, 2, 0]));
    // Without that row thread 1 itself is the lowest.
    let threads: [&[Row]; 3] = [&[], &[plain_write(0, 1)], &[plain_read(0, 0)]];
    let ran = run(&program(&threads), &settings(16, 16, 1));
    assert_eq!((ran.race(), ran.fault()), ([14, 10, 1], [14, 2, 0]));
}

/// A writer who hands a plain cell over by a flag in cell 0, and a reader who takes it if he sees it.
fn handed_over(release: &[Row], acquire: &[Row]) -> Ran {
    let writer = [&[plain_write(0, 5)], release].concat();
    let end = acquire.len() as u16 + 3;
    let reader = [
        acquire,
        &[jump_unless(0, 1, end), plain_read(0, 1), check(1, 5)],
    ]
    .concat();
    run(&program(&[&writer, &reader]), &settings(64, 64, 500))
}

#[test]
fn hand_offs() {
    let (by_release, by_acquire) = (store(0, RELEASE, 1), load(0, ACQUIRE, 0));
    let (relaxed, look) = (store(0, RELAXED, 1), load(0, RELAXED, 0));
    assert_eq!(handed_over(&[by_release], &[by_acquire]).report.answer, 0);
    let fenced = handed_over(&[fence(RELEASE), relaxed], &[look, fence(ACQUIRE)]);
    assert_eq!(fenced.report.answer, 0);
    let mixed = handed_over(&[by_release], &[look, fence(SEQCST)]);
    assert_eq!(mixed.report.answer, 0);
    for (release, acquire) in [
        (vec![relaxed], vec![by_acquire]),
        (vec![by_release], vec![look]),
        (vec![relaxed, fence(RELEASE)], vec![look, fence(ACQUIRE)]),
        (vec![fence(ACQUIRE), relaxed], vec![look, fence(ACQUIRE)]),
    ] {
        let ran = handed_over(&release, &acquire);
        assert_eq!(ran.race(), [14, 10, 0]);
    }
    let joined = program(&[
        &[plain_write(0, 5)],
        &[join(0), plain_read(0, 1), check(1, 5)],
    ]);
    assert_eq!(run(&joined, &settings(64, 64, 500)).report.answer, 0);
}

/// Plain rows add no branch and no choice: without them the path is the same.
#[test]
fn no_choice_and_no_branch() {
    let (one, two) = ([store(0, RELAXED, 1)], [load(0, RELAXED, 0)]);
    let bare = run(&program(&[&one, &two]), &settings(64, 64, 500));
    let first = [plain_write(0, 1), one[0], plain_read(0, 1)];
    let second = [plain_read(1, 1), two[0], plain_write(1, 1)];
    let table = table_with(&[0], &[7, 8], &[&first, &second]);
    let ran = run(&table, &settings(64, 64, 500));
    assert_eq!(ran.counts(), bare.counts());
    assert_eq!(ran.last_path(), bare.last_path());
    let versions = |ran: &Ran| ran.report.threads.map(|thread| thread.version);
    assert_eq!(versions(&ran), versions(&bare));
    // They begin as all rows do.
    let short = run(&table, &settings(64, 1, 500));
    assert_eq!(short.fault(), [12, 0, 1]);
}
