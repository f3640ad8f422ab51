//! What a load may read and what synchronises: orders, fences, yields, and case P8.

mod common;
use common::*;

/// Whether thread 1's exclusive change of cell 1, which thread 0 stored to before its flag in cell
/// 0, is no race: the flag was read and synchronised. First execution only. Fence 0 is none.
fn synchronised(before: u8, stored: u8, read: Row, after: u8) -> bool {
    let mut first = vec![store(1, RELAXED, 1)];
    first.extend((before != 0).then(|| fence(before)));
    first.push(store(0, stored, 1));
    let mut second = vec![read];
    second.extend((after != 0).then(|| fence(after)));
    second.push(exclusive(1, 0, 0, 2));
    let ran = run(&table(&[0, 0], &[&first, &second]), &settings(16, 16, 1));
    if ran.report.answer == 14 {
        assert_eq!(ran.race(), [14, 8, 0]);
    }
    ran.report.answer != 14
}

/// Releases: the store's own order, or a release fence before it. Acquires: likewise after.
#[test]
fn stores_reads_and_fences() {
    let releases = [RELEASE, ACQREL, SEQCST];
    let acquires = [ACQUIRE, ACQREL, SEQCST];
    for before in 0..=4 {
        for stored in [RELAXED, RELEASE, SEQCST] {
            for order in 0..=4 {
                for after in 0..=4 {
                    let released = releases.contains(&stored) || releases.contains(&before);
                    let acquired = acquires.contains(&order) || acquires.contains(&after);
                    let read = rmw(0, order, 1, 0, 1);
                    assert_eq!(
                        synchronised(before, stored, read, after),
                        released && acquired,
                        "{before} {stored} {order} {after}"
                    );
                }
            }
        }
    }
}

/// A failing RMW synchronises by its failure order only.
#[test]
fn the_failure_order() {
    for success in 0..=4 {
        for failure in [RELAXED, ACQUIRE, SEQCST] {
            let failing = compare(0, (success, failure), 0, 9, 9);
            assert_eq!(synchronised(0, RELEASE, failing, 0), failure != RELAXED);
            let fits = compare(0, (success, failure), 0, 1, 9);
            assert_eq!(synchronised(0, RELEASE, fits, 0), success >= ACQUIRE);
        }
    }
}

/// A successful RMW releases by its success order.
#[test]
fn a_releasing_rmw() {
    for order in 0..=4 {
        let first = [store(1, RELAXED, 1), rmw(0, order, 1, 0, 1)];
        let second = [rmw(0, ACQUIRE, 1, 0, 1), exclusive(1, 0, 0, 2)];
        let ran = run(&table(&[0, 0], &[&first, &second]), &settings(16, 16, 1));
        let releases = [RELEASE, ACQREL, SEQCST].contains(&order);
        assert_eq!(ran.report.answer != 14, releases, "{order}");
    }
}

/// Two SeqCst fences synchronise without any cell between them.
#[test]
fn seqcst_fences() {
    for (one, two) in [(SEQCST, SEQCST), (SEQCST, ACQREL), (ACQREL, SEQCST)] {
        let first = [store(0, RELAXED, 1), fence(one)];
        let second = [fence(two), exclusive(0, 0, 0, 2)];
        let ran = run(&table(&[0], &[&first, &second]), &settings(8, 8, 1));
        let both = one == SEQCST && two == SEQCST;
        assert_eq!(ran.report.answer == 14, !both);
        // A fence raises the version; the exclusive change does not.
        assert_eq!(ran.report.threads[1].version, 2);
    }
}

/// In a SeqCst fence released is the snapshot before the global vector is joined: thread 1's store
/// after its fence releases what thread 1 had acquired, not what the fence brought it.
#[test]
fn a_seqcst_fence_releases_before_it_joins() {
    let run_with = |fences: &[Row]| {
        let first = [store(1, RELAXED, 1), fence(SEQCST)];
        let second = [fences, &[store(0, RELAXED, 1)]].concat();
        let third = [rmw(0, ACQUIRE, 1, 0, 1), exclusive(1, 0, 0, 2)];
        let rows: [&[Row]; 3] = [&first, &second, &third];
        run(&table(&[0, 0], &rows), &settings(16, 16, 1)).race()
    };
    assert_eq!(run_with(&[fence(SEQCST)]), [14, 8, 0]);
    // A second fence's snapshot has what the first brought.
    assert_ne!(run_with(&[fence(SEQCST), fence(RELEASE)])[0], 14);
}

/// A relaxed RMW passes on the sync of the store it read.
#[test]
fn release_sequence() {
    let first = [store(1, RELAXED, 1), store(0, RELEASE, 1)];
    let third = [rmw(0, ACQUIRE, 1, 0, 1), exclusive(1, 0, 0, 2)];
    let between = |row: Row| {
        let rows: [&[Row]; 3] = [&first, &[row], &third];
        run(&table(&[0, 0], &rows), &settings(16, 16, 1))
            .report
            .answer
    };
    assert_ne!(between(rmw(0, RELAXED, 1, 0, 1)), 14);
    // A failing one stores nothing; the store read is thread 0's own.
    assert_ne!(between(compare(0, (RELAXED, RELAXED), 0, 7, 8)), 14);
}

/// The mask of thread 1's row in the first execution.
fn mask(first: &[Row], second: &[Row], row: u8) -> u8 {
    let ran = run(&table(&[0], &[first, second]), &settings(32, 16, 1));
    entry_of(ran.last_trace(), 1, row).mask
}

/// A SeqCst load passes over a SeqCst store with a greater SeqCst store; the start value's store is
/// none.
#[test]
fn seqcst_stores() {
    let both = [store(0, SEQCST, 1), store(0, SEQCST, 2)];
    assert_eq!(mask(&both, &[load(0, SEQCST, 0)], 0), 0b101);
    assert_eq!(mask(&both, &[load(0, ACQUIRE, 0)], 0), 0b111);
    let one = [store(0, RELEASE, 1), store(0, SEQCST, 2)];
    assert_eq!(mask(&one, &[load(0, SEQCST, 0)], 0), 0b111);
    let one = [store(0, SEQCST, 1), store(0, RELEASE, 2)];
    assert_eq!(mask(&one, &[load(0, SEQCST, 0)], 0), 0b111);
    // An RMW has the greatest alone.
    assert_eq!(mask(&both, &[rmw(0, RELAXED, 1, 0, 1)], 0), 0b100);
}

/// What a thread saw no later than its last yield is not offered again, if there is a greater.
#[test]
fn seen_before_the_yield() {
    let stores = [store(0, RELAXED, 1)];
    let read = load(0, RELAXED, 0);
    assert_eq!(mask(&stores, &[read, read], 1), 0b11);
    assert_eq!(mask(&stores, &[read, yields(), read], 2), 0b10);
    assert_eq!(mask(&stores, &[yields(), read, read], 2), 0b11);
    // Thread 0's own sight of it does not count.
    assert_eq!(mask(&stores, &[yields(), read], 1), 0b11);
    // With nothing greater it stays.
    assert_eq!(mask(&[], &[read, yields(), read], 2), 0b1);
}

/// A release that carries thread 0's stores makes the older ones seen, so they are dropped.
#[test]
fn seen_through_another_thread() {
    let stores = [
        store(0, RELAXED, 1),
        store(0, RELAXED, 2),
        store(0, RELEASE, 3),
    ];
    let read = load(0, RELAXED, 0);
    let after = |order| mask(&stores, &[rmw(0, order, 1, 0, 1), read], 1);
    // The RMW's own store (slot 4) is greater and seen in either case.
    assert_eq!(after(RELAXED), 0b10000);
    assert_eq!(after(ACQUIRE), 0b10000);
    // Reading slot 0 first leaves all; reading it after an acquire of another cell leaves one.
    let first = [store(0, RELAXED, 1), store(1, RELEASE, 1)];
    let second = |order| [rmw(1, order, 1, 0, 1), read];
    let mask = |order| {
        let rows: [&[Row]; 2] = [&first, &second(order)];
        let ran = run(&table(&[0, 0], &rows), &settings(32, 16, 1));
        entry_of(ran.last_trace(), 1, 1).mask
    };
    assert_eq!(mask(RELAXED), 0b11);
    assert_eq!(mask(ACQUIRE), 0b10);
}

/// P8, seen through causality. Cell 0 has nine stores; numbers 2 to 8 are kept, in the fence's order
/// 2, 3, 4, 5, 6, 0, 1:
/// - thread 0 stores to cell 1, then number 1 (Release);
/// - thread 1 makes number 2, a relaxed RMW that copies thread 0's sync without joining it, and
///   releases itself through cell 2;
/// - thread 2 acquires that, and makes numbers 3 to 8; number 7 (slot 0) is a Release;
/// - thread 3 reads slot 0 relaxed. Its acquire fence comes to number 2 before number 7 has shown it
///   thread 1, so thread 0's store stays unknown, and its exclusive change is a race. By slot number
///   or newest first it would not be. A second fence sees number 2.
fn p8(fences: usize) -> [u64; 3] {
    let first = [store(1, RELAXED, 1), store(0, RELEASE, 1)];
    let second = [rmw(0, RELAXED, 0, 0, 2), store(2, RELEASE, 1)];
    let mut third = vec![rmw(2, ACQUIRE, 1, 0, 1)];
    third.extend((3..=6).map(|n| store(0, RELAXED, n)));
    third.extend([store(0, RELEASE, 7), store(0, RELAXED, 8)]);
    let mut fourth = vec![load(0, RELAXED, 0), check(0, 7)];
    fourth.extend(vec![fence(ACQUIRE); fences]);
    fourth.push(exclusive(1, 0, 0, 2));
    let rows: [&[Row]; 4] = [&first, &second, &third, &fourth];
    let ran = run(&table(&[0, 0, 0], &rows), &settings(64, 64, 1));
    let read = entry_of(ran.last_trace(), 3, 0);
    assert_eq!((read.slot, read.mask), (0, 0x7f));
    ran.race()
}

#[test]
fn p8_fence_order_at_count_nine() {
    assert_eq!(p8(1), [14, 8, 0]);
    assert_eq!(p8(2), [1, 0, 255]);
}

/// Causality grown by one join counts for the next cell: cell 0's store shows thread 3 the store in
/// cell 1, whose copied sync then shows it thread 0. The other way round it comes too late.
#[test]
fn a_fence_goes_through_cells_in_order() {
    let answer = |early: u8, late: u8| {
        let first = [store(2, RELAXED, 1), store(late, RELEASE, 1)];
        let second = [rmw(late, RELAXED, 1, 0, 1), store(early, RELEASE, 1)];
        let third = [
            rmw(early, RELAXED, 1, 0, 1),
            fence(ACQUIRE),
            exclusive(2, 0, 0, 2),
        ];
        let rows: [&[Row]; 3] = [&first, &second, &third];
        run(&table(&[0; 3], &rows), &settings(64, 64, 1)).race()
    };
    assert_ne!(answer(0, 1)[0], 14);
    assert_eq!(answer(1, 0), [14, 8, 0]);
}
