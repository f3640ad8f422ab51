//! Plain cells: their values, the three race kinds, what orders an access, and what a plain row leaves
//! alone.

use super::{hand, Hand};
use crate::condition::{bytes, differs};
use crate::table::*;
use oracle::limits::MAX_ROWS;

pub(super) fn all() -> Vec<Hand> {
    let mut all = kinds();
    all.extend(check_order());
    all.extend(others());
    all.extend(handed_over());
    all.extend(wrongly());
    all.extend(values());
    all.extend(left_alone());
    all.extend(sizes());
    all
}

fn read() -> Row {
    plain_read(0, 0)
}

fn write() -> Row {
    plain_write(0, 1)
}

/// One atomic cell, one plain cell.
fn one() -> Program {
    Program::new(&[0]).plain(&[7])
}

fn two(first: &[Row], second: &[Row]) -> Program {
    one().thread(first).thread(second)
}

fn three(first: &[Row], second: &[Row], third: &[Row]) -> Program {
    two(first, second).thread(third)
}

/// Each kind, with either thread as the one at fault.
fn kinds() -> Vec<Hand> {
    let kinds = [
        ("read after a write", 10, write(), read()),
        ("write after a read", 11, read(), write()),
        ("write after a write", 12, write(), write()),
    ];
    let mut all = Vec::new();
    for (shows, kind, first, second) in kinds {
        let name = format!("race-{kind}");
        let program = two(&[first], &[second]);
        let said = format!("plain {shows}: kind {kind}, other 0");
        all.push(hand(&name, 14, program).shows(&said).list(5));
        let turned = two(&[yields(), second], &[first]);
        let said = format!("the same with thread 0 at fault: kind {kind}, other 1");
        all.push(hand(&format!("{name}-turned"), 14, turned).shows(&said).list(5));
    }
    all
}

fn check_order() -> Vec<Hand> {
    vec![
        hand("race-11-before-12", 14, two(&[read(), write()], &[write()]))
            .shows("a write after a read and a write: kind 11"),
        hand("race-11-last", 14, two(&[write(), read()], &[write()]))
            .shows("after a write and a read: kind 11"),
        hand("race-10-read-too", 14, two(&[write(), read()], &[read()]))
            .shows("a read looks at writers alone: kind 10"),
        hand("plain-readers", 0, two(&[read()], &[read(), read()]))
            .shows("readers do not race with each other"),
        hand("plain-readers-write", 14, three(&[read()], &[read()], &[join(0), write()]))
            .shows("a write after two reads, one of them joined: kind 11, other 1"),
        hand("plain-readers-first", 14, three(&[read()], &[read()], &[join(1), write()]))
            .shows("the other one joined: kind 11, other 0"),
        hand("plain-readers-joined", 0, three(&[read()], &[read()], &[join(0), join(1), write()]))
            .shows("both joined"),
        hand("plain-made", 0, two(&[], &[write(), read()]))
            .shows("making the cell orders it before every thread"),
        hand("plain-made-first", 14, two(&[write()], &[write()]))
            .shows("what thread 0 does then is after that: kind 12"),
        hand("plain-own", 0, two(&[read(), write(), read(), write()], &[]))
            .shows("a thread does not race with itself"),
        hand("plain-cells-apart", 0, {
            let cells = Program::new(&[0]).plain(&[1, 2]);
            cells.thread(&[write(), read()]).thread(&[plain_write(1, 3), plain_read(1, 0)])
        })
        .shows("each cell has vectors of its own"),
    ]
}

/// The other thread is the lowest one ahead, not always the one that made the access.
fn others() -> Vec<Hand> {
    let handed = |order: u8, last: Row| {
        Program::new(&[0, 0])
            .plain(&[7])
            .thread(&[store(0, RELEASE, 1)])
            .thread(&[load(0, order, 0), jump_if_not(0, 1, 4), write(), store(1, RELAXED, 1)])
            .thread(&[load(1, RELAXED, 0), jump_if_not(0, 1, 3), last])
    };
    vec![
        hand("other-plain-lowest", 14, handed(ACQUIRE, plain_read(0, 1)))
            .shows("thread 1 wrote, but thread 0 is ahead too: kind 10, other 0"),
        hand("other-plain-made", 14, handed(RELAXED, plain_read(0, 1)))
            .shows("without the synchronisation: kind 10, other 1"),
        hand("other-plain-write", 14, handed(ACQUIRE, write()))
            .shows("a write there: kind 12, other 0"),
    ]
}

/// A writer with a flag in cell 0, and a reader that goes on where it sees the flag.
fn flagged(release: &[Row], acquire: &[Row], access: Row) -> Program {
    let writer = [&[plain_write(0, 5)], release].concat();
    let end = acquire.len() as u16 + 2;
    two(&writer, &[acquire, &[jump_if_not(0, 1, end), access]].concat())
}

/// A buffer that a reader gives back; the writer waits for it by loads of this order.
fn there_and_back(order: u8) -> Program {
    let back = [load(0, order, 0), jump_if(0, 2, 6), yields(), jump(2), plain_write(0, 9)];
    let taken = [plain_read(0, 1), store(0, RELEASE, 2)];
    two(
        &[&[write(), store(0, RELEASE, 1)], &back[..]].concat(),
        &[&[load(0, ACQUIRE, 0), jump_if(0, 1, 4), yields(), jump(0)], &taken[..]].concat(),
    )
}

fn handed_over() -> Vec<Hand> {
    let (give, take) = (store(0, RELEASE, 1), load(0, ACQUIRE, 0));
    let (put, look) = (store(0, RELAXED, 1), load(0, RELAXED, 0));
    let access = plain_read(0, 1);
    let locked = [
        compare(0, [ACQUIRE, RELAXED], 0, 0, 1),
        jump_if_not(0, 0, 5),
        read(),
        write(),
        store(0, RELEASE, 0),
    ];
    vec![
        hand("plain-passed", 0, flagged(&[give], &[take], access))
            .shows("a plain cell handed over by release and acquire"),
        hand("plain-passed-write", 0, flagged(&[give], &[take], write()))
            .shows("the other thread may write it then"),
        hand("plain-passed-fences", 0, {
            flagged(&[fence(RELEASE), put], &[look, fence(ACQUIRE)], access)
        })
        .shows("handed over by fences"),
        hand("plain-passed-rmw", 0, {
            let program = flagged(&[give], &[load(0, ACQUIRE, 0)], access);
            let mut program = program.thread(&[rmw(0, RELAXED, ADD, 0, 1)]);
            program.threads[1][1].a = 2;
            program
        })
        .shows("handed over by a release sequence")
        .limits(64, 64, 2_000),
        hand("plain-passed-join", 0, two(&[write()], &[join(0), read(), write(), check(0, 1)]))
            .shows("a join orders everything"),
        hand("plain-passed-end", 0, two(&[join(1), read(), write(), check(0, 1)], &[write()]))
            .shows("and by thread 0"),
        hand("plain-passed-back", 0, there_and_back(ACQUIRE))
            .shows("handed over and back")
            .limits(64, 64, 2_000),
        hand("plain-locked", 0, two(&locked, &locked)).shows("a cell under a lock"),
    ]
}

fn wrongly() -> Vec<Hand> {
    let (give, take) = (store(0, RELEASE, 1), load(0, ACQUIRE, 0));
    let (put, look) = (store(0, RELAXED, 1), load(0, RELAXED, 0));
    let access = plain_read(0, 1);
    let locked = |take: u8, give: u8| {
        let rows = [
            compare(0, [take, RELAXED], 0, 0, 1),
            jump_if_not(0, 0, 4),
            write(),
            store(0, give, 0),
        ];
        two(&rows, &rows)
    };
    vec![
        hand("plain-relaxed-store", 14, flagged(&[put], &[take], access))
            .shows("a relaxed store hands nothing over: kind 10"),
        hand("plain-relaxed-load", 14, flagged(&[give], &[look], access))
            .shows("a relaxed load takes nothing: kind 10"),
        hand("plain-relaxed-write", 14, flagged(&[give], &[look], write()))
            .shows("a write instead: kind 12"),
        hand("plain-fence-late", 14, {
            flagged(&[put, fence(RELEASE)], &[look, fence(ACQUIRE)], access)
        })
        .shows("a release fence behind the store: kind 10"),
        hand("plain-fence-wrong", 14, {
            flagged(&[fence(ACQUIRE), put], &[look, fence(ACQUIRE)], access)
        })
        .shows("an acquire fence before the store: kind 10"),
        hand("plain-written-late", 14, {
            flagged(&[give, fence(RELEASE), plain_write(0, 6)], &[take], access)
        })
        .shows("written again once the flag is up: kind 10"),
        hand("plain-written-same", 0, flagged(&[give, plain_write(0, 6)], &[take], access))
            .shows("the same without a row between that raises the version: nobody can tell"),
        hand("plain-back-relaxed", 14, there_and_back(RELAXED))
            .shows("the way back takes nothing: kind 11"),
        hand("plain-locked-wrong", 14, locked(RELAXED, RELEASE))
            .shows("a lock that takes nothing: kind 12"),
        hand("plain-locked-given", 14, locked(ACQUIRE, RELAXED))
            .shows("a lock that gives nothing: kind 12"),
    ]
}

fn values() -> Vec<Hand> {
    let four = Program::new(&[1, 2, 3, 4]).plain(&[5, 6, u64::MAX, 1 << 63]);
    let reads: Vec<Row> = (0..4).map(|plain| plain_read(plain, plain)).collect();
    let checked = [(0, 5), (1, 6), (2, u64::MAX), (3, 1 << 63)].map(|(r, a)| check(r, a));
    let twice = [spurious(0), plain_read(0, 1), check(1, 7), plain_write(0, 9), plain_read(0, 2)];
    let mut unmet = hand("plain-unmet", 18, two(&[write()], &[join(0), plain_read(0, 2)]))
        .shows("what was read is what a condition sees");
    unmet.case.condition = bytes(&differs(1, 2, 1));
    vec![
        hand("plain-starts", 0, four.thread(&[&reads[..], &checked].concat()))
            .shows("start values of four plain cells behind four atomic ones")
            .limits(1, 8, 9),
        hand("plain-written", 0, {
            let wide = plain_write(0, u64::MAX);
            one().thread(&[wide, plain_read(0, 3), check(3, u64::MAX), write(), read()])
        })
        .shows("what was written is read, slot 255")
        .limits(1, 8, 9),
        hand("plain-anew", 0, one().thread(&twice))
            .shows("each execution has the cells made anew: 2 executions"),
        hand("plain-checked", 15, two(&[write()], &[join(0), read(), check(0, 7)]))
            .shows("the value before the write is gone"),
        unmet,
    ]
}

/// No scheduling, no version, no choice; but a row like any other.
fn left_alone() -> Vec<Hand> {
    let accesses = [read(), write(), read()];
    let between = |rows: &[Row]| {
        let first = [rows, &[store(0, RELAXED, 1)], rows].concat();
        two(&first, &[load(0, RELAXED, 0)])
    };
    vec![
        hand("plain-branches", 0, one().thread(&accesses))
            .shows("one branch is enough, the end's: own version 2 stays")
            .limits(1, 3, 1)
            .list(5),
        hand("plain-between", 0, between(&[read(), write()]))
            .shows("P3 with plain rows around the store: 5 executions, opened 4")
            .list(5),
        hand("plain-full", 12, one().thread(&accesses))
            .shows("a plain row begins within L too")
            .limits(1, 2, 1),
        hand("plain-race-begun", 14, two(&[write()], &[yields(), read()]))
            .shows("a row that races has begun and has no entry: kind 10")
            .limits(9, 3, 1)
            .list(5),
        hand("plain-no-wake", 14, two(&[yields(), write(), yields(), write()], &[read()]))
            .shows("a plain row lets nobody else go on: kind 11"),
        hand("plain-quiet", 0, between(&[read(), write()])).shows("not exploring").quiet(),
        hand("plain-bound", 0, between(&[write()])).shows("P4 likewise: 2 executions").bound(0),
    ]
}

/// The longest table, and loops.
fn sizes() -> Vec<Hand> {
    let mut program = Program::new(&[1, 2, 3, 4]).plain(&[5, 6, 7, 8]);
    for thread in 0..5u8 {
        let rows: Vec<Row> =
            (0..MAX_ROWS as u8 - 1).map(|row| plain_read(row % 4, row % 3)).collect();
        let last = rmw(0, ACQ_REL, ADD, 3, thread.into());
        program = program.thread(&[&rows[..], &[last]].concat());
    }
    let full = [plain_read(0, 0), plain_write(0, 1), jump(0)];
    vec![
        hand("rows-most-plain", 12, program)
            .shows("the longest table: five threads of all their rows, four cells, four plain ones")
            .limits(64, 2 * MAX_ROWS as u64, 20)
            .list(5),
        hand("plain-loop", 12, one().thread(&full))
            .shows("a loop of plain rows begins all that may begin")
            .limits(1, 40, 1),
    ]
}
