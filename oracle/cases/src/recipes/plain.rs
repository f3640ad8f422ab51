//! A buffer of plain cells that is handed from thread to thread, rightly or wrongly.

use crate::draw::*;
use crate::edit;
use crate::random::Random;
use crate::table::*;

/// A release store or one that is none, mostly the former.
fn release(r: &mut Random) -> u8 {
    r.pick(&[RELEASE, RELEASE, SEQ_CST, RELAXED])
}

/// An acquire load or one that is none, mostly the former.
fn acquire(r: &mut Random) -> u8 {
    r.pick(&[ACQUIRE, ACQUIRE, SEQ_CST, RELAXED])
}

/// Start values of one to four plain cells.
fn buffer(r: &mut Random) -> Vec<u64> {
    let plains = r.pick(&[1, 1, 1, 2, 2, 3, 4]);
    (0..plains).map(|_| value(r)).collect()
}

/// One to three plain accesses, most of them writes.
fn fills(r: &mut Random, plains: u8) -> Vec<Row> {
    (0..r.pick(&[1, 1, 2, 3]))
        .map(|_| match r.below(4) {
            0 => any_plain(r, plains),
            _ => plain_write(r.below(u64::from(plains)) as u8, value(r)),
        })
        .collect()
}

/// One to three plain accesses, most of them reads.
fn takes(r: &mut Random, plains: u8) -> Vec<Row> {
    (0..r.pick(&[1, 1, 2, 3]))
        .map(|_| match r.below(4) {
            0 => any_plain(r, plains),
            _ => plain_read(r.below(u64::from(plains)) as u8, r.between(1, 3) as u8),
        })
        .collect()
}

/// The threads in either order.
fn either_way(r: &mut Random, program: Program, threads: [&[Row]; 2]) -> Program {
    let [first, second] = threads;
    match r.below(2) {
        0 => program.thread(first).thread(second),
        _ => program.thread(second).thread(first),
    }
}

/// One thread fills the buffer and raises a flag, the other takes it where it sees the flag.
pub(super) fn handed_over(r: &mut Random) -> Program {
    let starts = buffer(r);
    let plains = starts.len() as u8;
    let mut writer = fills(r, plains);
    writer.push(store(0, release(r), 1));
    // Too late, once the flag is up.
    if r.chance(1, 6) {
        writer.push(any_plain(r, plains));
    }
    let taken = takes(r, plains);
    let end = 2 + taken.len() as u16;
    let mut reader = vec![load(0, acquire(r), 0), jump_if_not(0, 1, end)];
    if r.chance(1, 3) {
        reader = vec![load(0, acquire(r), 0), jump_if(0, 1, 4), yields(), jump(0)];
    }
    reader.extend(taken);
    either_way(r, Program::new(&[0]).plain(&starts), [&writer, &reader])
}

/// The same with relaxed accesses, and fences that carry what they do not.
pub(super) fn fenced(r: &mut Random) -> Program {
    let starts = buffer(r);
    let plains = starts.len() as u8;
    let mut writer = fills(r, plains);
    writer.push(fence(r.pick(&[RELEASE, ACQ_REL, SEQ_CST, ACQUIRE])));
    writer.push(store(0, RELAXED, 1));
    let taken = takes(r, plains);
    let mut reader = vec![load(0, RELAXED, 0), jump_if(0, 0, 3 + taken.len() as u16)];
    reader.push(fence(r.pick(&[ACQUIRE, ACQ_REL, SEQ_CST, RELEASE])));
    reader.extend(taken);
    either_way(r, Program::new(&[0]).plain(&starts), [&writer, &reader])
}

/// Workers with a cell each, or with one for all, and a thread that takes what they leave once it has
/// joined them, or most of them.
pub(super) fn joined(r: &mut Random) -> Program {
    let workers = r.between(1, 3);
    let own = r.chance(2, 3);
    let plains = if own { workers } else { r.between(1, 2) };
    let starts: Vec<u64> = (0..plains).map(|_| value(r)).collect();
    let mut last: Vec<Row> = (1..=workers).map(|thread| join(thread as u8)).collect();
    if r.chance(1, 4) {
        last.remove(r.position(last.len()));
    }
    last.extend(takes(r, plains as u8));
    let mut program = Program::new(&[0]).plain(&starts).thread(&last);
    for worker in 0..workers {
        let mut rows = match own {
            true => vec![plain_write(worker as u8, value(r)), plain_read(worker as u8, 1)],
            false => takes(r, plains as u8),
        };
        if r.chance(1, 4) {
            rows.insert(0, load(0, load_order(r), 0));
        }
        program = program.thread(&rows);
    }
    program
}

/// Accesses that nothing orders, but for a join or a yield here and there.
pub(super) fn at_once(r: &mut Random) -> Program {
    let starts = buffer(r);
    let mut program = Program::new(&[0]).plain(&starts);
    let threads = r.between(2, 3);
    for thread in 0..threads {
        let mut rows: Vec<Row> =
            (0..r.between(1, 3)).map(|_| any_plain(r, starts.len() as u8)).collect();
        match r.below(4) {
            0 => rows.insert(0, join(((thread + 1) % threads) as u8)),
            1 => rows.insert(0, yields()),
            2 => rows.insert(r.position(rows.len() + 1), any_rmw(r, 0)),
            _ => {}
        }
        program = program.thread(&rows);
    }
    program
}

/// A buffer that goes to the reader and comes back, to be written again.
pub(super) fn handed_back(r: &mut Random) -> Program {
    let starts = buffer(r);
    let plains = starts.len() as u8;
    let mut writer = fills(r, plains);
    writer.push(store(0, release(r), 1));
    let again = writer.len() as u16;
    let back = load(0, acquire(r), 0);
    writer.extend([back, jump_if(0, 2, again + 4), yields(), jump(again)]);
    writer.extend(fills(r, plains));
    let mut reader = vec![load(0, acquire(r), 0), jump_if(0, 1, 4), yields(), jump(0)];
    reader.extend(takes(r, plains));
    reader.push(store(0, release(r), 2));
    either_way(r, Program::new(&[0]).plain(&starts), [&writer, &reader])
}

/// Threads that use the buffer under a lock taken by compare and write.
pub(super) fn locked(r: &mut Random) -> Program {
    let starts = buffer(r);
    let mut program = Program::new(&[0]).plain(&starts);
    let (take, give) = (r.pick(&[ACQUIRE, ACQ_REL, SEQ_CST, RELAXED]), release(r));
    for _ in 0..r.between(2, 3) {
        let mut rows = vec![compare(0, [take, RELAXED], 0, 0, 1), jump_if(0, 0, 4)];
        rows.extend([yields(), jump(0)]);
        rows.extend(fills(r, starts.len() as u8));
        rows.push(store(0, give, 0));
        program = program.thread(&rows);
    }
    program
}

/// A release store, an RMW by another on top of it, and a reader of the last.
pub(super) fn release_sequence(r: &mut Random) -> Program {
    let starts = buffer(r);
    let plains = starts.len() as u8;
    let mut writer = fills(r, plains);
    writer.push(store(0, release(r), 1));
    let taken = takes(r, plains);
    let mut reader = vec![load(0, acquire(r), 0), jump_if_not(0, 2, 2 + taken.len() as u16)];
    reader.extend(taken);
    let mut middle = vec![rmw(0, rmw_order(r), ADD, 0, 1)];
    if r.chance(1, 3) {
        middle.push(any_plain(r, plains));
    }
    let program = Program::new(&[0]).plain(&starts).thread(&writer).thread(&middle);
    program.thread(&reader)
}

/// A thread that hears by a relaxed flag of an access that another one made after acquiring from the
/// first: the lowest thread ahead need not be the one that made it.
pub(super) fn third_party(r: &mut Random) -> Program {
    let starts = buffer(r);
    let plains = starts.len() as u8;
    let mut middle = vec![load(0, acquire(r), 0), jump_if_not(0, 1, 4)];
    middle.extend([any_plain(r, plains), store(1, r.pick(&[RELAXED, RELAXED, RELEASE]), 1)]);
    let last = [load(1, load_order(r), 0), jump_if_not(0, 1, 3), any_plain(r, plains)];
    let mut first = vec![store(0, release(r), 1)];
    if r.chance(1, 3) {
        first.insert(0, any_plain(r, plains));
    }
    Program::new(&[0, 0]).plain(&starts).thread(&first).thread(&middle).thread(&last)
}

/// Readers of one cell, and a writer that waits for most of them.
pub(super) fn many_readers(r: &mut Random) -> Program {
    let readers = r.between(2, 4);
    let writer = r.below(readers + 1);
    let missed = r.below(readers + 3);
    let mut program = Program::new(&[0]).plain(&[value(r)]);
    for thread in 0..=readers {
        let others = (0..=readers).filter(|&other| other != writer && other != missed);
        let rows = match thread == writer {
            true => others.map(|other| join(other as u8)).chain([plain_write(0, 1)]).collect(),
            false => vec![plain_read(0, register(r))],
        };
        program = program.thread(&rows);
    }
    program
}

/// A program without plain cells that gets some, and rows that use them.
pub(super) fn sprinkled(r: &mut Random) -> Program {
    let mut program = super::program(r).plain(&buffer(r));
    for _ in 0..r.between(1, 5) {
        edit::insert_plain(r, &mut program);
    }
    program
}

/// Rows without any plan.
pub(super) fn soup(r: &mut Random) -> Program {
    let starts = buffer(r);
    super::soup_over(r, &starts)
}
