//! Programs of four and five threads: schedulings with many candidates, marks in many places.

use super::{timed, Timed};
use cases::table::*;

pub(super) fn all() -> Vec<Timed> {
    vec![
        timed("five-writers", "stores of one cell", each(1, |t| vec![store(0, RELAXED, t); 2]))
            .limits(64, 64, 10_000),
        timed("five-counters", "additions to one cell", five_counters()).limits(64, 64, 8_000),
        timed("four-readers", "one writer and four readers", four_readers()).limits(64, 64, 12_000),
        timed("five-locks", "a lock with five takers that yield", five_locks())
            .limits(256, 256, 1_000)
            .runs(5),
        timed("join-chain", "each thread waits for the next", join_chain()).limits(64, 64, 8_000),
        timed("five-fences", "SeqCst fences between two cells", five_fences())
            .limits(128, 64, 10_000),
        timed("ring", "each writes its cell and reads the next", ring()).limits(64, 64, 8_000),
        timed("handed-on", "exclusive changes, each after a join", handed_on())
            .limits(64, 64, 6_000),
        timed("opposite-readers", "two writers, two readers in opposite order", opposite_readers())
            .limits(64, 64, 15_000),
        timed("five-yields", "a yield between any two accesses", five_yields())
            .limits(128, 128, 8_000),
    ]
}

/// Five threads over so many cells.
fn each(cells: usize, rows: impl Fn(u64) -> Vec<Row>) -> Program {
    (0..5).fold(Program::new(&vec![0; cells]), |program, t| program.thread(&rows(t)))
}

fn five_counters() -> Program {
    each(1, |t| vec![rmw(0, RELAXED, ADD, 0, 1), rmw(0, ACQ_REL, MAX, 1, t)])
}

fn four_readers() -> Program {
    each(1, |t| match t {
        0 => vec![store(0, RELEASE, 1), store(0, RELEASE, 2)],
        _ => vec![load(0, ACQUIRE, 0), load(0, ACQUIRE, 1)],
    })
}

fn five_locks() -> Program {
    each(2, |_| {
        vec![
            compare(0, [ACQUIRE, RELAXED], 0, 0, 1),
            jump_if(0, 0, 4),
            yields(),
            jump(0),
            exclusive(1, ADD, 1, 1),
            store(0, RELEASE, 0),
        ]
    })
}

fn join_chain() -> Program {
    each(2, |t| {
        let mut rows = vec![store((t % 2) as u8, RELAXED, t), load(0, RELAXED, 0)];
        if t < 4 {
            rows.extend([join(t as u8 + 1), load(1, RELAXED, 1)]);
        }
        rows
    })
}

fn five_fences() -> Program {
    each(2, |t| {
        let mine = (t % 2) as u8;
        vec![store(mine, RELAXED, t), fence(SEQ_CST), load(1 - mine, RELAXED, 0)]
    })
}

fn ring() -> Program {
    each(4, |t| {
        let mine = (t % 4) as u8;
        vec![store(mine, RELEASE, t), load((mine + 1) % 4, ACQUIRE, 0), load(mine, RELAXED, 1)]
    })
}

fn handed_on() -> Program {
    each(2, |t| {
        let mut rows = vec![rmw(1, RELAXED, ADD, 2, 1), rmw(1, RELAXED, SUBTRACT, 2, 1)];
        if t < 4 {
            rows.push(join(t as u8 + 1));
        }
        rows.push(exclusive(0, ADD, 0, t));
        rows
    })
}

fn opposite_readers() -> Program {
    Program::new(&[0, 0])
        .thread(&[store(0, RELEASE, 1), store(0, RELEASE, 2)])
        .thread(&[store(1, RELEASE, 1), store(1, RELEASE, 2)])
        .thread(&[load(0, ACQUIRE, 0), load(1, ACQUIRE, 1)])
        .thread(&[load(1, ACQUIRE, 0), load(0, ACQUIRE, 1)])
}

fn five_yields() -> Program {
    each(1, |t| vec![store(0, RELAXED, t), yields(), load(0, RELAXED, 0), yields()])
}
