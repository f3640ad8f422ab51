//! Programs of many rows, with more executions than anyone waits for: what an execution costs when
//! nearly all of it is a replay.

use super::{timed, Timed};
use cases::table::*;

pub(super) fn all() -> Vec<Timed> {
    vec![
        timed("two-by-six", "stores and loads of one cell", turns(2, 6, 1)).limits(64, 64, 10_000),
        timed("two-by-sixteen", "the same, longer", turns(2, 16, 1)).limits(128, 64, 5_000),
        timed("two-by-32", "the same, longer still", turns(2, 32, 1)).limits(256, 128, 3_000),
        timed("four-cells", "the same spread over four cells", turns(2, 24, 4))
            .limits(256, 128, 4_000),
        timed("counters", "64 additions to one cell: one offer each", counters())
            .limits(256, 128, 2_000),
        timed("every-order", "all orders of load, store and RMW", every_order())
            .limits(128, 64, 7_000),
        timed("every-fence", "fences of all orders between accesses", every_fence())
            .limits(128, 64, 5_000),
        timed("bound-2", "the second backtrack", turns(3, 10, 1)).limits(128, 64, 5_000).bound(2),
        timed("bound-5", "the same, with a longer way back", turns(3, 20, 2))
            .limits(256, 128, 3_000)
            .bound(5),
        timed("full-table", "five threads of 32 rows, four cells", full_table())
            .limits(1_024, 4_096, 1_000),
    ]
}

/// Threads of so many rows each, stores and loads in turn, spread over the cells.
fn turns(threads: u64, rows: u64, cells: u64) -> Program {
    let mut program = Program::new(&vec![0; cells as usize]);
    for t in 0..threads {
        let row = |i: u64| {
            let cell = ((i / 2 + t) % cells) as u8;
            match (i + t) % 2 {
                0 => store(cell, RELAXED, 10 * t + i),
                _ => load(cell, RELAXED, (i % 4) as u8),
            }
        };
        program = program.thread(&(0..rows).map(row).collect::<Vec<Row>>());
    }
    program
}

fn counters() -> Program {
    let rows = [rmw(0, ACQ_REL, ADD, 0, 1); 32];
    Program::new(&[0]).thread(&rows).thread(&rows)
}

fn every_order() -> Program {
    let first: Vec<Row> = [RELAXED, RELEASE, SEQ_CST]
        .iter()
        .flat_map(|&order| [store(0, order, 1), store(1, order, 2)])
        .collect();
    let second: Vec<Row> = [RELAXED, ACQUIRE, SEQ_CST]
        .iter()
        .flat_map(|&order| [load(1, order, 0), load(0, order, 1)])
        .collect();
    let third = [RELAXED, RELEASE, ACQUIRE, ACQ_REL, SEQ_CST].map(|order| rmw(0, order, XOR, 0, 5));
    Program::new(&[0, 0]).thread(&first).thread(&second).thread(&third)
}

fn every_fence() -> Program {
    let mut program = Program::new(&[0, 0, 0]);
    for t in 0..3 {
        let rows: Vec<Row> = [RELEASE, ACQUIRE, ACQ_REL, SEQ_CST]
            .iter()
            .flat_map(|&order| [store(t, RELAXED, 1), fence(order), load((t + 1) % 3, RELAXED, 0)])
            .collect();
        program = program.thread(&rows);
    }
    program
}

/// Accesses of every kind that can be mixed without a race.
fn full_table() -> Program {
    let mut program = Program::new(&[1, 2, 3, 4]);
    for t in 0..5 {
        let eight = [
            store(t % 4, RELEASE, 9),
            load((t + 1) % 4, ACQUIRE, 0),
            rmw((t + 2) % 4, ACQ_REL, ADD, 1, 3),
            fence(SEQ_CST),
            decrement((t + 3) % 4, [RELAXED, RELAXED], 2),
            store_register(t % 4, SEQ_CST, 2),
            jump_if(0, u64::MAX, 0),
            load(t % 4, RELAXED, 3),
        ];
        program = program.thread(&eight.repeat(4));
    }
    program
}
