//! Loads with many stores to choose from: matching, coherence, first sight.

use super::{timed, Timed};
use cases::table::*;

pub(super) fn all() -> Vec<Timed> {
    vec![
        timed("seven-offers", "three loads over seven live stores", wide(6, RELAXED, RELAXED))
            .limits(64, 64, 14_000),
        timed("seven-acquired", "the same with release and acquire", wide(6, RELEASE, ACQUIRE))
            .limits(64, 64, 14_000),
        timed("seven-in-order", "the same with SeqCst", wide(6, SEQ_CST, SEQ_CST))
            .limits(64, 64, 14_000)
            .runs(15),
        timed("replaced", "20 stores: slots are used again", wide(20, RELAXED, RELAXED))
            .limits(128, 64, 7_000),
        timed("two-writers", "stores that are not ordered among themselves", two_writers())
            .limits(64, 64, 14_000),
        timed("rmw-offers", "RMWs, some of which fail", rmw_offers()).limits(64, 64, 10_000),
        timed("reread", "loads after yields: old stores are dropped", reread())
            .limits(128, 64, 10_000),
        timed("fences-over-28", "acquire fences over 28 live stores", fences_over_28())
            .limits(128, 128, 5_000),
        timed("loads-alone", "schedules not explored, loads are", loads_alone())
            .limits(64, 64, 8_000)
            .runs(60),
        timed("three-readers", "three readers of two writers", three_readers())
            .limits(128, 64, 10_000),
    ]
}

fn stores(cell: u8, order: u8, first: u64, count: u64) -> Vec<Row> {
    (first..first + count).map(|value| store(cell, order, value)).collect()
}

fn loads(cell: u8, order: u8, count: u8) -> Vec<Row> {
    (0..count).map(|register| load(cell, order, register)).collect()
}

/// A writer of so many values and a reader.
fn wide(count: u64, stored: u8, loaded: u8) -> Program {
    let writer = stores(0, stored, 1, count);
    Program::new(&[0]).thread(&writer).thread(&loads(0, loaded, 3))
}

fn two_writers() -> Program {
    let program = Program::new(&[0]).thread(&stores(0, RELAXED, 1, 3));
    program.thread(&stores(0, RELAXED, 11, 3)).thread(&loads(0, RELAXED, 3))
}

fn rmw_offers() -> Program {
    let compares = |value: u64| compare(0, [ACQ_REL, RELAXED], 0, value, value + 10);
    let changer = [compares(0), decrement(0, [RELEASE, ACQUIRE], 1), compares(2)];
    let program = Program::new(&[0]).thread(&stores(0, RELAXED, 1, 5));
    program.thread(&changer).thread(&[compares(1), load(0, RELAXED, 1)])
}

fn reread() -> Program {
    let reader: Vec<Row> =
        (0..4).flat_map(|register| [load(0, RELAXED, register), yields()]).collect();
    Program::new(&[0]).thread(&stores(0, RELAXED, 1, 6)).thread(&reader)
}

fn fences_over_28() -> Program {
    let mut program = Program::new(&[0, 0, 0, 0]);
    for t in 0..2 {
        let rows: Vec<Row> =
            (2 * t..2 * t + 2).flat_map(|cell| stores(cell, RELEASE, 1, 6)).collect();
        program = program.thread(&rows);
    }
    let reader: Vec<Row> =
        (0..4).flat_map(|cell| [load(cell, RELAXED, cell), fence(ACQUIRE)]).collect();
    program.thread(&reader)
}

/// The writer goes first, unexplored; then the reader's loads are tried in every way.
fn loads_alone() -> Program {
    let mut writer = stores(0, RELAXED, 1, 6);
    writer.insert(0, critical());
    let mut reader = vec![explore_state()];
    reader.extend(loads(0, RELAXED, 4));
    reader.push(critical());
    reader.push(join(0));
    Program::new(&[0]).thread(&writer).thread(&reader)
}

fn three_readers() -> Program {
    let mut program =
        Program::new(&[0, 0]).thread(&stores(0, RELEASE, 1, 4)).thread(&stores(1, RELAXED, 1, 4));
    for _ in 0..3 {
        program = program.thread(&[load(0, ACQUIRE, 0), load(1, RELAXED, 1)]);
    }
    program
}
