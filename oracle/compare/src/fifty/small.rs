//! Programs that are explored in no time, again and again: what a run costs before and after its
//! executions.

use super::{timed, Timed};
use cases::table::*;

pub(super) fn all() -> Vec<Timed> {
    vec![
        timed("one-load", "the shortest run there is", one_load()).limits(3, 1, 1).runs(10_000),
        timed("store-and-load", "five executions of two rows", store_and_load())
            .limits(16, 8, 100)
            .runs(5_000),
        timed("message", "data behind a release and acquire flag", message())
            .limits(24, 16, 100)
            .runs(4_000),
        timed("store-buffering", "two cells, two threads", buffering(None))
            .limits(24, 16, 100)
            .runs(1_200),
        timed("fenced-buffering", "the same with SeqCst fences", buffering(Some(SEQ_CST)))
            .limits(24, 16, 100)
            .runs(2_000),
        timed("load-buffering", "loads before stores of what was read", load_buffering())
            .limits(24, 16, 100)
            .runs(2_000),
        timed("two-locks", "a lock by compare, waiting by yield", two_locks())
            .limits(64, 64, 500)
            .runs(2_000),
        timed("early-race", "a race in the first executions", early_race())
            .limits(64, 64, 500)
            .runs(8_000),
        timed("wide-buffers", "one load with long buffers: clearing", one_load())
            .limits(1_024, 4_096, 1)
            .runs(5_000),
        timed("refused", "five threads of 32 rows, the last row bad: judging alone", refused())
            .limits(64, 64, 1)
            .runs(6_000),
    ]
}

fn one_load() -> Program {
    Program::new(&[7]).thread(&[load(0, RELAXED, 0)])
}

fn store_and_load() -> Program {
    Program::new(&[0]).thread(&[store(0, RELAXED, 1)]).thread(&[load(0, RELAXED, 0)])
}

fn message() -> Program {
    Program::new(&[0, 0]).thread(&[store(0, RELAXED, 1), store(1, RELEASE, 1)]).thread(&[
        load(1, ACQUIRE, 0),
        jump_if_not(0, 1, 4),
        load(0, RELAXED, 1),
        check(1, 1),
    ])
}

fn buffering(between: Option<u8>) -> Program {
    let mut program = Program::new(&[0, 0]);
    for mine in 0..2 {
        let mut rows = vec![store(mine, RELAXED, 1)];
        rows.extend(between.map(fence));
        rows.push(load(1 - mine, RELAXED, 0));
        program = program.thread(&rows);
    }
    program
}

fn load_buffering() -> Program {
    let mut program = Program::new(&[0, 0]);
    for mine in 0..2 {
        let rows = [load(mine, ACQUIRE, 0), store_register(1 - mine, RELEASE, 0)];
        program = program.thread(&rows);
    }
    program
}

fn two_locks() -> Program {
    let rows = [
        compare(0, [ACQUIRE, RELAXED], 0, 0, 1),
        jump_if(0, 0, 4),
        yields(),
        jump(0),
        exclusive(1, ADD, 1, 1),
        store(0, RELEASE, 0),
    ];
    Program::new(&[0, 0]).thread(&rows).thread(&rows)
}

fn early_race() -> Program {
    Program::new(&[0, 0]).thread(&[store(0, RELAXED, 1), store(1, RELAXED, 1)]).thread(&[
        load(1, RELAXED, 0),
        jump_if_not(0, 1, 3),
        unsync_load(0, 1),
    ])
}

fn refused() -> Program {
    let mut program = Program::new(&[1, 2, 3, 4]);
    for _ in 0..5 {
        program = program.thread(&[compare(3, [ACQ_REL, ACQUIRE], 3, 1, 2); 32]);
    }
    program.threads[4][31].failure = RELEASE;
    program
}
