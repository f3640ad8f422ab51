//! The edges of B, L, N, of counts and of the table's size.

use super::{hand, Hand};
use crate::table::*;
use oracle::limits::{MAX_BRANCHES, MAX_EXECUTIONS, MAX_OPERATIONS, MAX_ROWS};

pub(super) fn all() -> Vec<Hand> {
    let mut all = settings();
    all.extend(filled());
    all.extend(counts());
    all.extend(sizes());
    all.extend(budgets());
    all
}

fn single() -> Program {
    Program::new(&[0]).thread(&[store(0, RELAXED, 1)])
}

fn settings() -> Vec<Hand> {
    let far = u64::MAX;
    let mut all = vec![
        hand("b-0", 2, single()).shows("B below its range").limits(0, 64, 9),
        hand("b-most", 0, single()).shows("the greatest B").limits(MAX_BRANCHES, 64, 9),
        hand("b-past", 2, single())
            .shows("B above its range")
            .limits(MAX_BRANCHES + 1, 64, 9)
            .list(5),
        hand("l-0", 2, single()).shows("L below its range").limits(64, 0, 9),
        hand("l-1", 0, single()).shows("the least L, just enough").limits(64, 1, 9),
        hand("l-most", 0, single()).shows("the greatest L").limits(64, MAX_OPERATIONS, 9),
        hand("l-past", 2, single()).shows("L above its range").limits(64, MAX_OPERATIONS + 1, 9),
        hand("n-0", 2, single()).shows("N below its range").limits(64, 64, 0),
        hand("n-1", 0, single()).shows("the least N").limits(64, 64, 1),
        hand("n-most", 0, single()).shows("the greatest N").limits(64, 64, MAX_EXECUTIONS),
        hand("n-past", 2, single()).shows("N above its range").limits(64, 64, MAX_EXECUTIONS + 1),
        hand("bound-255", 0, single()).shows("the greatest bound").bound(255),
    ];
    for (name, place) in [("b", 0), ("l", 1), ("n", 2)] {
        let mut last =
            hand(&format!("{name}-far"), 2, single()).shows("2^64-1 is out of range too");
        let settings = &mut last.case.settings;
        match place {
            0 => settings.branches = far,
            1 => settings.operations = far,
            _ => settings.executions = far,
        }
        all.push(last);
    }
    // 16 times this B is 16 once it wraps: the range is judged before the length.
    let mut wraps = hand("b-wraps", 2, single()).shows("a B whose length in bytes would wrap");
    wraps.case.settings.branches = (1 << 60) + 1;
    wraps.case.path = 16;
    all.push(wraps);
    all
}

/// Loops that use up a limit at its greatest.
fn filled() -> Vec<Hand> {
    // Two branches for each load: the path is full before the rows are used up.
    let mut branches = vec![load(0, RELAXED, 0); MAX_ROWS - 1];
    branches.push(jump(0));
    vec![
        hand("b-just-enough", 1, just_enough())
            .shows("an execution that ends with the longest path")
            .limits(MAX_BRANCHES, MAX_OPERATIONS, 1),
        hand("b-full", 11, Program::new(&[0]).thread(&branches))
            .shows("a loop that fills the longest path")
            .limits(MAX_BRANCHES, MAX_OPERATIONS, 1),
        hand("l-full", 12, Program::new(&[0]).thread(&[jump(1), jump(0)]))
            .shows("a loop that begins all rows that may begin")
            .limits(1, MAX_OPERATIONS, 1),
        hand("n-full", 1, Program::new(&[0]).thread(&[spurious(0); 16]))
            .shows("2^16 executions, one of them past the budget")
            .limits(17, 16, MAX_EXECUTIONS),
    ]
}

/// A loop of additions, two branches each, then as many branches of one row as are left but for the
/// end's.
fn just_enough() -> Program {
    let additions = 23;
    let (rounds, rest) = ((MAX_BRANCHES - 1) / (2 * additions), (MAX_BRANCHES - 1) % (2 * additions));
    let mut rows = vec![rmw(0, RELAXED, ADD, 0, 1); additions as usize];
    rows.push(jump_if_not(0, additions * rounds - 1, 0));
    rows.extend(vec![spurious(1); rest as usize]);
    Program::new(&[0]).thread(&rows)
}

/// Counts 6 to 10, the start value included: from 8 on the oldest slots are used again.
fn counts() -> Vec<Hand> {
    let mut all = Vec::new();
    for count in 6..=10 {
        let stores: Vec<Row> = (1..count).map(|value| store(0, RELAXED, value)).collect();
        let mut own = stores.clone();
        own.extend([load(0, RELAXED, 0), check(0, count - 1), rmw(0, RELAXED, ADD, 1, 1)]);
        let alone = Program::new(&[0]).thread(&own);
        all.push(
            hand(&format!("count-{count}-own"), 0, alone)
                .shows(&format!("count {count}: the writer sees its last store alone")),
        );
        let read = Program::new(&[0]).thread(&stores).thread(&[
            load(0, RELAXED, 0),
            load(0, SEQ_CST, 1),
            rmw(0, RELAXED, ADD, 2, 1),
        ]);
        let shows = format!("count {count}: what another thread is offered, by slot");
        all.push(hand(&format!("count-{count}"), 0, read).shows(&shows).quiet());
        let loads = Program::new(&[0]).thread(&stores).thread(&[load(0, RELAXED, 0)]);
        let shows = format!("count {count}: the same, explored");
        all.push(
            hand(&format!("count-{count}-explored"), 1, loads).shows(&shows).limits(64, 64, 40),
        );
    }
    all
}

/// Five threads of all their rows: so many of the first row, then a fence, an RMW and a jump.
fn five_full(first: impl Fn(u8) -> Row) -> Program {
    let mut program = Program::new(&[1, 2, 3, 4]);
    for thread in 0..5 {
        let mut rows = vec![first(thread); MAX_ROWS - 3];
        rows.extend([fence(SEQ_CST), rmw(0, ACQ_REL, ADD, 1, thread.into()), jump(MAX_ROWS as u16)]);
        program = program.thread(&rows);
    }
    program
}

/// One thread stores, the other loads, each as often as it may.
fn turns() -> Program {
    let stores: Vec<Row> = (1..=MAX_ROWS as u64).map(|value| store(0, RELEASE, value)).collect();
    Program::new(&[0]).thread(&stores).thread(&[load(0, ACQUIRE, 0); MAX_ROWS])
}

/// Five threads that add to one cell.
fn adders() -> Program {
    let rows = [rmw(0, RELAXED, ADD, 0, 1); MAX_ROWS];
    (0..5).fold(Program::new(&[0]), |program, _| program.thread(&rows))
}

fn sizes() -> Vec<Hand> {
    let mut empty = Program::new(&[0]);
    empty.threads = vec![Vec::new(); 5];
    vec![
        hand("rows-0", 0, Program::new(&[0]).thread(&[]))
            .shows("a thread without rows ends at once, with one scheduling")
            .limits(1, 1, 1),
        hand("rows-0-five", 0, empty)
            .shows("five threads without rows: five schedulings")
            .limits(5, 1, 1)
            .list(5),
        hand("rows-most", 0, Program::new(&[0]).thread(&[jump_if(0, 1, 0); MAX_ROWS]))
            .shows("a thread of all its rows")
            .list(5),
        hand("rows-most-five", 1, five_full(|_| jump_if_not(0, 0, 0)))
            .shows("five threads of all their rows, four cells, L just enough")
            .limits(64, 5 * MAX_ROWS as u64, 20)
            .list(5),
        hand("rows-most-turns", 1, turns())
            .shows("two threads of all their rows: stores and loads of one cell")
            .limits(6 * MAX_ROWS as u64, 2 * MAX_ROWS as u64, 30),
        hand("rows-most-adders", 1, adders())
            .shows("five threads of all their rows: additions to one cell")
            .limits(11 * MAX_ROWS as u64, 5 * MAX_ROWS as u64, 10),
        hand("rows-most-race", 14, five_full(|thread| unsync_load(thread % 4, 0)))
            .shows("the same with unsynchronised loads: kind 3")
            .limits(64, 6 * MAX_ROWS as u64, 50),
    ]
}

/// Where N ends a run.
fn budgets() -> Vec<Hand> {
    let two = || {
        Program::new(&[0])
            .thread(&[store(0, RELAXED, 1)])
            .thread(&[load(0, RELAXED, 0), check(0, 0)])
    };
    let sound =
        || Program::new(&[0]).thread(&[store(0, RELAXED, 1)]).thread(&[load(0, RELAXED, 0)]);
    vec![
        hand("budget-exact", 0, sound())
            .shows("nothing is open after the Nth execution: 0, not 1")
            .limits(9, 9, 5),
        hand("budget-short", 1, sound()).shows("one execution less").limits(9, 9, 4),
        hand("budget-one", 1, sound()).shows("the first execution alone").limits(9, 9, 1),
        hand("budget-fault", 15, two())
            .shows("a fault in the Nth execution is the answer")
            .limits(9, 9, 2),
        hand("budget-before-fault", 1, two())
            .shows("the budget ends before the fault")
            .limits(9, 9, 1),
    ]
}
