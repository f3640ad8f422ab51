//! When rows begin, complete and fault; joins, yields and endings; every opcode once.

use super::{hand, Hand};
use crate::table::*;

pub(super) fn all() -> Vec<Hand> {
    let mut all = begun();
    all.extend(ends());
    all.extend(full_path());
    all.extend(joins());
    all.extend(yielding());
    all.extend(waiting());
    all.extend(picked());
    all.extend(values());
    all.extend(plain_rows());
    all.extend(changes());
    all
}

fn begun() -> Vec<Hand> {
    let switched = || {
        Program::new(&[0])
            .thread(&[rmw(0, RELAXED, ADD, 0, 1)])
            .thread(&[rmw(0, RELAXED, ADD, 0, 1)])
    };
    let jumping =
        Program::new(&[0]).thread(&[load(0, RELAXED, 0), jump(3), yields(), fence(SEQ_CST)]);
    let waiting = || {
        Program::new(&[0]).thread(&[join(1), load(0, RELAXED, 0)]).thread(&[store(0, RELAXED, 1)])
    };
    let second =
        Program::new(&[0]).thread(&[fence(SEQ_CST)]).thread(&[fence(SEQ_CST), fence(SEQ_CST)]);
    vec![
        hand("begun-once", 0, switched())
            .shows("a row whose thread is switched out in its middle is begun once: L is enough")
            .limits(9, 2, 99),
        hand("begun-short", 12, switched())
            .shows("with L one less, the second thread's row cannot begin")
            .limits(9, 1, 99),
        hand("begun-target", 12, jumping)
            .shows("the row that cannot begin after a jump is the target")
            .limits(9, 2, 9),
        hand("begun-join", 0, waiting())
            .shows("a join that blocks and goes on later is begun once")
            .limits(9, 3, 9),
        hand("begun-join-short", 12, waiting())
            .shows("with L one less the row after the join cannot begin")
            .limits(9, 2, 9),
        hand("begun-other", 12, second)
            .shows("thread and row at fault are those of the thread that runs")
            .limits(9, 2, 9),
    ]
}

fn ends() -> Vec<Hand> {
    let over = Program::new(&[0]).thread(&[jump(2), check(0, 1)]);
    let none_first = Program::new(&[0]).thread(&[]).thread(&[load(0, RELAXED, 0)]);
    let loops = Program::new(&[0]).thread(&[jump_if(0, 0, 0)]).thread(&[]);
    vec![
        hand("end-by-jump", 0, over)
            .shows("a jump to the row count ends the thread")
            .limits(1, 1, 1),
        hand("end-no-rows", 0, none_first).shows("a first thread without rows hands over at once"),
        hand("end-never", 12, loops)
            .shows("a loop without scheduling never lets another thread run"),
    ]
}

/// What stands after 11 at each caller of the scheduling; a spurious row uses up the one branch.
fn full_path() -> Vec<Hand> {
    let one = |rows: &[Row]| Program::new(&[0]).thread(rows).thread(&[fence(SEQ_CST)]);
    let joined = Program::new(&[0]).thread(&[yields()]).thread(&[join(0)]);
    let marked =
        || Program::new(&[0]).thread(&[store(0, RELAXED, 1)]).thread(&[load(0, RELAXED, 0)]);
    vec![
        hand("full-join", 11, one(&[spurious(0), join(1)]))
            .shows("a blocking join: its row, begun, no entry, state blocked")
            .limits(1, 9, 9),
        hand("full-yield", 11, one(&[spurious(0), yields()]))
            .shows("a yield: its own row, entry there, state yielded")
            .limits(1, 9, 9),
        hand("full-end", 11, one(&[spurious(0)]))
            .shows("an end: the row count, state ended")
            .limits(1, 9, 9),
        hand("full-end-joined", 11, joined)
            .shows("an end: who waited for it is runnable already")
            .limits(2, 9, 9)
            .list(5),
        hand("full-store", 11, one(&[spurious(0), store(0, SEQ_CST, 1)]))
            .shows("a store's scheduling: version not raised")
            .limits(1, 9, 9),
        hand("full-load", 11, one(&[load(0, ACQUIRE, 0)]))
            .shows("a load's own branch: version raised, no entry")
            .limits(1, 9, 9),
        hand("full-spurious", 11, one(&[spurious(0), spurious(0)]))
            .shows("a spurious row without a place")
            .limits(1, 9, 9),
        hand("full-marks", 11, marked())
            .shows("marks made before the branch was tried stay: opened 1, open 1")
            .limits(2, 9, 9),
        hand("full-last", 11, one(&[]))
            .shows("the branch that finds no thread needs a place too")
            .limits(1, 9, 9),
        hand("full-self", 10, Program::new(&[0]).thread(&[join(0)]))
            .shows("the branch that finds no thread, with a place")
            .limits(1, 1, 1),
    ]
}

fn joins() -> Vec<Hand> {
    let ring = Program::new(&[0]).thread(&[join(1)]).thread(&[join(2)]).thread(&[join(0)]);
    let pair =
        Program::new(&[0]).thread(&[join(1)]).thread(&[join(0)]).thread(&[store(0, RELAXED, 1)]);
    let through = Program::new(&[0]).thread(&[store(0, RELAXED, 1)]).thread(&[
        join(0),
        unsync_load(0, 0),
        check(0, 1),
    ]);
    let chain = Program::new(&[0])
        .thread(&[join(1), exclusive(0, ADD, 0, 1)])
        .thread(&[join(2), exclusive(0, ADD, 0, 1)])
        .thread(&[exclusive(0, ADD, 0, 1)]);
    let two_on_one =
        Program::new(&[0]).thread(&[join(2)]).thread(&[join(2)]).thread(&[store(0, RELEASE, 1)]);
    let twice = Program::new(&[0]).thread(&[join(1), join(1)]).thread(&[]);
    let after =
        Program::new(&[0]).thread(&[store(0, RELAXED, 1), join(0)]).thread(&[load(0, RELAXED, 0)]);
    vec![
        hand("join-ring", 10, ring).shows("three threads that join each other in a ring").list(5),
        hand("join-pair", 10, pair).shows("two that join each other, while a third ends").list(5),
        hand("join-through", 0, through)
            .shows("a join on an ended thread makes no scheduling and carries its causality")
            .limits(5, 4, 1),
        hand("join-chain", 0, chain).shows("joins carry causality from thread to thread"),
        hand("join-two", 0, two_on_one).shows("one end frees two joins"),
        hand("join-twice", 0, twice)
            .shows("a second join on the same thread goes through at once, version raised again"),
        hand("join-self-later", 10, after)
            .shows("a thread joins itself after others have ended")
            .list(5),
    ]
}

fn yielding() -> Vec<Hand> {
    let last = Program::new(&[0])
        .thread(&[yields()])
        .thread(&[join(0), store(0, RELAXED, 1)])
        .thread(&[load(0, RELAXED, 0)]);
    let alone = Program::new(&[0]).thread(&[yields(), yields(), load(0, RELAXED, 0)]);
    let fewest = Program::new(&[0])
        .thread(&[yields(), yields(), fence(SEQ_CST)])
        .thread(&[yields(), fence(SEQ_CST)])
        .thread(&[fence(SEQ_CST)]);
    vec![
        hand("yield-last", 0, last)
            .shows(
                "a thread whose last row is a yield ends when chosen again; till then joins block",
            )
            .list(5),
        hand("yield-alone", 0, alone).shows("a lone yielder is made Active"),
        hand("yield-fewest", 0, fewest)
            .shows("of the others the one with fewest yields goes first, the lowest on a tie")
            .list(5),
    ]
}

/// Loops and loads after a yield.
fn waiting() -> Vec<Hand> {
    let spin = |order: u8| [load(0, order, 0), jump_if(0, 1, 4), yields(), jump(0)];
    let set = [store(0, RELEASE, 1)];
    let one = |first: &[Row]| Program::new(&[0]).thread(first);
    let read = load(0, RELAXED, 0);
    let again = [read, yields(), load(0, RELAXED, 1), check(1, 1)];
    vec![
        hand("yield-spin", 0, one(&spin(ACQUIRE)).thread(&set))
            .shows("what was seen before a yield is not offered again: the loop ends"),
        hand("yield-spin-relaxed", 0, one(&spin(RELAXED)).thread(&set)).shows("the same, relaxed"),
        hand("yield-forever", 11, one(&spin(RELAXED)))
            .shows("a spin loop that nobody ends runs out of branches")
            .limits(30, 64, 9)
            .list(5),
        hand("yield-after", 0, one(&[yields(), read, read]).thread(&set))
            .shows("what was first seen after the yield may be read again"),
        hand("yield-old", 15, one(&again).thread(&set))
            .shows("an old value is read after a yield only where no newer store is there yet"),
    ]
}

/// A yielder that nobody else can run for is picked and stays yielded; one that gives way does not.
fn picked() -> Vec<Hand> {
    let one = |rows: &[Row]| Program::new(&[0]).thread(rows);
    let (write, read) = (store(0, RELAXED, 1), unsync_load(0, 0));
    let away = one(&[yields(), write]).thread(&[yields(), check(0, 1)]);
    let through = [yields(), yields(), join(1), check(0, 1)];
    let freed = one(&[join(1), check(0, 1)]).thread(&[yields(), write]);
    let next = one(&[join(1), yields(), check(0, 1)]).thread(&[yields()]);
    let two = one(&[yields(), join(1), check(0, 1)]).thread(&[yields(), yields(), write]);
    vec![
        hand("picked-check", 15, one(&[yields(), check(0, 1)]))
            .shows("a yielder that is picked goes on yielded: state 3 where its check fails")
            .list(5),
        hand("picked-store", 11, one(&[yields(), write]))
            .shows("it is yielded at its next scheduling")
            .limits(1, 9, 9),
        hand("picked-load", 11, one(&[yields(), load(0, RELAXED, 0)]))
            .shows("it is yielded after that scheduling, which picks it again")
            .limits(2, 9, 9),
        hand("picked-row", 12, one(&[yields(), fence(SEQ_CST)]))
            .shows("it is yielded where a row cannot begin")
            .limits(9, 1, 9),
        hand("picked-race", 14, one(&[yields(), yields(), read]).thread(&[write]))
            .shows("the first yield gives way, the second is picked: race kind 3, state 3"),
        hand("picked-flag", 16, one(&[yields(), explore_state()]))
            .shows("it is yielded where it may not start to explore"),
        hand("picked-through", 15, one(&through).thread(&[]))
            .shows("a join that goes through leaves it yielded"),
        hand("picked-blocked", 10, one(&[yields(), join(0)]))
            .shows("a join that blocks makes it blocked: nobody is left")
            .list(5),
        hand("picked-freed", 15, freed)
            .shows("it ends: who waited for it is runnable, not yielded"),
        hand("picked-next", 15, next)
            .shows("it ends, the next one yields and is picked in its turn")
            .list(5),
        hand("picked-two", 15, two)
            .shows("one waits for the other, which is picked at its second yield and ends"),
        hand("picked-away", 15, away)
            .shows("of two that yield in turn, each is runnable once the other was chosen")
            .list(5),
    ]
}

/// What the registers and entries show.
fn values() -> Vec<Hand> {
    let registers = Program::new(&[5])
        .thread(&[
            load(0, RELAXED, 3),
            store_register(0, RELEASE, 3),
            store_register(0, SEQ_CST, 2),
            load(0, SEQ_CST, 1),
            check(1, 0),
            check(3, 5),
        ])
        .thread(&[check(3, 0)]);
    let failing = Program::new(&[5]).thread(&[
        compare(0, [SEQ_CST, RELAXED], 0, 4, 9),
        check(0, 5),
        exclusive_compare(0, 1, 4, 9),
        check(1, 5),
        compare(0, [SEQ_CST, SEQ_CST], 0, 5, 9),
        exclusive_compare(0, 1, 9, 8),
        check(1, 9),
        unsync_load(0, 2),
        check(2, 8),
    ]);
    vec![
        hand("registers", 0, registers)
            .shows("registers start at 0, are a thread's own, and take what is read"),
        hand("failing", 0, failing)
            .shows("RMW and exclusive that fail give the value read and leave the cell"),
    ]
}

/// Rows that touch no cell.
fn plain_rows() -> Vec<Hand> {
    let one = |rows: &[Row]| Program::new(&[0]).thread(rows);
    let jumps = one(&[
        jump_if(0, 1, 0),
        jump_if_not(0, 0, 0),
        jump_if(0, 0, 4),
        check(0, 1),
        jump_if_not(0, 7, 6),
        check(0, 1),
    ]);
    let spurious = one(&[spurious(1), jump_if(1, 1, 3), fence(RELEASE), check(1, 1)]);
    vec![
        hand("jumps", 0, jumps).shows("jumps have entries whether taken or not"),
        hand("spurious", 15, spurious).shows("the spurious answer is 0 first, then 1"),
        hand("check-fails", 15, one(&[check(0, 0), check(2, 1)]))
            .shows("a check row that fails has no entry")
            .list(5),
    ]
}

/// Each change kind at both ends of its range, by an RMW and by an exclusive change.
fn changes() -> Vec<Hand> {
    let (least, most) = (1u64 << 63, (1u64 << 63) - 1);
    let expected: [(u8, u64, u64, u64); 15] = [
        (SWAP, 3, 8, 8),
        (ADD, u64::MAX, 2, 1),
        (SUBTRACT, 1, 2, u64::MAX),
        (AND, 12, 10, 8),
        (OR, 12, 10, 14),
        (XOR, 12, 10, 6),
        (NAND, 12, 10, !8),
        (MAX, least, most, least),
        (MIN, least, most, most),
        (SIGNED_MAX, u64::MAX, 1, 1),
        (SIGNED_MIN, u64::MAX, 1, u64::MAX),
        (SIGNED_MIN, least, most, least),
        (SUBTRACT, least, u64::MAX, least + 1),
        (MAX, 4, 4, 4),
        (DECREMENT, 1, 0, 0),
    ];
    let mut all = Vec::new();
    for (n, (kind, start, a, left)) in expected.into_iter().enumerate() {
        let by_rmw = rmw(0, ACQ_REL, kind, 0, a);
        let by_exclusive = exclusive(0, kind, 0, a);
        for (way, row) in [("rmw", by_rmw), ("exclusive", by_exclusive)] {
            let rows = [row, check(0, start), unsync_load(0, 1), check(1, left)];
            let name = format!("change-{n}-{way}");
            let shows = format!("{} of {start} and {a} leaves {left}", CHANGES[usize::from(kind)]);
            all.push(hand(&name, 0, Program::new(&[start]).thread(&rows)).shows(&shows));
        }
    }
    all
}
