//! Which choices are opened: dependent accesses, bounds, backtracking past records that do not
//! explore.

use super::{hand, Hand};
use crate::table::*;

pub(super) fn all() -> Vec<Hand> {
    let mut all = dependent();
    all.extend(bounded());
    all.extend(disabled());
    all.extend(shapes());
    all.extend(larger_shapes());
    all
}

fn two(first: &[Row], second: &[Row]) -> Program {
    Program::new(&[0, 0]).thread(first).thread(second)
}

fn dependent() -> Vec<Hand> {
    let read = || load(0, RELAXED, 0);
    let failing = || compare(0, [RELAXED, RELAXED], 0, 7, 8);
    vec![
        hand("dependent-loads", 0, two(&[read()], &[read()]))
            .shows("two loads do not depend on each other: 1 execution"),
        hand("dependent-cells", 0, two(&[store(0, RELAXED, 1)], &[store(1, RELAXED, 1)]))
            .shows("stores to two cells do not depend: 1 execution"),
        hand("dependent-stores", 0, two(&[store(0, RELAXED, 1)], &[store(0, RELAXED, 2)]))
            .shows("two stores to one cell do: 3 executions"),
        hand("dependent-failing", 0, two(&[failing()], &[read()]))
            .shows("an RMW that fails counts as one that writes"),
        hand("dependent-failing-both", 0, two(&[failing()], &[failing()]))
            .shows("two that fail depend on each other"),
        hand("dependent-load-first", 0, two(&[read()], &[store(0, RELAXED, 1)]))
            .shows("a store depends on the last access of any kind"),
        hand("dependent-load-past", 0, two(&[store(0, RELAXED, 1), read()], &[read()]))
            .shows("a load depends on the last store, whatever was loaded since"),
        hand("dependent-unsync", 0, two(&[unsync_load(0, 0)], &[unsync_load(0, 0)]))
            .shows("unsynchronised loads make no branch"),
        hand("dependent-joined", 0, two(&[store(0, RELAXED, 1)], &[join(0), store(0, RELAXED, 2)]))
            .shows("a join carries the schedule vector: what is ordered by it opens nothing"),
        hand(
            "dependent-join-first",
            0,
            two(&[join(1), store(0, RELAXED, 2)], &[store(0, RELAXED, 1)]),
        )
        .shows("the same with the joining thread first"),
    ]
}

/// Three threads that are in each other's way, for runs under a bound.
fn contended() -> [(&'static str, Program); 5] {
    let single = Program::new(&[0])
        .thread(&[store(0, RELAXED, 1)])
        .thread(&[store(0, RELAXED, 2)])
        .thread(&[store(0, RELAXED, 3)]);
    let joined = Program::new(&[0])
        .thread(&[store(0, RELAXED, 1)])
        .thread(&[store(0, RELAXED, 2)])
        .thread(&[join(0), store(0, RELAXED, 3)]);
    let writers = Program::new(&[0])
        .thread(&[store(0, RELAXED, 1), store(0, RELAXED, 2)])
        .thread(&[store(0, RELAXED, 3), store(0, RELAXED, 4)])
        .thread(&[rmw(0, RELAXED, ADD, 0, 5)]);
    let crossing = Program::new(&[0, 0])
        .thread(&[store(0, RELAXED, 1), load(1, RELAXED, 0)])
        .thread(&[store(1, RELAXED, 1), load(0, RELAXED, 0)])
        .thread(&[rmw(0, RELAXED, ADD, 0, 2), rmw(1, RELAXED, ADD, 1, 2)]);
    let passed = Program::new(&[0])
        .thread(&[critical(), store(0, RELAXED, 1), store(0, RELAXED, 2)])
        .thread(&[explore_state(), store(0, RELAXED, 3), store(0, RELAXED, 4)])
        .thread(&[store(0, RELAXED, 5)]);
    [
        ("single", single),
        ("joined", joined),
        ("writers", writers),
        ("crossing", crossing),
        ("passed", passed),
    ]
}

/// A record whose preemptions equal the bound takes no marks; the second backtrack walks prev from
/// there, past records that do not explore.
fn bounded() -> Vec<Hand> {
    let mut all = Vec::new();
    for bound in [0, 1, 2, 3] {
        for (what, program) in contended() {
            // With a greater bound these have more than 60 executions.
            let more = matches!((what, bound), ("writers", 3) | ("crossing", 2 | 3));
            let name = format!("bound-{bound}-{what}");
            let shows = match what {
                "single" => "one store by each of three threads",
                "joined" => "the second backtrack starts before the record found",
                "writers" => "three writers of one cell",
                "crossing" => "three threads over two cells",
                _ => "records that do not explore are passed over",
            };
            all.push(
                hand(&name, u64::from(more), program)
                    .shows(&format!("{shows}, bound {bound}"))
                    .bound(bound)
                    .limits(64, 64, 60),
            );
        }
    }
    all.push(walks_on());
    all
}

/// Thread 2 is in thread 1's way. The switch from thread 0 to thread 1 does not explore, so the
/// second backtrack goes on to the very first record.
fn walks_on() -> Hand {
    let program = Program::new(&[0, 0])
        .thread(&[store(0, RELAXED, 1), critical()])
        .thread(&[explore_state(), store(1, RELAXED, 1)])
        .thread(&[store(1, RELAXED, 2)]);
    hand("bound-walks-on", 1, program)
        .shows("the second backtrack passes a switch that does not explore: opened 2")
        .bound(1)
        .limits(64, 64, 1)
}

/// Backtracking for a thread that could not run there.
fn disabled() -> Vec<Hand> {
    let three = |first: &[Row], second: Row, third: Row| {
        Program::new(&[0, 0]).thread(first).thread(&[second]).thread(&[third])
    };
    let (read, write) = (load(0, RELAXED, 0), store(0, RELAXED, 1));
    let nothing = || two(&[write], &[store(0, RELAXED, 2)]);
    vec![
        hand("disabled-blocked", 0, three(&[join(2), write], read, load(1, RELAXED, 0)))
            .shows("the thread to go back for was blocked there: all Skip are explored"),
        hand("disabled-yield", 0, three(&[yields(), write], read, store(0, RELAXED, 2)))
            .shows("a thread that was yielding there is not explored"),
        hand("blocked-no-operation", 0, three(&[read, join(1)], write, fence(SEQ_CST)))
            .shows("a blocked thread has no pending operation: its last load opens nothing more"),
        hand("yielded-no-operation", 0, three(&[read, yields()], write, fence(SEQ_CST)))
            .shows("neither has one that yields"),
        hand("nothing-explores", 0, nothing())
            .shows("no record explores: backtracking finds nothing to mark")
            .quiet(),
        hand("nothing-explores-bound", 0, nothing())
            .shows("the same under a bound")
            .quiet()
            .bound(1),
    ]
}

/// The well-known small programs.
fn shapes() -> Vec<Hand> {
    let buffering = |order: u8| {
        two(&[store(0, order, 1), load(1, order, 0)], &[store(1, order, 1), load(0, order, 0)])
    };
    let fenced = two(
        &[store(0, RELAXED, 1), fence(SEQ_CST), load(1, RELAXED, 0)],
        &[store(1, RELAXED, 1), fence(SEQ_CST), load(0, RELAXED, 0)],
    );
    let loads_first = two(
        &[load(0, RELAXED, 0), store(1, RELAXED, 1)],
        &[load(1, RELAXED, 0), store(0, RELAXED, 1)],
    );
    vec![
        hand("buffering-relaxed", 0, buffering(RELAXED)).shows("store buffering, relaxed"),
        hand("buffering-seqcst", 0, buffering(SEQ_CST)).shows("store buffering, SeqCst"),
        hand("buffering-fenced", 0, fenced).shows("store buffering with SeqCst fences"),
        hand("loads-first", 0, loads_first).shows("load buffering"),
    ]
}

fn larger_shapes() -> Vec<Hand> {
    let lock = [
        compare(0, [ACQUIRE, RELAXED], 0, 0, 1),
        jump_if(0, 0, 4),
        yields(),
        jump(0),
        exclusive(1, ADD, 1, 1),
        store(0, RELEASE, 0),
    ];
    let independent = Program::new(&[0, 0])
        .thread(&[store(0, SEQ_CST, 1)])
        .thread(&[store(1, SEQ_CST, 1)])
        .thread(&[load(0, SEQ_CST, 0), load(1, SEQ_CST, 1)])
        .thread(&[load(1, SEQ_CST, 0), load(0, SEQ_CST, 1)]);
    vec![
        hand("lock", 0, two(&lock, &lock))
            .shows("two threads that take a lock by compare and write")
            .limits(64, 64, 400),
        hand("independent-reads", 1, independent)
            .shows("independent reads of independent writes, SeqCst")
            .limits(64, 64, 100),
    ]
}
