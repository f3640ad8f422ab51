//! Rows 13 to 15 and the start with exploring off.

use super::{hand, Hand};
use crate::table::*;

pub(super) fn all() -> Vec<Hand> {
    let mut all = wrong();
    all.extend(right());
    all.extend(skipping());
    all
}

fn one(rows: &[Row]) -> Program {
    Program::new(&[0]).thread(rows).thread(&[store(0, RELAXED, 9)])
}

fn wrong() -> Vec<Hand> {
    let later = Program::new(&[0]).thread(&[critical()]).thread(&[fence(SEQ_CST), critical()]);
    vec![
        hand("flag-critical", 16, one(&[fence(SEQ_CST), critical()]))
            .shows("critical when not exploring: begun, no entry")
            .quiet(),
        hand("flag-explore", 16, one(&[fence(SEQ_CST), explore_state()]))
            .shows("explore_state when exploring")
            .list(5),
        hand("flag-critical-twice", 16, one(&[critical(), critical()])).shows("critical twice"),
        hand("flag-explore-twice", 16, one(&[explore_state(), explore_state()]))
            .shows("explore_state twice")
            .quiet(),
        hand("flag-shared", 16, later).shows("the flags are one pair for all threads"),
    ]
}

fn right() -> Vec<Hand> {
    let shut = |rows: &[Row]| Program::new(&[0]).thread(rows).thread(&[store(0, RELAXED, 1)]);
    vec![
        hand(
            "flag-shut",
            0,
            shut(&[critical(), load(0, RELAXED, 0), spurious(1), explore_state()]),
        )
        .shows("what stands between critical and explore_state opens nothing"),
        hand(
            "flag-open",
            0,
            shut(&[explore_state(), load(0, RELAXED, 0), critical(), spurious(1)]),
        )
        .shows("exploring off on start, on for one row")
        .quiet(),
        hand("flag-quiet", 0, shut(&[load(0, RELAXED, 0), spurious(1)]))
            .shows("exploring off on start and never on: 1 execution")
            .quiet(),
        hand("flag-reset", 0, shut(&[spurious(0), critical(), load(0, RELAXED, 0)]))
            .shows("the flags are reset with each execution"),
        hand(
            "flag-load-only",
            0,
            Program::new(&[0])
                .thread(&[store(0, RELAXED, 1), load(0, RELAXED, 0), critical()])
                .thread(&[load(0, RELAXED, 0), load(0, RELAXED, 1)]),
        )
        .shows("the schedule record explores, the load record does not"),
    ]
}

fn skipping() -> Vec<Hand> {
    let skips = |rows: &[Row]| Program::new(&[0]).thread(rows).thread(&[load(0, RELAXED, 0)]);
    let some = Program::new(&[0])
        .thread(&[load(0, RELAXED, 0), jump_if(0, 0, 3), skip_branch(), store(0, RELAXED, 2)])
        .thread(&[store(0, RELAXED, 1), load(0, RELAXED, 0)]);
    vec![
        hand("skip-critical", 0, skips(&[skip_branch(), critical(), critical()]))
            .shows("when skipping, critical completes and changes nothing"),
        hand(
            "skip-explore",
            0,
            skips(&[skip_branch(), explore_state(), explore_state(), spurious(0)]),
        )
        .shows("when skipping, explore_state completes and changes nothing"),
        hand("skip-quiet", 0, skips(&[skip_branch(), critical(), explore_state(), spurious(0)]))
            .shows("the same with exploring off on start")
            .quiet(),
        hand("skip-twice", 0, skips(&[skip_branch(), skip_branch(), store(0, RELAXED, 1)]))
            .shows("skip_branch may be repeated")
            .list(5),
        hand("skip-some", 0, some).shows("skipping ends with its execution"),
        hand(
            "skip-once",
            16,
            skips(&[spurious(0), jump_if(0, 1, 3), skip_branch(), critical(), critical()]),
        )
        .shows(
            "critical twice is right in the first execution, which skips, and wrong in the second",
        ),
        hand("skip-late", 0, skips(&[spurious(0), store(0, RELAXED, 1), skip_branch()]))
            .shows("records before skip_branch go on exploring"),
    ]
}
