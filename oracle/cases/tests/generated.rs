//! The generator brings up what it should, and both implementations agree on it.

use cases::compare::compare;
use cases::tally::{allowed, tally, Claims, OFTEN};

const CASES: u64 = 20_000;

#[test]
fn every_answer_and_row_comes_up() {
    for seed in [1, 2, 2024] {
        let tally = tally(seed, CASES).expect("answers");
        assert_eq!(tally.cases, CASES);
        assert!(tally.missing().is_empty(), "seed {seed}: {:?}", tally.missing());
        let kinds = &tally.races[1..];
        assert!(kinds.iter().all(|&n| n >= OFTEN), "seed {seed}: {kinds:?}");
        let done = &tally.done;
        assert!(done.opcodes.iter().all(|&n| n >= OFTEN), "{:?}", done.opcodes);
        assert!(done.changes.iter().flatten().all(|&n| n >= OFTEN), "{:?}", done.changes);
        for opcode in 0..5 {
            for order in 0..5 {
                let n = done.orders[opcode][order];
                assert_eq!(
                    n >= OFTEN,
                    allowed(opcode, order),
                    "opcode {opcode} order {order}: {n}"
                );
            }
        }
        assert!([0, 2, 4].iter().all(|&order| done.failures[order] >= OFTEN));
        assert!(tally.lists > CASES / 4 && tally.bounds > CASES / 4);
        assert!(tally.plains > CASES / 6, "seed {seed}: {}", tally.plains);
        assert!(tally.picked > CASES / 50, "seed {seed}: {}", tally.picked);
        assert!(tally.own_refused > CASES / 100, "seed {seed}: {}", tally.own_refused);
        assert!(tally.own_held.iter().all(|&n| n > CASES / 200), "{:?}", tally.own_held);
        conditions_come_up(&tally.claims);
    }
}

fn conditions_come_up(claims: &Claims) {
    assert!(claims.given > CASES / 5 && claims.given < CASES / 2, "{claims}");
    assert!(claims.held > CASES / 50 && claims.later > CASES / 100, "{claims}");
    assert!(claims.refused > CASES / 50, "{claims}");
    let words = claims.signs.iter().chain(&claims.joints).chain(&claims.depths);
    assert!(words.min() >= Some(&OFTEN), "{claims}");
}

#[test]
fn oracle_and_plain_agree() {
    let outcome = compare(77, CASES).expect("answers");
    let first = outcome.differing.first();
    assert!(
        first.is_none(),
        "{}",
        first.map_or(String::new(), |(_, case, what)| format!("{case}\n{what:?}"))
    );
    assert_eq!(outcome.agreed, CASES);
}

#[test]
fn a_case_depends_on_seed_and_index_alone() {
    assert_eq!(cases::case(9, 1_000), cases::case(9, 1_000));
    let lines: Vec<String> = (0..500).map(|index| cases::case(9, index).to_string()).collect();
    let backwards: Vec<String> =
        (0..500).rev().map(|index| cases::case(9, index).to_string()).collect();
    assert!(lines.iter().eq(backwards.iter().rev()));
    assert_ne!(cases::case(9, 1).table, cases::case(10, 1).table);
}

/// If this moves, every seed that was written down somewhere names other cases than before.
#[test]
fn cases_stay_the_same() {
    let line = cases::case(0, 0).to_string();
    assert_eq!(line, FIRST);
}

const FIRST: &str = "\
    g0.0 53 40 78 0 1 848 640 - \
    03020302020000000200000000000000020000000000000006000000090000000100000000000000\
    00000000000000000600000006030000ffffffff0000000000000000000000000601000001000000\
    03000000000000000000000000000000000000000000000000000000000000000000000000000000\
    05010000000000000000000000000000000000000000000001000000000000000100000000000000\
    0000000000000000010001000000000001000000000000000000000000000000";
