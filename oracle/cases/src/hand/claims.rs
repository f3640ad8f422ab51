//! Final conditions: where they are judged, what they mean, and which are refused.

use super::{hand, Hand};
use crate::condition::*;
use crate::table::{
    check, join, jump_if, load, rmw, spurious, store, yields, Program, ADD, RELAXED,
};
use std::slice;

pub(super) fn all() -> Vec<Hand> {
    let mut all = judged();
    all.extend(beside_other_answers());
    all.extend(meanings());
    all.extend(limits());
    all.extend(refused());
    all
}

/// P3: thread 1 reads 0, 1, 0, 0, 1 into register 0.
fn two() -> Program {
    Program::new(&[0]).thread(&[store(0, RELAXED, 1)]).thread(&[load(0, RELAXED, 0)])
}

/// One thread whose register 0 is 0 in the first execution and 1 in the second.
fn either() -> Program {
    Program::new(&[0]).thread(&[spurious(0)])
}

/// One thread that ends with 5, 6, 2^63 and 0 in its registers.
fn fixed() -> Program {
    Program::new(&[5, 6, 1 << 63]).thread(&[
        load(0, RELAXED, 0),
        load(1, RELAXED, 1),
        load(2, RELAXED, 2),
    ])
}

impl Hand {
    /// With this final condition.
    fn claims(mut self, words: &[Word]) -> Hand {
        self.case.condition = bytes(words);
        self
    }

    /// With these bytes for a final condition.
    fn claims_bytes(mut self, bytes: Vec<u8>) -> Hand {
        self.case.condition = bytes;
        self
    }
}

/// Where the run stops.
fn judged() -> Vec<Hand> {
    let shorter = Program::new(&[0]).thread(&[store(0, RELAXED, 1)]).thread(&[
        load(0, RELAXED, 0),
        jump_if(0, 1, 4),
        yields(),
        load(0, RELAXED, 1),
    ]);
    vec![
        hand("claim-held", 0, two())
            .shows("P3 with a condition that holds: 5 executions as without")
            .claims(&compared(AT_MOST, 1, 0, 1)),
        hand("claim-first", 18, two())
            .shows("P3 where the first execution's end is not as claimed: 1 execution")
            .claims(&differs(1, 0, 0)),
        hand("claim-second", 18, two())
            .shows("P3 where the second's is not: 2 executions, open is what is left open")
            .claims(&equals(1, 0, 0))
            .list(5),
        hand("claim-bound", 18, two())
            .shows("the same with bound 0: 2 executions")
            .claims(&equals(1, 0, 0))
            .bound(0),
        hand("claim-quiet", 18, two())
            .shows("not exploring: 1 execution")
            .claims(&differs(1, 0, 0))
            .quiet(),
        hand("claim-shorter", 18, shorter)
            .shows("an execution with fewer rows than the one before it leaves no old bytes")
            .claims(&differs(1, 0, 1)),
        hand("claim-empty-thread", 18, Program::new(&[0]).thread(&[]).thread(&[]))
            .shows("threads without rows end with zeros: 1 execution")
            .claims(&compared(ABOVE, 1, 3, 0)),
    ]
}

/// Ahead of 0 and 1, behind every fault.
fn beside_other_answers() -> Vec<Hand> {
    let fails = Program::new(&[0]).thread(&[spurious(0), check(0, 0)]);
    vec![
        hand("claim-before-0", 18, either())
            .shows("false at the last end, where nothing is open: 18, not 0")
            .claims(&equals(0, 0, 0)),
        hand("claim-before-1", 18, either())
            .shows("false at the Nth end: 18, not 1")
            .claims(&equals(0, 0, 1))
            .limits(9, 9, 1),
        hand("claim-after-1", 1, either())
            .shows("the budget ends before it is false")
            .claims(&equals(0, 0, 0))
            .limits(9, 9, 1),
        hand("claim-fault", 15, fails.clone())
            .shows("a fault in an execution at whose end it would be false")
            .claims(&equals(0, 0, 0)),
        hand("claim-before-fault", 18, fails)
            .shows("false before the execution with the fault")
            .claims(&equals(0, 0, 1)),
        hand("claim-deadlock", 10, Program::new(&[0]).thread(&[join(0)]))
            .shows("a deadlock is no end")
            .claims(&differs(0, 0, 0)),
        hand("claim-branches", 11, fixed())
            .shows("the end's scheduling finds the path full")
            .claims(&differs(0, 0, 5))
            .limits(6, 9, 9),
        hand("claim-branches-enough", 18, fixed())
            .shows("the same with one branch more")
            .claims(&differs(0, 0, 5))
            .limits(7, 9, 9),
        hand("claim-rows", 12, Program::new(&[0]).thread(&[yields(), yields()]))
            .shows("a row that may not begin")
            .claims(&differs(0, 0, 0))
            .limits(9, 1, 9),
    ]
}

/// Signs, joints and groups.
fn meanings() -> Vec<Hand> {
    let mut all = Vec::new();
    let signs = [
        ("equals", EQUALS, [18, 0, 18]),
        ("differs", DIFFERS, [0, 18, 0]),
        ("below", BELOW, [18, 18, 0]),
        ("at-most", AT_MOST, [18, 0, 0]),
        ("above", ABOVE, [0, 18, 18]),
        ("at-least", AT_LEAST, [0, 0, 18]),
    ];
    for (name, sign, answers) in signs {
        for (number, answer) in (4..).zip(answers) {
            let shows = format!("register 0, which holds 5, {} {number}", SIGNS[sign as usize - 1]);
            all.push(
                hand(&format!("claim-{name}-{number}"), answer, fixed())
                    .shows(&shows)
                    .claims(&compared(sign, 0, 0, number))
                    .limits(9, 9, 9),
            );
        }
    }
    let [yes, no] = [equals(0, 0, 5), equals(0, 1, 5)];
    let counted = Program::new(&[0])
        .thread(&[rmw(0, RELAXED, ADD, 0, 1)])
        .thread(&[rmw(0, RELAXED, ADD, 0, 1)]);
    let outcome = |first: u64, second: u64| and(&[equals(0, 0, first), equals(1, 0, second)]);
    let fixed_ones = [
        ("unsigned", 0, "2^63 is above 1", compared(ABOVE, 0, 2, 1)),
        ("untouched", 0, "a register that no row writes holds 0", equals(0, 3, 0)),
        ("and", 0, "both", and(&[yes.clone(), equals(0, 1, 6)])),
        ("and-first", 18, "the first is false", and(&[no.clone(), yes.clone()])),
        ("and-last", 18, "the last is false", and(&[yes.clone(), yes.clone(), no.clone()])),
        ("or", 18, "neither", or(&[no.clone(), no.clone()])),
        ("or-first", 0, "the first is true", or(&[yes.clone(), no.clone()])),
        ("or-last", 0, "the last is true", or(&[no.clone(), no.clone(), yes.clone()])),
        ("one", 0, "a group of one", in_groups(1)),
        ("one-false", 18, "a group of one that is false", or(slice::from_ref(&no))),
        (
            "or-in-and",
            18,
            "groups of the other kind in a group",
            and(&[or(&[no.clone(), yes.clone()]), or(&[no.clone(), no.clone()])]),
        ),
        ("and-in-or", 0, "the other way round", or(&[and(&[yes.clone(), no]), and(&[yes])])),
    ];
    for (name, answer, shows, words) in fixed_ones {
        all.push(
            hand(&format!("claim-{name}"), answer, fixed())
                .shows(shows)
                .claims(&words)
                .limits(9, 9, 9),
        );
    }
    all.push(
        hand("claim-outcomes", 0, counted.clone())
            .shows("two additions: the outcomes that there are")
            .claims(&or(&[outcome(0, 1), outcome(1, 0)])),
    );
    all.push(
        hand("claim-outcome", 18, counted)
            .shows("two additions: one of the outcomes is left out")
            .claims(&or(&[outcome(0, 1), outcome(1, 1)])),
    );
    all
}

/// A condition that holds of `fixed`, in so many groups.
fn in_groups(groups: usize) -> Words {
    (0..groups).fold(equals(0, 0, 5), |words, _| and(&[words]))
}

/// So many comparisons that hold of `fixed`, in so many groups.
fn many(comparisons: usize, groups: usize) -> Words {
    let members = vec![equals(0, 0, 5); comparisons];
    (1..groups).fold(and(&members), |words, _| and(&[words]))
}

/// The deepest and the longest. A condition never has 1,024 bytes: with n comparisons and g groups it
/// has 12 n - 1 + 2 g.
fn limits() -> Vec<Hand> {
    let mut filled = bytes(&many(85, 2));
    filled.push(8);
    vec![
        hand("claim-deep-8", 0, fixed()).shows("eight groups in each other").claims(&in_groups(8)),
        hand("claim-deep-9", 5, fixed()).shows("nine").claims(&in_groups(9)),
        hand("claim-deep-8-beside", 0, fixed())
            .shows("groups side by side may be more than eight")
            .claims(&and(&[in_groups(7), in_groups(7), in_groups(1)])),
        hand("claim-deep-9-beside", 5, fixed())
            .shows("nine in the second of them")
            .claims(&and(&[in_groups(7), in_groups(8)])),
        hand("claim-1023", 0, fixed()).shows("the longest condition").claims(&many(85, 2)),
        hand("claim-1024", 5, fixed())
            .shows("1,024 bytes: a bracket behind it")
            .claims_bytes(filled),
        hand("claim-1025", 5, fixed())
            .shows("two bytes more than the longest")
            .claims(&many(85, 3)),
        hand("claim-1033", 5, fixed()).shows("one comparison more").claims(&many(86, 1)),
        hand("claim-1025-bytes", 5, fixed()).shows("1,025 zeros").claims_bytes(vec![0; 1_025]),
    ]
}

/// Bytes that are no condition. All but the first two are refused with thread and row 255.
fn refused() -> Vec<Hand> {
    let yes = || equals(0, 0, 5);
    let wrong = |name: &str, shows: &str, bytes: Vec<u8>| {
        hand(&format!("claim-{name}"), 5, fixed()).shows(shows).claims_bytes(bytes).limits(9, 9, 9)
    };
    let wrong_words = |name: &str, shows: &str, words: &[Word]| wrong(name, shows, bytes(words));
    let mut bad_row = wrong("after-row", "a bad row is named before it", vec![0]);
    bad_row.case.table[32] = 17;
    let mut bad_header = wrong("after-header", "with a bad header", vec![0]);
    bad_header.case.table[7] = 1;
    let mut bad_list = wrong("after-list", "a list of four records comes first", vec![0]).list(4);
    bad_list.answer = 4;
    let mut bad_limit = wrong("after-limits", "and so does a limit", vec![0]).limits(9, 0, 9);
    bad_limit.answer = 2;
    let grouped = |middle: &[Word]| [&[Word::Open][..], middle, &[Word::Close]].concat();
    let joined = |joints: &[Word]| {
        let mut words = yes();
        for &joint in joints {
            words.push(joint);
            words.extend(yes());
        }
        words
    };
    let one_more = |last: u8| [bytes(&yes()), vec![last]].concat();
    vec![
        bad_row,
        bad_header,
        bad_list,
        bad_limit,
        wrong("zero", "a byte that is no sign", vec![0]),
        wrong("eleven", "another", one_more(11).split_off(1)),
        wrong("cut", "a comparison without its last byte", bytes(&yes())[..10].to_vec()),
        wrong("sign-alone", "a sign and nothing behind it", vec![EQUALS]),
        wrong("more", "a byte behind it", one_more(0)),
        wrong("closed", "a bracket behind it", one_more(8)),
        wrong_words("thread", "a thread that there is not", &equals(1, 0, 5)),
        wrong_words("register", "a register that there is not", &equals(0, 4, 5)),
        wrong_words("bare-and", "a joint outside of a group", &joined(&[Word::And])),
        wrong_words("mixed", "both joints in a group", &grouped(&joined(&[Word::And, Word::Or]))),
        wrong_words("mixed-back", "the same", &grouped(&joined(&[Word::Or, Word::Or, Word::And]))),
        wrong_words("empty-group", "a group of none", &grouped(&[])),
        wrong_words("joint-first", "a joint without what is before it", &grouped(&[Word::Or])),
        wrong_words(
            "joint-last",
            "a joint without what is behind it",
            &grouped(&[yes(), vec![Word::And]].concat()),
        ),
        wrong_words("no-joint", "two side by side", &grouped(&[yes(), yes()].concat())),
        wrong_words("open", "a group that does not end", &[vec![Word::Open], yes()].concat()),
        wrong_words("two", "two groups", &[grouped(&yes()), grouped(&yes())].concat()),
    ]
}
