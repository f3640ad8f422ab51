//! The hand-built cases answer what they were built for, and P1 to P7 to the last number.

use cases::compare::both;
use cases::format::{Answer, Left};
use cases::hand::{all, Hand};
use cases::run::by_oracle;
use std::collections::HashSet;

fn named(name: &str) -> Hand {
    let found = all().into_iter().find(|hand| hand.case.name == name);
    found.unwrap_or_else(|| panic!("no case {name}"))
}

fn answered(name: &str) -> Answer {
    by_oracle(&named(name).case).expect("an answer")
}

#[test]
fn names_are_different() {
    let mut names = HashSet::new();
    for hand in all() {
        assert!(names.insert(hand.case.name.clone()), "{} twice", hand.case.name);
    }
}

#[test]
fn each_gives_the_answer_it_is_built_for() {
    let mut wrong = Vec::new();
    for hand in all() {
        let numbers = by_oracle(&hand.case).expect("an answer").numbers;
        if numbers[0] != hand.answer {
            wrong.push(format!(
                "{} ({}): {} built for {}: {numbers:?}",
                hand.case.name, hand.shows, numbers[0], hand.answer
            ));
        }
    }
    assert!(wrong.is_empty(), "{}", wrong.join("\n"));
}

/// The number that follows, or stands before, a word of a text.
fn number_beside(text: &str, word: &str, before: bool) -> Option<u64> {
    let words: Vec<&str> = text.split([' ', ',', ':', ';']).collect();
    let at = words.iter().position(|w| *w == word)?;
    let beside = if before { at.checked_sub(1)? } else { at + 1 };
    words.get(beside)?.parse().ok()
}

/// Where the line about a case names a race kind, another thread or a number of executions, the
/// answer has it.
#[test]
fn what_is_said_of_a_case_is_so() {
    let mut looked_at = 0;
    for hand in all() {
        let numbers = by_oracle(&hand.case).expect("an answer").numbers;
        let said = [
            (number_beside(&hand.shows, "kind", false), 7),
            (number_beside(&hand.shows, "other", false), 8),
            (number_beside(&hand.shows, "executions", true), 1),
            (number_beside(&hand.shows, "execution", true), 1),
            (number_beside(&hand.shows, "opened", false), 2),
            (number_beside(&hand.shows, "open", false), 3),
        ];
        for (number, at) in said.into_iter().filter(|(number, _)| number.is_some()) {
            assert_eq!(number, Some(numbers[at]), "{}: {}", hand.case.name, hand.shows);
            looked_at += 1;
        }
    }
    assert!(looked_at > 30);
}

/// A case's trace, cut into entries; the zeros that the text leaves out are put back.
fn trace(answer: &Answer) -> Vec<[u8; 16]> {
    records(&answer.trace)
}

fn records(left: &Left) -> Vec<[u8; 16]> {
    let Left::Bytes(bytes) = left else {
        panic!("unchanged");
    };
    let whole = |part: &[u8]| {
        let mut record = [0; 16];
        record[..part.len()].copy_from_slice(part);
        record
    };
    bytes.chunks(16).map(whole).collect()
}

#[test]
fn p1_and_p2_to_the_byte() {
    let p1 = answered("P1");
    assert_eq!(p1.numbers[..9], [0, 1, 0, 0, 1, 255, 255, 0, 255]);
    assert_eq!(p1.numbers[9..13], [4, 1, 0, 3]);
    let mut entry = [0; 16];
    (entry[4], entry[8]) = (1, 7);
    assert_eq!(trace(&p1), [entry]);
    let first = [1, 1, 4, 0, 0, 0, 0, 0, 0, 255, 255, 0, 0, 0, 0, 0];
    let second = [2, 1, 0, 0, 0, 0, 0, 0, 0, 0, 1, 0, 0, 0, 0, 0];
    let third = [1, 1, 0, 0, 0, 0, 0, 0, 255, 0, 0, 0, 0, 0, 0, 0];
    assert_eq!(records(&p1.path), [first, second, third]);
    let p2 = answered("P2");
    assert_eq!(p2.numbers[..9], [11, 1, 0, 0, 1, 0, 1, 0, 255]);
    assert_eq!(records(&p2.path), [first, second]);
}

#[test]
fn p3_to_p11() {
    assert_eq!(answered("P3").numbers[..4], [0, 5, 4, 0]);
    assert_eq!(answered("P4").numbers[..2], [0, 2]);
    assert_eq!(answered("P5").numbers[..2], [0, 3]);
    assert_eq!(answered("P6").numbers[..9], [10, 1, 0, 0, 1, 255, 255, 0, 255]);
    assert_eq!(answered("P7").numbers[5..9], [1, 0, 1, 0]);
    assert_eq!(answered("P8").numbers[5..9], [2, 3, 2, 0]);
    for name in ["P9", "P10", "P11"] {
        // The entry of the load that follows the change.
        let left = trace(&answered(name))[2];
        let expected: u64 = if name == "P10" { (1 << 63) - 1 } else { 0 };
        assert_eq!(left[8..], expected.to_le_bytes(), "{name}");
    }
}

/// The values that thread 1 reads in P3, execution by execution: N cuts the run short.
#[test]
fn p3_reads_0_1_0_0_1() {
    let mut case = named("P3").case;
    for (n, expected) in [0, 1, 0, 0, 1].into_iter().enumerate() {
        case.settings.executions = n as u64 + 1;
        let answer = by_oracle(&case).expect("an answer");
        let read = trace(&answer).into_iter().find(|entry| entry[2] == 0);
        assert_eq!(read.expect("a load")[8], expected, "execution {}", n + 1);
    }
}

#[test]
fn each_race_kind_is_there() {
    for kind in 1..=12 {
        let numbers = answered(&format!("race-{kind}")).numbers;
        assert_eq!((numbers[7], numbers[8]), (kind, 0));
    }
    for kind in 10..=12 {
        let numbers = answered(&format!("race-{kind}-turned")).numbers;
        assert_eq!((numbers[5], numbers[7], numbers[8]), (0, kind, 1));
    }
    assert_eq!(answered("other-lowest").numbers[7..9], [2, 0]);
    assert_eq!(answered("other-made").numbers[7..9], [2, 1]);
    assert_eq!(answered("other-loaded-at").numbers[7..9], [6, 1]);
}

/// What a plain row's entry has, and that it raises no version.
#[test]
fn plain_rows_to_the_byte() {
    let answer = answered("plain-branches");
    let entry = |row: u8, opcode: u8, value: u8| {
        [0, row, opcode, 255, 0, 0, 0, 0, value, 0, 0, 0, 0, 0, 0, 0]
    };
    assert_eq!(trace(&answer), [entry(0, 17, 7), entry(1, 18, 1), entry(2, 17, 1)]);
    assert_eq!(records(&answer.path).len(), 1);
    assert_eq!(answer.numbers[9..13], [4, 3, 0, 2]);
    let raced = answered("plain-race-begun");
    assert_eq!(raced.numbers[..9], [14, 1, 0, 0, 3, 1, 1, 10, 0]);
    assert_eq!(trace(&raced).len(), 2);
}

/// The row that is refused for a jump to itself, and where one with a condition goes on.
#[test]
fn jumps_to_their_own_row_are_named() {
    let expected = [
        ("own-alone", [5, 0, 0]),
        ("own-first", [5, 0, 0]),
        ("own-later", [5, 0, 2]),
        ("own-second-thread", [5, 1, 0]),
        ("own-last-thread", [5, 4, 1]),
        ("own-last-row", [5, 0, 63]),
        ("own-two", [5, 0, 1]),
        ("own-and-bad", [5, 0, 0]),
        ("own-not-bad", [5, 1, 0]),
        ("own-and-length", [5, 255, 255]),
        ("own-counted", [0, 255, 255]),
        ("own-if-held-0", [12, 1, 0]),
        ("own-if-held-1", [12, 1, 1]),
        ("own-if-not-held-0", [12, 1, 0]),
        ("own-if-not-held-1", [12, 1, 1]),
        ("own-if-unheld-0", [0, 255, 255]),
        ("own-if-unheld-1", [0, 255, 255]),
        ("own-if-not-unheld-0", [0, 255, 255]),
        ("own-if-not-unheld-1", [0, 255, 255]),
        ("own-ring", [12, 0, 0]),
        ("own-before", [12, 1, 1]),
        ("own-after", [0, 255, 255]),
    ];
    for (name, named) in expected {
        let numbers = answered(name).numbers;
        assert_eq!([numbers[0], numbers[5], numbers[6]], named, "{name}");
    }
}

/// The schedulings that meet a full path or too many preemptions.
#[test]
fn faults_at_each_caller_of_the_scheduling() {
    let expected = [
        ("full-join", 1, 2, 1),
        ("full-yield", 1, 3, 2),
        ("full-end", 1, 4, 1),
        ("full-store", 1, 1, 1),
        ("preempted-yield", 4, 3, 1_029),
        ("preempted-join", 4, 2, 1_028),
        ("preempted-end", 7, 4, 1_029),
    ];
    for (name, row, state, entries) in expected {
        let answer = answered(name);
        assert_eq!((answer.numbers[5], answer.numbers[6]), (0, row), "{name}");
        assert_eq!(answer.numbers[9], state, "{name}");
        assert_eq!(trace(&answer).len(), entries, "{name}");
    }
    // Both would fit: preemptions 255, the record before it preempts, and no place is left.
    let answer = answered("preempted-full");
    let path = records(&answer.path);
    assert_eq!(path.len() as u64, named("preempted-full").case.settings.branches);
    let last = path.iter().rfind(|record| record[0] == 1).expect("a schedule record");
    assert_eq!((last[7], last[8], last[2]), (255, 1, 4));
}

/// The states of threads 0 and 1 where a yielder was picked, or gave way.
#[test]
fn a_picked_yielder_stays_yielded() {
    let expected = [
        ("picked-check", [3, 0]),
        ("picked-store", [3, 0]),
        ("picked-load", [3, 0]),
        ("picked-row", [3, 0]),
        ("picked-race", [3, 4]),
        ("picked-flag", [3, 0]),
        ("picked-through", [3, 4]),
        ("picked-blocked", [2, 0]),
        ("picked-freed", [1, 4]),
        ("picked-next", [3, 4]),
        ("picked-two", [1, 4]),
        ("picked-away", [4, 1]),
    ];
    for (name, states) in expected {
        let numbers = answered(name).numbers;
        assert_eq!([numbers[9], numbers[13]], states, "{name}");
    }
    let all = all();
    let named = all.iter().filter(|hand| hand.case.name.starts_with("picked-"));
    assert_eq!(named.count(), expected.len());
}

#[test]
fn oracle_and_plain_agree() {
    for hand in all() {
        let differences = both(&hand.case).expect("answers");
        assert!(differences.is_empty(), "{}: {differences:?}", hand.case.name);
    }
}
