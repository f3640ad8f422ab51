//! The fixed list of answers is what the command prints now, and is as long as it should be.

use cases::format::{is_comment, read_answered};
use std::collections::{HashMap, HashSet};
use std::fs;

fn file() -> Vec<u8> {
    let path = concat!(env!("CARGO_MANIFEST_DIR"), "/../../crates/replay/stdin");
    fs::read(path).expect("the list stands with the program that replays it")
}

#[test]
fn the_file_is_what_the_command_prints() {
    let mut now = Vec::new();
    cases::list::write(&mut now).expect("memory takes all").expect("answers");
    // Not assert_eq: the whole list twice would be no message.
    assert!(now == file(), "the list is not what 'cases list' prints now");
}

#[test]
fn the_list_is_long_and_shows_every_answer() {
    let file = file();
    assert!(file.len() <= 2_500_000);
    let (mut names, mut answers) = (HashSet::new(), HashMap::new());
    let mut claimed = 0;
    for line in file.split(|&b| b == b'\n').filter(|line| !is_comment(line)) {
        let (case, answer) = read_answered(line).expect("a sound line");
        assert!(names.insert(case.name.clone()), "{} twice", case.name);
        *answers.entry(answer.numbers[0]).or_insert(0) += 1;
        // Those with a condition stand at the end.
        let claims = !case.condition.is_empty();
        assert!(claims || claimed == 0, "{} comes after a case with a condition", case.name);
        claimed += u64::from(claims);
    }
    assert!(names.len() >= 1_500);
    for answer in [0, 1, 2, 3, 4, 5, 10, 11, 12, 13, 14, 15, 16, 18] {
        assert!(answers[&answer] >= 5, "answer {answer}");
    }
    assert!(answers[&17] >= 1);
    assert!(claimed >= 20);
}
