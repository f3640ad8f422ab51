//! The generated texts, and the reader and writer over generated programs.

use cases::condition::{depth, words, DEEPEST, LONGEST};
use cases::format::Case;
use cases::run::by_oracle;
use cases::texts::{large, text};
use oracle::limits::MAX_ROWS;
use std::collections::HashMap;
use text::{read, write, Program, Refused, CELLS, ROWS, THREADS};

const TEXTS: u64 = 10_000;

#[test]
fn both_kinds_come_up() {
    let (mut taken, mut claimed) = (0, 0);
    let mut lines: HashMap<u64, u64> = HashMap::new();
    for index in 0..TEXTS {
        match read(&text(1, index)) {
            Ok(program) => {
                taken += 1;
                claimed += u64::from(!program.condition.is_empty());
            }
            Err(Refused(place)) => *lines.entry(place.line).or_default() += 1,
        }
    }
    assert!(taken > TEXTS / 3 && taken < TEXTS * 2 / 3, "{taken}");
    assert!(claimed > TEXTS / 8, "{claimed}");
    // Refused at the first line, further on, and far down.
    assert!((1..=20).all(|line| lines.get(&line) >= Some(&20)), "{lines:?}");
}

/// The large ones come up to each limit, and past it.
#[test]
fn the_limits_are_met() {
    let (mut taken, mut full, mut longest, mut deepest, mut rows) = (0, 0, 0, 0, 0);
    for index in 0..TEXTS {
        let Ok(program) = read(&large(1, index)) else {
            continue;
        };
        taken += 1;
        full += u64::from(program.table.len() == 8 + 8 * CELLS + 24 * THREADS * ROWS);
        rows += u64::from(usize::from(program.table[2]) == ROWS);
        // A condition has an odd number of bytes.
        longest += u64::from(program.condition.len() == LONGEST - 1);
        let words = words(&program.condition).expect("words");
        deepest += u64::from(depth(&words) == DEEPEST);
    }
    assert!(taken > TEXTS / 4 && taken < TEXTS * 3 / 4, "{taken}");
    assert!(full > 10 && rows > 1_000, "{full} {rows}");
    assert!(longest > 100 && deepest > 100, "{longest} {deepest}");
}

#[test]
fn what_is_read_is_written_and_read_again() {
    for index in 0..TEXTS {
        let text = text(2, index);
        let Ok(program) = read(&text) else {
            continue;
        };
        let written = write(&program.table, &program.condition).expect("a text");
        assert_eq!(read(&written).as_ref(), Ok(&program));
        let lines = written.iter().filter(|&&byte| byte == b'\n').count();
        assert!(lines <= 1 + 5 + 5 * MAX_ROWS + 1);
    }
}

/// The writer refuses what the oracle refuses by answer 5, and nothing else.
#[test]
fn a_case_is_written_exactly_if_the_oracle_takes_it() {
    let (mut written, mut refused) = (0, 0);
    for index in 0..TEXTS {
        let case = cases::case(3, index);
        // Whatever settings and buffers it has.
        let settings = terms::Settings {
            branches: 1,
            operations: 1,
            executions: 1,
            bound: None,
            exploring: true,
        };
        let case = Case { settings, path: 16, trace: 16, list: None, ..case };
        let taken = by_oracle(&case).expect("an answer").numbers[0] != 5;
        let text = write(&case.table, &case.condition);
        assert_eq!(text.is_some(), taken, "{case}");
        let Some(text) = text else {
            refused += 1;
            continue;
        };
        written += 1;
        let same = Program { table: case.table, condition: case.condition };
        assert_eq!(read(&text), Ok(same));
    }
    assert!(written > TEXTS / 2 && refused > TEXTS / 10, "{written} {refused}");
}

/// A refusal names a place in the text or at its end; what stands before that place is refused at no
/// earlier one.
#[test]
fn a_refusal_names_the_first_place() {
    let (mut refusals, mut cut_off) = (0, 0);
    for index in 0..TEXTS {
        let text = text(4, index);
        let Err(Refused(place)) = read(&text) else {
            continue;
        };
        refusals += 1;
        let lines: Vec<&[u8]> = text.split(|&byte| byte == b'\n').collect();
        let (before, from) = lines.split_at(place.line as usize - 1);
        assert!((1..=from[0].len() as u64 + 1).contains(&place.column), "{text:?}");
        // Without what follows there are fewer threads and rows to be named.
        if text.windows(4).any(|four| four == b"join" || four == b"jump") {
            continue;
        }
        cut_off += 1;
        let at =
            before.iter().map(|line| line.len() + 1).sum::<usize>() + place.column as usize - 1;
        if let Err(Refused(earlier)) = read(&text[..at]) {
            assert!(earlier >= place, "{text:?}");
        }
    }
    assert!(refusals > TEXTS / 3 && cut_off > TEXTS / 8, "{refusals} {cut_off}");
}

/// How many rows of its thread stand before a line, in a text that was refused there and not earlier.
fn rows_before(lines: &[&str]) -> usize {
    let bare = lines.iter().rev().map(|line| line.split('#').next().unwrap_or("").trim());
    bare.filter(|line| !line.is_empty()).take_while(|line| *line != "thread").count()
}

/// A row that jumps to itself is refused at its own number.
#[test]
fn jumps_to_their_own_row_come_up() {
    let mut refused = 0;
    for index in 0..TEXTS {
        let text = text(5, index);
        let Err(Refused(place)) = read(&text) else {
            continue;
        };
        let text = String::from_utf8_lossy(&text);
        let lines: Vec<&str> = text.split('\n').take(place.line as usize).collect();
        let (line, before) = lines.split_last().expect("the line that is named");
        let own = rows_before(before).to_string();
        let token = line.get(place.column as usize - 1..).unwrap_or("");
        let number = token.split(|c: char| !c.is_ascii_digit()).next();
        refused += u64::from(line.trim().starts_with("jump") && number == Some(&own));
    }
    assert!(refused > TEXTS / 400, "{refused}");
}
