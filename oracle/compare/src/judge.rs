//! What an explorer in Rust answers, and how the library's answer differs from it.

use crate::library::Left;
use cases::format::{field_name, Case, CASE_FIELDS};
use cases::run::pattern;
use std::panic::{catch_unwind, AssertUnwindSafe};
use terms::{Report, Settings, NUMBERS};

/// The answer that is right.
pub struct Expected {
    /// Who gave it.
    pub who: &'static str,
    pub numbers: [u64; NUMBERS],
    pub path: Vec<u8>,
    pub trace: Vec<u8>,
}

/// The oracle's answer. An error is a fault of the oracle, never an answer.
pub fn by_oracle(case: &Case) -> Result<Expected, String> {
    by(case, "oracle", |table, condition, settings, path, trace| {
        oracle::explore(table, condition, settings, path, trace, None, &mut |_, _| ())
    })
}

/// The plain implementation's answer.
pub fn by_plain(case: &Case) -> Result<Expected, String> {
    by(case, "plain", plain::explore)
}

/// The library's entries take no thread list, so none is passed here either.
fn by<F>(case: &Case, who: &'static str, explore: F) -> Result<Expected, String>
where
    F: FnOnce(&[u8], &[u8], &Settings, &mut [u8], &mut [u8]) -> Report,
{
    let mut path: Vec<u8> = (0..case.path).map(pattern).collect();
    let mut trace: Vec<u8> = (0..case.trace).map(pattern).collect();
    let explored = catch_unwind(AssertUnwindSafe(|| {
        explore(&case.table, &case.condition, &case.settings, &mut path, &mut trace)
    }));
    let report = explored.map_err(|_| format!("{who} panicked on: {case}"))?;
    Ok(Expected { who, numbers: report.numbers(), path, trace })
}

/// Says what differs, one line each; nothing where all is equal.
pub fn differences(expected: &Expected, left: &Left) -> Vec<String> {
    let mut all: Vec<String> = left.broken.iter().map(|name| format!("{name}: written")).collect();
    let who = expected.who;
    if left.report.first() != Some(&left.returned) {
        all.push(format!("returned {}, which is not the report's answer", left.returned));
    }
    for (i, (a, b)) in expected.numbers.iter().zip(&left.report).enumerate() {
        if a != b {
            all.push(format!("{}: {who} {a}, library {b}", field_name(CASE_FIELDS + i)));
        }
    }
    all.extend(bytes_differ("path", who, &expected.path, &left.path));
    all.extend(bytes_differ("trace", who, &expected.trace, &left.trace));
    all
}

/// The first byte that differs, by its record, and how many do.
fn bytes_differ(name: &str, who: &str, expected: &[u8], left: &[u8]) -> Option<String> {
    let differ = |place: &usize| expected.get(*place) != left.get(*place);
    let mut places = (0..expected.len().max(left.len())).filter(differ);
    let first = places.next()?;
    let (record, byte) = (first / 16, first % 16);
    let shown = |bytes: &[u8]| bytes.get(first).map_or("none".to_string(), u8::to_string);
    Some(format!(
        "{name} record {record}, byte {byte}: {who} {}, library {}; {} bytes differ",
        shown(expected),
        shown(left),
        1 + places.count()
    ))
}

#[cfg(test)]
mod tests {
    use super::*;

    fn right() -> Expected {
        let case = &cases::hand::all().swap_remove(0).case;
        by_oracle(case).expect("an answer")
    }

    fn copy(expected: &Expected) -> Left {
        Left {
            returned: expected.numbers[0],
            report: expected.numbers.to_vec(),
            path: expected.path.clone(),
            trace: expected.trace.clone(),
            broken: Vec::new(),
        }
    }

    #[test]
    fn equal_answers_do_not_differ() {
        let expected = right();
        assert!(differences(&expected, &copy(&expected)).is_empty());
    }

    #[test]
    fn every_number_and_byte_counts() {
        let expected = right();
        for place in 0..NUMBERS {
            let mut left = copy(&expected);
            left.report[place] += 1;
            assert!(!differences(&expected, &left).is_empty(), "number {place}");
        }
        for place in 0..expected.path.len() {
            let mut left = copy(&expected);
            left.path[place] ^= 128;
            assert!(!differences(&expected, &left).is_empty(), "path byte {place}");
        }
        for place in 0..expected.trace.len() {
            let mut left = copy(&expected);
            left.trace[place] ^= 128;
            assert!(!differences(&expected, &left).is_empty(), "trace byte {place}");
        }
    }

    #[test]
    fn returned_number_length_and_guards_count() {
        let expected = right();
        let mut left = copy(&expected);
        left.returned = 255;
        assert_eq!(differences(&expected, &left).len(), 1);
        let mut left = copy(&expected);
        left.trace.push(0);
        assert_eq!(differences(&expected, &left).len(), 1);
        let mut left = copy(&expected);
        left.broken.push("a guard");
        assert_eq!(differences(&expected, &left), ["a guard: written"]);
    }
}
