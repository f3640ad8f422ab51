//! Running a case: buffers filled with a pattern before, looked at afterwards.

use crate::format::{Answer, Case, Left, ListLeft};
use std::panic::{catch_unwind, AssertUnwindSafe};
use terms::{Digest, Report, Summary};

/// The byte that stands at a place of a buffer before the run. It changes from place to place, so
/// that a buffer that was cleared, shifted or written in part cannot look unchanged.
pub fn pattern(place: usize) -> u8 {
    (place * 7 + 90) as u8
}

/// The record that stands at a place of the list before the run: no summary is like it.
pub fn list_pattern(place: usize) -> Summary {
    let first = 1_000_000 + 4 * place as u64;
    Summary { state: first, rows: first + 1, yields: first + 2, version: first + 3 }
}

/// Runs the oracle. An error is a fault of the oracle, never an answer.
pub fn by_oracle(case: &Case) -> Result<Answer, String> {
    run(case, "oracle", |path, trace, list| {
        oracle::explore_digest(&case.table, &case.condition, &case.settings, path, trace, list)
    })
}

/// Runs the plain implementation.
pub fn by_plain(case: &Case) -> Result<Answer, String> {
    run(case, "plain", |path, trace, list| {
        let mut digest = Digest::default();
        let history = |path: &[u8], trace: &[u8]| digest.execution(path, trace);
        let Case { table, condition, settings, .. } = case;
        let report = plain::explore_watched(table, condition, settings, path, trace, list, history);
        (report, digest.value())
    })
}

fn run<F>(case: &Case, who: &str, explore: F) -> Result<Answer, String>
where
    F: FnOnce(&mut [u8], &mut [u8], Option<&mut [Summary]>) -> (Report, u64),
{
    let mut path: Vec<u8> = (0..case.path).map(pattern).collect();
    let mut trace: Vec<u8> = (0..case.trace).map(pattern).collect();
    let mut list: Option<Vec<Summary>> = case.list.map(|n| (0..n).map(list_pattern).collect());
    let explored = catch_unwind(AssertUnwindSafe(|| {
        let list = list.as_deref_mut();
        explore(&mut path, &mut trace, list)
    }));
    let (report, digest) = explored.map_err(|_| format!("{who} panicked on: {case}"))?;
    let list = list_left(list.as_deref(), &report).ok_or_else(|| {
        format!("{who} left in the list neither its old records nor the summaries on: {case}")
    })?;
    Ok(Answer { numbers: report.numbers(), digest, list, path: left(path), trace: left(trace) })
}

fn left(mut bytes: Vec<u8>) -> Left {
    if bytes.iter().enumerate().all(|(i, &b)| b == pattern(i)) {
        return Left::Unchanged;
    }
    let used = bytes.iter().rposition(|&b| b != 0).map_or(0, |last| last + 1);
    bytes.truncate(used);
    Left::Bytes(bytes)
}

fn list_left(list: Option<&[Summary]>, report: &Report) -> Option<ListLeft> {
    let Some(list) = list else {
        return Some(ListLeft::Absent);
    };
    if list.iter().enumerate().all(|(i, s)| *s == list_pattern(i)) {
        return Some(ListLeft::Unchanged);
    }
    (list == report.threads).then_some(ListLeft::Summaries)
}

#[cfg(test)]
mod tests {
    use super::*;

    fn answer_of(
        explore: impl FnOnce(&mut [u8], &mut [u8], &mut [Summary]) -> Report,
    ) -> Result<Answer, String> {
        let case = Case { list: Some(5), ..crate::hand::all().swap_remove(0).case };
        run(&case, "it", |path, trace, list| (explore(path, trace, list.expect("a list")), 0))
    }

    #[test]
    fn a_panic_is_told_with_the_case() {
        let told = answer_of(|_, _, _| panic!("on purpose")).expect_err("a panic");
        assert!(told.starts_with("it panicked on: P1 3 1 10 - 1 48 16 5 0101"), "{told}");
    }

    #[test]
    fn a_list_with_anything_else_in_it_is_told() {
        let told = answer_of(|_, _, list| {
            list[4].version = 0;
            Report::refusal(2, 255, 255)
        });
        assert!(told.expect_err("an odd list").contains("neither"));
    }

    #[test]
    fn what_is_left_is_seen() {
        let refused = || Report::refusal(2, 255, 255);
        let untouched = answer_of(|_, _, _| refused()).expect("an answer");
        assert_eq!(untouched.path, Left::Unchanged);
        assert_eq!(untouched.list, ListLeft::Unchanged);
        let cleared = answer_of(|path, trace, list| {
            path.fill(0);
            trace[..15].fill(0);
            list.copy_from_slice(&refused().threads);
            refused()
        });
        let cleared = cleared.expect("an answer");
        assert_eq!(cleared.path, Left::Bytes(Vec::new()));
        let last = [vec![0; 15], vec![pattern(15)]].concat();
        assert_eq!(cleared.trace, Left::Bytes(last));
        assert_eq!(cleared.list, ListLeft::Summaries);
    }
}
