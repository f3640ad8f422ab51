//! The time of crate vv's comparisons alone, beside the forms that they had before request §2: those
//! of vectors.rattle, which the script `run` makes a static library of.

use std::hint::black_box;
use std::time::{Duration, Instant};

type Row = [u16; 5];
type Entry = unsafe extern "C" fn(*const Row, *const Row) -> u64;

mod entry {
    use super::Row;

    extern "C" {
        pub fn vectors_nothing(a: *const Row, b: *const Row) -> u64;
        pub fn vectors_at_most(a: *const Row, b: *const Row) -> u64;
        pub fn vectors_at_most_before(a: *const Row, b: *const Row) -> u64;
        pub fn vectors_equal(a: *const Row, b: *const Row) -> u64;
        pub fn vectors_equal_before(a: *const Row, b: *const Row) -> u64;
        pub fn vectors_less(a: *const Row, b: *const Row) -> u64;
        pub fn vectors_less_before(a: *const Row, b: *const Row) -> u64;
        pub fn vectors_partial_cmp(a: *const Row, b: *const Row) -> u64;
        pub fn vectors_partial_cmp_before(a: *const Row, b: *const Row) -> u64;
        pub fn vectors_ahead(a: *const Row, b: *const Row) -> u64;
        pub fn vectors_ahead_before(a: *const Row, b: *const Row) -> u64;
        pub fn vectors_ahead_one_walk(a: *const Row, b: *const Row) -> u64;
    }
}

/// A comparison in one form, and what it should answer for two vectors.
struct Form {
    name: &'static str,
    entry: Entry,
    answer: fn(&Row, &Row) -> u64,
}

const FORMS: [Form; 12] = [
    Form { name: "a call", entry: entry::vectors_nothing, answer: |a, b| (a[4] == b[0]).into() },
    Form { name: "less, before", entry: entry::vectors_less_before, answer: less },
    Form { name: "less", entry: entry::vectors_less, answer: less },
    Form { name: "partial_cmp, before", entry: entry::vectors_partial_cmp_before, answer: order },
    Form { name: "partial_cmp", entry: entry::vectors_partial_cmp, answer: order },
    Form { name: "equal, before", entry: entry::vectors_equal_before, answer: equal },
    Form { name: "equal", entry: entry::vectors_equal, answer: equal },
    Form { name: "at_most, before", entry: entry::vectors_at_most_before, answer: at_most },
    Form { name: "at_most", entry: entry::vectors_at_most, answer: at_most },
    Form { name: "ahead, before", entry: entry::vectors_ahead_before, answer: ahead },
    Form { name: "ahead", entry: entry::vectors_ahead, answer: ahead },
    Form { name: "ahead, one walk", entry: entry::vectors_ahead_one_walk, answer: ahead },
];

fn at_most(a: &Row, b: &Row) -> u64 {
    a.iter().zip(b).all(|(mine, theirs)| mine <= theirs).into()
}

fn equal(a: &Row, b: &Row) -> u64 {
    (a == b).into()
}

fn less(a: &Row, b: &Row) -> u64 {
    at_most(a, b) & u64::from(a != b)
}

/// 0 for less, 1 for equal, 2 for neither.
fn order(a: &Row, b: &Row) -> u64 {
    if at_most(a, b) == 0 {
        2
    } else {
        equal(a, b)
    }
}

/// The lowest thread whose part in the first is greater: the entries ask the second vector, so that a
/// greater part of the first decides everywhere.
fn ahead(a: &Row, b: &Row) -> u64 {
    (0..5).find(|&t| b[t] < a[t]).unwrap_or(5) as u64
}

/// Two vectors that are equal but for what decides.
type Pair = [Row; 2];

pub const CASES: [&str; 5] = ["equal", "first part", "last part", "less", "mixed"];

/// Pairs of a case: the first vector is greater in its first part, or in its last; or one part, by
/// chance, is less; or each pair is of another case, by chance.
fn pairs(case: usize) -> Vec<Pair> {
    let mut state = 1u64;
    let mut draw = move |below: u64| {
        state = state.wrapping_mul(6364136223846793005).wrapping_add(1442695040888963407);
        ((state >> 33) % below) as usize
    };
    let mut pair = || {
        let row: Row = std::array::from_fn(|_| 1 + draw(100) as u16);
        let mut pair = [row, row];
        match if case == 4 { draw(4) } else { case } {
            0 => {}
            1 => pair[0][0] += 1,
            2 => pair[0][4] += 1,
            _ => pair[0][draw(5)] -= 1,
        }
        pair
    };
    (0..PAIRS).map(|_| pair()).collect()
}

/// Few enough for the nearest cache.
const PAIRS: usize = 1024;
const ROUNDS: usize = 1000;

/// The best time of a call, in nanoseconds, by form and case; or which form answers wrongly.
pub fn times() -> Result<Vec<(&'static str, [f64; CASES.len()])>, String> {
    let mut best = [[Duration::MAX; CASES.len()]; FORMS.len()];
    for case in 0..CASES.len() {
        let pairs = pairs(case);
        for form in &FORMS {
            if pairs.iter().any(|[a, b]| form.ask(a, b) != (form.answer)(a, b)) {
                return Err(format!("{} answers wrongly: {}", form.name, CASES[case]));
            }
        }
        for _ in 0..ROUNDS {
            for (form, best) in FORMS.iter().zip(&mut best) {
                let start = Instant::now();
                for [a, b] in &pairs {
                    black_box(form.ask(a, b));
                }
                best[case] = best[case].min(start.elapsed());
            }
        }
    }
    let call = |time: Duration| time.as_secs_f64() * 1e9 / PAIRS as f64;
    Ok(FORMS.iter().zip(best).map(|(form, best)| (form.name, best.map(call))).collect())
}

impl Form {
    fn ask(&self, a: &Row, b: &Row) -> u64 {
        // SAFETY: an entry takes two rows of five numbers and keeps neither.
        unsafe { (self.entry)(a, b) }
    }
}
