//! The fixed list of answers: hand-built cases first, then generated ones whose lines are short; at the
//! end those with a condition.

use crate::format::{answered, Case};
use crate::hand::{self, Hand};
use crate::run::by_oracle;
use std::io::{self, Write};

/// The seed of the list's generated cases.
pub const SEED: u64 = 1;
/// How many generated cases the list has.
pub const GENERATED: usize = 1_500;
/// A generated case goes in if its line is no longer than this.
const SHORT: usize = 1_000;
/// One in so many may be longer, up to `LONG`: what needs long paths shall not be missing.
const SELDOM: u64 = 24;
const LONG: usize = 3_000;
/// The same goes for the first so many cases of each answer.
const FIRST: usize = 12;
/// Refusals have the shortest lines, and the hand-built cases show them all: so many generated ones
/// of each go in.
const REFUSALS: usize = 30;
/// The seed of the generated cases with a condition: another one, since those above have names too.
pub const CLAIMED_SEED: u64 = 2;
/// How many of them go in, so many of them with answer 18.
pub const CLAIMED: usize = 12;
const UNMET: usize = 6;

const HEADER: &str = "\
# Answers of the oracle, made by: cargo run --release -p cases -- list > ../crates/replay/stdin
# (in the directory of the Rust workspace). cases/FORMAT.md describes the format; in brief:
# one case a line, fields separated by one space:
# NAME B L N BOUND EXPLORING PATH TRACE LIST TABLE, then the answer: 29 numbers (answer, executions
# begun, choices opened, choices open, rows begun, thread, row, race kind, other thread, and state,
# rows begun, yields, own version of each of five threads), the digest of the whole history, LIST'
# PATH' TRACE'. PATH, TRACE and LIST are lengths; '-' is none; tables and buffers are hex, a buffer
# without the zero bytes at its end; '=' is unchanged, '+' the five summaries. Byte i of a buffer is
# (7 i + 90) mod 256 before the run. The cases at the end have one field more, the last: their final
# condition, hex.
";

/// Writes the whole list. An error inside is a fault of the oracle.
pub fn write(out: &mut impl Write) -> io::Result<Result<(), String>> {
    match lines() {
        Ok(lines) => {
            out.write_all(HEADER.as_bytes())?;
            lines.iter().try_for_each(|line| writeln!(out, "{line}")).map(Ok)
        }
        Err(fault) => Ok(Err(fault)),
    }
}

/// Every line behind the header.
fn lines() -> Result<Vec<String>, String> {
    let (bare, claimed): (Vec<Hand>, Vec<Hand>) =
        hand::all().into_iter().partition(|hand| hand.case.condition.is_empty());
    let mut lines = Vec::new();
    for hand in &bare {
        lines.extend(hand_lines(hand)?);
    }
    lines.push(format!("# Generated cases of seed {SEED} with short answers."));
    for line in Generated::default().take(GENERATED) {
        lines.push(line?);
    }
    lines.push(format!(
        "# Cases with a condition: hand-built ones, then generated ones of seed {CLAIMED_SEED}."
    ));
    for hand in &claimed {
        lines.extend(hand_lines(hand)?);
    }
    lines.extend(claimed_lines()?);
    Ok(lines)
}

/// What a hand-built case shows, and the case.
fn hand_lines(hand: &Hand) -> Result<[String; 2], String> {
    let answer = by_oracle(&hand.case)?;
    Ok([format!("# {}", hand.shows), answered(&hand.case, &answer)])
}

/// The first generated cases with a condition whose lines are short, half of them unmet, and no refusal.
fn claimed_lines() -> Result<Vec<String>, String> {
    let (mut lines, mut unmet) = (Vec::new(), 0);
    let cases = (0..).map(|index| crate::case(CLAIMED_SEED, index));
    for case in cases.filter(|case| !case.condition.is_empty()) {
        if lines.len() == CLAIMED {
            break;
        }
        let answer = by_oracle(&case)?;
        let line = answered(&case, &answer);
        let is_unmet = answer.numbers[0] == 18;
        let others = lines.len() - unmet;
        let full = if is_unmet { unmet == UNMET } else { others == CLAIMED - UNMET };
        let refused = (2..=5).contains(&answer.numbers[0]);
        if line.len() <= SHORT && !full && !refused {
            unmet += usize::from(is_unmet);
            lines.push(line);
        }
    }
    Ok(lines)
}

/// The lines of the generated cases that go in, without end. None has a condition here.
#[derive(Default)]
struct Generated {
    index: u64,
    /// How many went in, by answer.
    taken: [usize; 19],
}

impl Generated {
    fn takes(&mut self, line: &str, answer: usize) -> bool {
        let taken = &mut self.taken[answer];
        let may_be_long = self.index.is_multiple_of(SELDOM) || *taken < FIRST;
        let fits = line.len() <= if may_be_long { LONG } else { SHORT };
        let refused = (2..=5).contains(&answer);
        let takes = fits && !(refused && *taken >= REFUSALS);
        *taken += usize::from(takes);
        takes
    }
}

impl Iterator for Generated {
    type Item = Result<String, String>;

    fn next(&mut self) -> Option<Self::Item> {
        loop {
            let case = Case { condition: Vec::new(), ..crate::case(SEED, self.index) };
            let answer = match by_oracle(&case) {
                Ok(answer) => answer,
                Err(fault) => return Some(Err(fault)),
            };
            let line = format!("{case} {answer}");
            let takes = self.takes(&line, answer.numbers[0] as usize);
            self.index += 1;
            if takes {
                return Some(Ok(line));
            }
        }
    }
}
