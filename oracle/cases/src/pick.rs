//! Small generated cases for the checker to compute, as even over the answers as can be had.

use crate::format::{Answer, Case};
use crate::run::by_oracle;
use crate::tally::Tally;

/// Executions begun times rows begun in the last is at most this: nineteen generated cases in twenty.
pub const MOST_WORK: u64 = 400;
/// The same for a hand-built case.
pub const MOST_HAND_WORK: u64 = 1_000;
/// Both buffers together have at most this many bytes: nineteen generated cases in twenty.
pub const MOST_BYTES: usize = 4_096;
/// A condition has at most this many bytes: all generated ones but one in forty.
pub const MOST_CONDITION: usize = 200;
/// Answers 0 to 18 are classes of cases, and the twelve race kinds, instead of 14.
const CLASSES: usize = 19 + 12;
/// So many generated cases are looked at for each one picked. Answer 13 is the rarest: a small case
/// of it comes up once in a thousand.
const LOOKED: u64 = 200;

/// A case with the oracle's answer.
pub type Answered = (Case, Answer);

/// The first so many small cases of a seed, no class beyond its share before every class that comes
/// up has its own. An error is a fault of the oracle.
pub fn pick(seed: u64, count: u64) -> Result<Vec<Answered>, String> {
    let mut taken = [0; CLASSES];
    let (mut picked, mut spare) = (Vec::new(), Vec::new());
    for index in 0..count.saturating_mul(LOOKED) {
        let missing = count - picked.len() as u64;
        let full = (0..CLASSES).all(|class| taken[class] >= share(count, class));
        if missing == 0 || full && spare.len() as u64 >= missing {
            break;
        }
        let case = crate::case(seed, index);
        if !fits(&case) {
            continue;
        }
        let answer = by_oracle(&case)?;
        let class = class(&answer);
        if work(&answer) > MOST_WORK || weight(class) == 0 {
            continue;
        }
        if taken[class] < share(count, class) {
            taken[class] += 1;
            picked.push((index, case, answer));
        } else if (spare.len() as u64) < count {
            spare.push((index, case, answer));
        }
    }
    let missing = count as usize - picked.len();
    picked.extend(spare.into_iter().take(missing));
    picked.sort_by_key(|(index, _, _)| *index);
    Ok(picked.into_iter().map(|(_, case, answer)| (case, answer)).collect())
}

/// Whether buffers and condition are short.
fn fits(case: &Case) -> bool {
    case.path + case.trace <= MOST_BYTES && case.condition.len() <= MOST_CONDITION
}

fn class(answer: &Answer) -> usize {
    match (answer.numbers[0], answer.numbers[7]) {
        (14, kind) => 18 + kind as usize,
        (number, _) => number as usize,
    }
}

/// A refusal shows little, and 13 comes up by chance in nearly one shape alone: half as many of each
/// are picked. 17 takes 255 preemptions: no small case has it.
fn weight(class: usize) -> u64 {
    match class {
        2..=5 | 13 => 6,
        6..=9 | 14 | 17 => 0,
        19.. => 1,
        _ => 12,
    }
}

/// The hand-built cases that the checker can compute, 17 not among them. Each is there for what it
/// shows, so they may be larger. An error is a fault of the oracle.
pub fn hand() -> Result<Vec<Answered>, String> {
    let mut picked = Vec::new();
    for case in crate::hand::all().into_iter().map(|hand| hand.case) {
        let answer = by_oracle(&case)?;
        if fits(&case) && work(&answer) <= MOST_HAND_WORK {
            picked.push((case, answer));
        }
    }
    Ok(picked)
}

/// How many cases of a class are taken before others may have more.
fn share(count: u64, class: usize) -> u64 {
    let all: u64 = (0..CLASSES).map(weight).sum();
    match weight(class) {
        0 => 0,
        weight => (count / all * weight + count % all * weight / all).max(1),
    }
}

/// About how many rows a run begins.
fn work(answer: &Answer) -> u64 {
    answer.numbers[1].saturating_mul(answer.numbers[4])
}

/// What the picked cases bring up.
pub fn tally(picked: &[Answered]) -> Tally {
    let mut tally = Tally::default();
    picked.iter().for_each(|(case, answer)| tally.take(case, answer));
    tally
}

#[cfg(test)]
mod tests {
    use super::*;

    #[test]
    fn every_answer_has_its_share() {
        let picked = pick(1, 120).expect("answers");
        assert_eq!(picked.len(), 120);
        let tally = tally(&picked);
        assert!(tally.races[1..].iter().all(|&n| n > 0), "{:?}", tally.races);
        let answers = tally.answers;
        for answer in [2, 3, 4, 5, 13] {
            assert!(answers[answer] >= 5, "{answers:?}");
        }
        for answer in [0, 1, 10, 11, 12, 15, 16, 18] {
            assert!(answers[answer] >= 10, "{answers:?}");
        }
    }

    #[test]
    fn what_is_picked_is_small_and_answered_rightly() {
        for (case, answer) in pick(2, 60).expect("answers") {
            assert!(work(&answer) <= MOST_WORK && fits(&case), "{case}");
            assert_eq!(by_oracle(&case), Ok(answer), "{case}");
        }
    }

    #[test]
    fn nearly_all_hand_built_cases_are_picked() {
        let (picked, all) = (hand().expect("answers"), crate::hand::all());
        assert!(picked.len() < all.len() && picked.len() > all.len() * 19 / 20, "{}", picked.len());
        let answers = tally(&picked).answers;
        let missing = (0..19).filter(|&answer| answers[answer] == 0);
        assert_eq!(missing.collect::<Vec<_>>(), [6, 7, 8, 9, 17]);
    }

    #[test]
    fn a_count_is_kept_to_however_small() {
        for count in [0, 1, 2, 14, 23] {
            assert_eq!(pick(3, count).expect("answers").len() as u64, count);
        }
    }

    #[test]
    fn nineteen_generated_cases_in_twenty_are_small() {
        let small = (0..2_000).filter(|&index| {
            let case = crate::case(4, index);
            fits(&case) && work(&by_oracle(&case).expect("an answer")) <= MOST_WORK
        });
        let small = small.count();
        assert!((1_850..=1_950).contains(&small), "{small}");
    }
}
