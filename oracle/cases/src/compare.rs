//! Two answers to one case, side by side.

use crate::format::{field_name, Answer, Case, CASE_FIELDS};
use crate::run::{by_oracle, by_plain};
use crate::spread::spread;

/// Says which fields of two answers differ, one line a field; nothing where they agree.
pub fn differences(names: [&str; 2], answers: [&Answer; 2]) -> Vec<String> {
    let texts = answers.map(|answer| answer.to_string());
    let fields = texts.each_ref().map(|text| text.split(' '));
    let [left, right] = fields;
    left.zip(right)
        .enumerate()
        .filter(|(_, (a, b))| a != b)
        .map(|(i, (a, b))| {
            let field = field_name(CASE_FIELDS + i);
            format!("{field}: {} {a}, {} {b}", names[0], names[1])
        })
        .collect()
}

/// What a comparison of many cases found.
#[derive(Debug, Default)]
pub struct Outcome {
    pub agreed: u64,
    /// Where they do not: index, case, what differs.
    pub differing: Vec<(u64, Case, Vec<String>)>,
}

/// Runs the oracle and the plain implementation over the generated cases of a seed. An error is a
/// panic of one of them.
pub fn compare(seed: u64, count: u64) -> Result<Outcome, String> {
    let parts = spread(count, |indices| share(seed, indices));
    let mut all = Outcome::default();
    for part in parts {
        let part = part?;
        all.agreed += part.agreed;
        all.differing.extend(part.differing);
    }
    all.differing.sort_by_key(|(index, _, _)| *index);
    Ok(all)
}

fn share(seed: u64, indices: &mut dyn Iterator<Item = u64>) -> Result<Outcome, String> {
    let mut outcome = Outcome::default();
    for index in indices {
        let case = crate::case(seed, index);
        let differing = both(&case)?;
        if differing.is_empty() {
            outcome.agreed += 1;
        } else {
            outcome.differing.push((index, case, differing));
        }
    }
    Ok(outcome)
}

/// Runs both on one case and says what differs.
pub fn both(case: &Case) -> Result<Vec<String>, String> {
    let answers = [by_oracle(case)?, by_plain(case)?];
    if answers[0] == answers[1] {
        return Ok(Vec::new());
    }
    Ok(differences(["oracle", "plain"], [&answers[0], &answers[1]]))
}
