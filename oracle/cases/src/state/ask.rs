//! What the definition gives where it does not give the oracle's answer. The checker refuses such a
//! statement without a word on what it computed, so it is asked bit by bit: a statement that a bit
//! is set is proved or refused.

use super::definition::Definition;
use super::{sides, Heading, Part};
use crate::format::{field_name, Answer, Case, Left, ListLeft, CASE_FIELDS};
use crate::pick::Answered;
use crate::run::{list_pattern, pattern};
use terms::NUMBERS;

/// A place among the numbers of a report, buffers and list, of a small case.
const PLACE_BITS: u32 = 14;
/// A number of a small case's report or list, or a byte.
const VALUE_BITS: u32 = 20;

/// The statements that ask for the first place where the two differ, and for what the definition has
/// there.
pub fn questions((case, answer): &Answered, definition: &Definition) -> Part {
    let heading = Heading::new(definition);
    let [given, stated] = sides(case, answer);
    let bits = |what: &'static str, count: u32| (0..count).map(move |bit| (what, bit));
    let asked = bits("place", PLACE_BITS).chain(bits("value", VALUE_BITS));
    let files = asked.map(|(what, bit)| {
        let left = format!("bit {bit} ({what} ({given}) {stated})");
        let file = file(what, bit);
        (file.clone(), heading.statement(&file, &left, "1"))
    });
    Part { name: "ask".to_string(), files: files.collect() }
}

/// The name of a question's file.
fn file(what: &str, bit: u32) -> String {
    match what {
        "place" => format!("Place{bit}"),
        _ => format!("Value{bit}"),
    }
}

/// Says what differs, by the questions that were refused.
pub fn told((case, answer): &Answered, refused: &[&str]) -> String {
    let read = |what: &str, count: u32| -> u64 {
        let set = |&bit: &u32| !refused.contains(&file(what, bit).as_str());
        (0..count).filter(set).map(|bit| 1 << bit).sum()
    };
    let place = read("place", PLACE_BITS) as usize;
    let value = read("value", VALUE_BITS);
    match stated_at(case, answer, place) {
        Some((what, stated)) => {
            format!("{}: {what}: oracle {stated}, definition {value}", case.name)
        }
        None => format!("{}: the definition gives more than the oracle: {value}", case.name),
    }
}

/// What a place is called, and what the oracle says of it.
fn stated_at(case: &Case, answer: &Answer, place: usize) -> Option<(String, u64)> {
    if place < NUMBERS {
        return Some((field_name(CASE_FIELDS + place), answer.numbers[place]));
    }
    let byte = |left: &Left, at: usize| match left {
        Left::Unchanged => pattern(at).into(),
        Left::Bytes(bytes) => bytes.get(at).copied().unwrap_or(0).into(),
    };
    let place = place - NUMBERS;
    if place < case.path {
        return Some((format!("byte {place} of the path"), byte(&answer.path, place)));
    }
    let place = place - case.path;
    if place < case.trace {
        return Some((format!("byte {place} of the trace"), byte(&answer.trace, place)));
    }
    let place = place - case.trace;
    let before = list_pattern(0).state + place as u64;
    let number = match answer.list {
        ListLeft::Absent => None,
        ListLeft::Unchanged => (place < 4 * case.list?).then_some(before),
        ListLeft::Summaries => answer.numbers.get(NUMBERS - 20 + place).copied(),
    };
    Some((format!("number {place} of the list"), number?))
}

#[cfg(test)]
mod tests {
    use super::*;
    use crate::run::by_oracle;

    /// The first hand-built case, P1, given a list and answered.
    fn first() -> Answered {
        let case = Case { list: Some(5), ..crate::hand::all().swap_remove(0).case };
        let answer = by_oracle(&case).expect("an answer");
        (case, answer)
    }

    /// The questions that are refused if this is the first difference.
    fn refused(place: u64, value: u64) -> Vec<String> {
        let unset = |what, count, number: u64| {
            (0..count).filter(move |bit| number >> bit & 1 == 0).map(move |bit| file(what, bit))
        };
        unset("place", PLACE_BITS, place).chain(unset("value", VALUE_BITS, value)).collect()
    }

    fn told_of(place: u64, value: u64) -> String {
        let refused = refused(place, value);
        told(&first(), &refused.iter().map(String::as_str).collect::<Vec<_>>())
    }

    #[test]
    fn every_place_has_a_name() {
        assert_eq!(told_of(0, 14), "P1: answer: oracle 0, definition 14");
        assert_eq!(told_of(28, 70_000), "P1: thread 4 own version: oracle 0, definition 70000");
        assert_eq!(told_of(29, 2), "P1: byte 0 of the path: oracle 1, definition 2");
        assert_eq!(told_of(29 + 47, 9), "P1: byte 47 of the path: oracle 0, definition 9");
        assert_eq!(told_of(29 + 48 + 15, 9), "P1: byte 15 of the trace: oracle 0, definition 9");
        assert_eq!(told_of(29 + 48 + 16, 9), "P1: number 0 of the list: oracle 4, definition 9");
        let more = "P1: the definition gives more than the oracle: 9";
        assert_eq!(told_of(29 + 48 + 16 + 20, 9), more);
    }

    #[test]
    fn each_bit_is_asked_once() {
        let definition = Definition { files: Vec::new() };
        let part = questions(&first(), &definition);
        assert_eq!(part.files.len(), (PLACE_BITS + VALUE_BITS) as usize);
        let (file, text) = &part.files[3];
        assert_eq!(file, "Place3");
        assert!(text.contains("\ncase : bit 3 (place (told_into (explored_into ("), "{text}");
        assert!(text.contains(" ∷ []) ∷ [])) ≡ 1\n"), "{text}");
        assert_eq!(part.files.last().map(|(file, _)| file.as_str()), Some("Value19"));
    }
}
