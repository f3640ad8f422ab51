//! Texts and tables through the entries that read and write texts, against crate text, which was written
//! from docs/GRAMMAR.md alone: the number returned, every number and byte left, and no write elsewhere.

use crate::guarded::Guarded;
use crate::library::{self, report_pattern, NO_ARGUMENTS};
use cases::condition::LONGEST;
use cases::random::Random;
use cases::run::pattern;
use cases::table::{HEADER, ROW};
use cases::texts::{large, text};
use std::collections::BTreeMap;
use std::fmt::{self, Write};
use std::panic::{catch_unwind, UnwindSafe};
use text::{Place, Program, Refused, CELLS, PLAINS, ROWS, THREADS};

/// Bytes of the largest table and of the longest condition: a reader's buffers have no less.
const TABLE: usize = HEADER + 8 * (CELLS + PLAINS) + ROW * ROWS * THREADS;
const CONDITION: usize = LONGEST;

/// Numbers that the two entries take, exactly.
const READ_NUMBERS: usize = 5;
const WRITE_NUMBERS: usize = 2;

/// The first of them: how it went.
const DONE: u64 = 0;
const REFUSED: u64 = 1;
const TOO_SMALL: u64 = 2;

/// What is done with a text of either kind or a table, for the counts.
const TEXTS: &str = "texts";
const TABLES: &str = "tables";
const READ_BACK: &str = "read back";

/// How often each came out, by what was done and by what was returned.
#[derive(Default)]
pub struct Counts(BTreeMap<(&'static str, u64), u64>);

impl fmt::Display for Counts {
    fn fmt(&self, f: &mut fmt::Formatter<'_>) -> fmt::Result {
        for what in [TEXTS, TABLES, READ_BACK] {
            let count = |returned: u64| self.0.get(&(what, returned)).copied().unwrap_or(0);
            let done = if what == TABLES { "written" } else { "read" };
            let [well, refused, small, no] = [DONE, REFUSED, TOO_SMALL, NO_ARGUMENTS].map(count);
            writeln!(f, "{what}: {done} {well}, refused {refused}, too small {small}, 255 {no}")?;
        }
        Ok(())
    }
}

/// What stops a comparison.
pub enum Wrong {
    /// Library and Rust differ: in which call, and in what.
    Differs(String),
    /// A reader or writer in Rust panicked.
    Fault(String),
}

/// One text read and, where it can be, written and read back; then the same with the table of a case.
pub fn round(seed: u64, index: u64, shift: usize, counts: &mut Counts) -> Result<(), Wrong> {
    // Apart from the streams that the texts and the case are drawn from.
    let r = &mut Random::new(seed ^ 0x726f_6f6d, index);
    let text = match index % 16 {
        15 => large(seed, index),
        _ => text(seed, index),
    };
    let read = guarded(&text, || text::read(&text))?;
    Reading::of(r, &text, shift).compare(TEXTS, &read, counts)?;
    if let Ok(program) = read {
        write_and_read(r, &program, shift, counts)?;
    }
    let cases::format::Case { table, condition, .. } = cases::case(seed, index);
    write_and_read(r, &Program { table, condition }, shift, counts)
}

/// Writes, and reads what was written.
fn write_and_read(
    r: &mut Random,
    program: &Program,
    shift: usize,
    counts: &mut Counts,
) -> Result<(), Wrong> {
    let Program { table, condition } = program;
    let text = guarded(table, || text::write(table, condition))?;
    let needed = text.as_ref().map_or(r.position(200), Vec::len);
    let room = length(r, needed);
    let numbers = numbers(r, WRITE_NUMBERS);
    let writing = Writing { program, text: room, numbers, shift };
    writing.compare(text.as_deref(), counts)?;
    match text {
        Some(text) => Reading::of(r, &text, shift).compare(READ_BACK, &Ok(program.clone()), counts),
        None => Ok(()),
    }
}

/// What a reader or writer in Rust answers on these bytes.
fn guarded<T>(bytes: &[u8], answer: impl FnOnce() -> T + UnwindSafe) -> Result<T, Wrong> {
    let fault = |_| Wrong::Fault(format!("crate text panicked on: {}", bytes.escape_ascii()));
    catch_unwind(answer).map_err(fault)
}

/// A length for a buffer that needs this one: as much or more, now and then less.
fn length(r: &mut Random, needed: usize) -> usize {
    match r.below(64) {
        0 => needed.saturating_sub(1),
        1 => r.position(needed + 1),
        2..=33 => needed,
        34..=43 => needed + 1,
        _ => needed + r.position(300),
    }
}

/// How many numbers are lent, where these are right.
fn numbers(r: &mut Random, right: usize) -> usize {
    match r.below(64) {
        0 => r.pick(&[0, 1, right - 1, right + 1, 29]),
        _ => right,
    }
}

/// What a call returns and leaves.
#[derive(Clone, Debug)]
struct Left {
    returned: u64,
    numbers: Vec<u64>,
    /// The buffers that may be written, by name.
    buffers: Vec<(&'static str, Vec<u8>)>,
    /// Memory that was written though it must not be, by name.
    broken: Vec<&'static str>,
}

impl Left {
    /// Nothing is written where the number of numbers is wrong.
    fn no_call(numbers: usize, buffers: Vec<(&'static str, Vec<u8>)>) -> Left {
        let numbers = (0..numbers).map(report_pattern).collect();
        Left { returned: NO_ARGUMENTS, numbers, buffers, broken: Vec::new() }
    }

    fn right(numbers: &[u64], buffers: Vec<(&'static str, Vec<u8>)>) -> Left {
        Left { returned: numbers[0], numbers: numbers.to_vec(), buffers, broken: Vec::new() }
    }

    /// Says what differs, one line each; nothing where all is equal.
    fn differences(&self, right: &Left) -> Vec<String> {
        let mut all: Vec<String> =
            self.broken.iter().map(|name| format!("{name}: written")).collect();
        let mut differ = |what: &str, right: &dyn fmt::Debug, left: &dyn fmt::Debug| {
            all.push(format!("{what}: Rust {right:?}, library {left:?}"));
        };
        if self.returned != right.returned {
            differ("returned", &right.returned, &self.returned);
        }
        if self.numbers != right.numbers {
            differ("numbers", &right.numbers, &self.numbers);
        }
        for ((name, right), (_, left)) in right.buffers.iter().zip(&self.buffers) {
            let differs = |place: &usize| right.get(*place) != left.get(*place);
            if let Some(place) = (0..right.len().max(left.len())).find(differs) {
                let what = format!("{name}, byte {place}");
                differ(&what, &right.get(place), &left.get(place));
            }
        }
        all
    }
}

/// Bytes as they are lent, and as they are left with these in front of zeros.
fn lent(length: usize) -> Vec<u8> {
    (0..length).map(pattern).collect()
}

fn filled(length: usize, bytes: &[u8]) -> Vec<u8> {
    let mut all = bytes.to_vec();
    all.resize(length, 0);
    all
}

/// A call of the entry that reads, with the lengths of what is lent.
struct Reading<'a> {
    text: &'a [u8],
    table: usize,
    condition: usize,
    numbers: usize,
    /// How far the buffers are moved off their alignment.
    shift: usize,
}

impl Reading<'_> {
    fn of<'a>(r: &mut Random, text: &'a [u8], shift: usize) -> Reading<'a> {
        let (table, condition) = (length(r, TABLE), length(r, CONDITION));
        Reading { text, table, condition, numbers: numbers(r, READ_NUMBERS), shift }
    }

    fn compare(
        &self,
        what: &'static str,
        read: &Result<Program, Refused>,
        counts: &mut Counts,
    ) -> Result<(), Wrong> {
        let left = self.make();
        let right = self.right(read);
        let Reading { table, condition, numbers, .. } = self;
        let call = || format!("read into {table} and {condition} bytes, {numbers} numbers");
        judge(call, self.text, &left, &right)?;
        *counts.0.entry((what, left.returned)).or_default() += 1;
        Ok(())
    }

    /// What is right, where the text stands for this.
    fn right(&self, read: &Result<Program, Refused>) -> Left {
        let buffers = |table: Vec<u8>, condition: Vec<u8>| {
            vec![("the table", table), ("the condition", condition)]
        };
        let untouched = buffers(lent(self.table), lent(self.condition));
        if self.numbers != READ_NUMBERS {
            return Left::no_call(self.numbers, untouched);
        }
        if self.table < TABLE || self.condition < CONDITION {
            return Left::right(&[TOO_SMALL, TABLE as u64, CONDITION as u64, 0, 0], untouched);
        }
        let after = |table: &[u8], condition: &[u8]| {
            buffers(filled(self.table, table), filled(self.condition, condition))
        };
        match read {
            Ok(Program { table, condition }) => {
                let lengths = [table, condition].map(|bytes| bytes.len() as u64);
                Left::right(&[DONE, lengths[0], lengths[1], 0, 0], after(table, condition))
            }
            Err(Refused(Place { line, column })) => {
                Left::right(&[REFUSED, 0, 0, *line, *column], after(&[], &[]))
            }
        }
    }

    /// Makes the call with filled buffers inside guards.
    fn make(&self) -> Left {
        let mut text = Guarded::new(self.text.iter().copied(), self.shift);
        let mut table = Guarded::new((0..self.table).map(pattern), self.shift);
        let mut condition = Guarded::new((0..self.condition).map(pattern), self.shift);
        let mut numbers = Guarded::new((0..self.numbers).map(report_pattern), 0);
        let read = &*text.lent();
        let returned = library::read(read, table.lent(), condition.lent(), numbers.lent());
        // What is lent so cannot change, so far as the compiler knows; here it shall look.
        let text = std::hint::black_box(text);
        let watched = [
            ("a guard of the text", text.intact()),
            ("the text", text.inside() == self.text),
            ("a guard of the table", table.intact()),
            ("a guard of the condition", condition.intact()),
            ("a guard of the numbers", numbers.intact()),
        ];
        Left {
            returned,
            numbers: numbers.inside().to_vec(),
            buffers: vec![
                ("the table", table.inside().to_vec()),
                ("the condition", condition.inside().to_vec()),
            ],
            broken: broken(&watched),
        }
    }
}

/// A call of the entry that writes, with the lengths of what is lent.
struct Writing<'a> {
    program: &'a Program,
    text: usize,
    numbers: usize,
    shift: usize,
}

impl Writing<'_> {
    fn compare(&self, text: Option<&[u8]>, counts: &mut Counts) -> Result<(), Wrong> {
        let left = self.make();
        let right = self.right(text);
        let Writing { program, text: room, numbers, .. } = self;
        let call = || format!("write {program:?} into {room} bytes, {numbers} numbers");
        judge(call, text.unwrap_or(b"(none)"), &left, &right)?;
        *counts.0.entry((TABLES, left.returned)).or_default() += 1;
        Ok(())
    }

    /// What is right, where this is the text of the table and condition.
    fn right(&self, text: Option<&[u8]>) -> Left {
        let buffer = |bytes: Vec<u8>| vec![("the text", bytes)];
        let untouched = buffer(lent(self.text));
        if self.numbers != WRITE_NUMBERS {
            return Left::no_call(self.numbers, untouched);
        }
        match text {
            None => Left::right(&[REFUSED, 0], untouched),
            Some(text) if self.text < text.len() => {
                Left::right(&[TOO_SMALL, text.len() as u64], untouched)
            }
            Some(text) => Left::right(&[DONE, text.len() as u64], buffer(filled(self.text, text))),
        }
    }

    /// Makes the call with filled buffers inside guards.
    fn make(&self) -> Left {
        let Program { table: given, condition: claimed } = self.program;
        let mut table = Guarded::new(given.iter().copied(), self.shift);
        let mut condition = Guarded::new(claimed.iter().copied(), self.shift);
        let mut text = Guarded::new((0..self.text).map(pattern), self.shift);
        let mut numbers = Guarded::new((0..self.numbers).map(report_pattern), 0);
        let (shown, claim) = (&*table.lent(), &*condition.lent());
        let returned = library::write(shown, claim, text.lent(), numbers.lent());
        // What is lent so cannot change, so far as the compiler knows; here it shall look.
        let [table, condition] = std::hint::black_box([table, condition]);
        let watched = [
            ("a guard of the table", table.intact()),
            ("the table", table.inside() == given),
            ("a guard of the condition", condition.intact()),
            ("the condition", condition.inside() == claimed),
            ("a guard of the text", text.intact()),
            ("a guard of the numbers", numbers.intact()),
        ];
        Left {
            returned,
            numbers: numbers.inside().to_vec(),
            buffers: vec![("the text", text.inside().to_vec())],
            broken: broken(&watched),
        }
    }
}

/// Those that are not well.
fn broken(watched: &[(&'static str, bool)]) -> Vec<&'static str> {
    watched.iter().filter(|(_, well)| !well).map(|(name, _)| *name).collect()
}

/// What a call left against what is right; the text is shown line by line where they differ.
fn judge(
    call: impl FnOnce() -> String,
    text: &[u8],
    left: &Left,
    right: &Left,
) -> Result<(), Wrong> {
    let differences = left.differences(right);
    if differences.is_empty() {
        return Ok(());
    }
    let mut shown = call() + "\n";
    for line in text.split_inclusive(|&byte| byte == b'\n') {
        let _ = writeln!(shown, "    {}", line.escape_ascii());
    }
    for difference in differences {
        let _ = writeln!(shown, "  {difference}");
    }
    Err(Wrong::Differs(shown))
}

#[cfg(test)]
mod tests {
    use super::*;

    const TEXT: &[u8] = b"cells 0\nthread\nfinally 0.r0 = 1\n";

    fn reading(text: &[u8]) -> Reading<'_> {
        Reading { text, table: TABLE + 3, condition: CONDITION, numbers: READ_NUMBERS, shift: 5 }
    }

    #[test]
    fn every_number_and_byte_counts() {
        let right = reading(TEXT).right(&text::read(TEXT));
        assert!(right.differences(&right).is_empty());
        for place in 0..READ_NUMBERS {
            let mut left = right.clone();
            left.numbers[place] += 1;
            assert_eq!(left.differences(&right).len(), 1, "number {place}");
        }
        for (buffer, length) in [(0, TABLE + 3), (1, CONDITION)] {
            for place in 0..length {
                let mut left = right.clone();
                left.buffers[buffer].1[place] ^= 128;
                assert_eq!(left.differences(&right).len(), 1, "buffer {buffer}, byte {place}");
            }
        }
        let mut left = right.clone();
        left.returned = REFUSED;
        left.broken.push("a guard");
        assert_eq!(left.differences(&right).len(), 2);
    }

    /// The library is found right where it is, and wrong where another text was read in Rust.
    #[test]
    fn a_wrong_reader_in_rust_shows() {
        let counts = &mut Counts::default();
        let right = text::read(TEXT);
        assert!(reading(TEXT).compare(TEXTS, &right, counts).is_ok());
        let program = right.expect("a text");
        let refused = Err(Refused(Place { line: 1, column: 1 }));
        assert!(reading(TEXT).compare(TEXTS, &refused, counts).is_err());
        let bare = Program { condition: Vec::new(), ..program.clone() };
        assert!(reading(TEXT).compare(TEXTS, &Ok(bare), counts).is_err());
        let writing = Writing { program: &program, text: 100, numbers: WRITE_NUMBERS, shift: 0 };
        assert!(writing.compare(Some(TEXT), counts).is_ok());
        assert!(writing.compare(Some(&TEXT[1..]), counts).is_err());
        assert!(writing.compare(None, counts).is_err());
        assert_eq!(counts.0.values().sum::<u64>(), 2);
    }

    #[test]
    fn too_small_and_wrong_numbers_leave_all_as_it_was() {
        let counts = &mut Counts::default();
        let right = text::read(TEXT);
        for (table, condition) in [(TABLE - 1, CONDITION), (TABLE, CONDITION - 1), (0, 0)] {
            let reading = Reading { table, condition, ..reading(TEXT) };
            assert!(reading.compare(TEXTS, &right, counts).is_ok());
            assert_eq!(reading.make().returned, TOO_SMALL);
        }
        for numbers in [0, READ_NUMBERS - 1, READ_NUMBERS + 1] {
            let reading = Reading { numbers, ..reading(TEXT) };
            assert!(reading.compare(TEXTS, &right, counts).is_ok());
            assert_eq!(reading.make().returned, NO_ARGUMENTS);
        }
    }
}
