//! Cases and answers as text, one a line. FORMAT.md says the same in words; the two go together.

use std::fmt;
use terms::{Settings, NUMBERS};

/// Fields of a case without condition.
pub const CASE_FIELDS: usize = 10;
/// Fields of an answered case without condition. A condition stands behind all of them.
pub const ALL_FIELDS: usize = CASE_FIELDS + NUMBERS + 4;
/// A line has at most this many bytes, its end not counted.
pub const LONGEST_LINE: usize = 262_144;
/// A name has at most this many characters.
pub const LONGEST_NAME: usize = 64;
/// A buffer has at most this many bytes.
pub const LONGEST_BUFFER: u64 = 1_000_000;
/// A thread list has at most this many places.
pub const LONGEST_LIST: u64 = 1_000;
/// A table has at most this many bytes, more than any that is accepted.
pub const LONGEST_TABLE: usize = 8_192;
/// A condition has at most this many bytes; the longest that is accepted has 1,023.
pub const LONGEST_CONDITION: usize = 8_192;

/// Everything that a run is given.
#[derive(Clone, Debug, PartialEq, Eq)]
pub struct Case {
    pub name: String,
    pub settings: Settings,
    /// Length of the path buffer.
    pub path: usize,
    /// Length of the trace buffer.
    pub trace: usize,
    /// Length of the thread list, where one is passed.
    pub list: Option<usize>,
    pub table: Vec<u8>,
    /// The final condition; no bytes are none.
    pub condition: Vec<u8>,
}

/// What a run left in a buffer.
#[derive(Clone, Debug, PartialEq, Eq)]
pub enum Left {
    Unchanged,
    /// The bytes, without the zeros at the end.
    Bytes(Vec<u8>),
}

/// What a run left in the thread list.
#[derive(Clone, Copy, Debug, PartialEq, Eq)]
pub enum ListLeft {
    /// None was passed.
    Absent,
    Unchanged,
    /// The five summaries of the report.
    Summaries,
}

/// Everything that a run gives back.
#[derive(Clone, Debug, PartialEq, Eq)]
pub struct Answer {
    pub numbers: [u64; NUMBERS],
    pub digest: u64,
    pub list: ListLeft,
    pub path: Left,
    pub trace: Left,
}

/// A case with its answer, as a line.
pub fn answered(case: &Case, answer: &Answer) -> String {
    format!("{} {answer}{}", Given(case), Claimed(case))
}

impl fmt::Display for Case {
    fn fmt(&self, f: &mut fmt::Formatter<'_>) -> fmt::Result {
        write!(f, "{}{}", Given(self), Claimed(self))
    }
}

/// The fields that every case has.
struct Given<'a>(&'a Case);

/// The field of a condition, where there is one.
struct Claimed<'a>(&'a Case);

impl fmt::Display for Claimed<'_> {
    fn fmt(&self, f: &mut fmt::Formatter<'_>) -> fmt::Result {
        if self.0.condition.is_empty() {
            return Ok(());
        }
        f.write_str(" ")?;
        write_hex(f, &self.0.condition)
    }
}

impl fmt::Display for Given<'_> {
    fn fmt(&self, f: &mut fmt::Formatter<'_>) -> fmt::Result {
        let Given(case) = self;
        let s = &case.settings;
        write!(
            f,
            "{} {} {} {} {} {} {} {} {} ",
            case.name,
            s.branches,
            s.operations,
            s.executions,
            or_dash(s.bound),
            u8::from(s.exploring),
            case.path,
            case.trace,
            or_dash(case.list),
        )?;
        write_hex(f, &case.table)
    }
}

impl fmt::Display for Answer {
    fn fmt(&self, f: &mut fmt::Formatter<'_>) -> fmt::Result {
        for number in self.numbers {
            write!(f, "{number} ")?;
        }
        let list = match self.list {
            ListLeft::Absent => "-",
            ListLeft::Unchanged => "=",
            ListLeft::Summaries => "+",
        };
        write!(f, "{:016x} {list} {} {}", self.digest, self.path, self.trace)
    }
}

impl fmt::Display for Left {
    fn fmt(&self, f: &mut fmt::Formatter<'_>) -> fmt::Result {
        match self {
            Left::Unchanged => f.write_str("="),
            Left::Bytes(bytes) => write_hex(f, bytes),
        }
    }
}

fn or_dash<T: fmt::Display>(value: Option<T>) -> String {
    value.map_or_else(|| "-".to_string(), |v| v.to_string())
}

fn write_hex(f: &mut fmt::Formatter<'_>, bytes: &[u8]) -> fmt::Result {
    if bytes.is_empty() {
        return f.write_str("-");
    }
    bytes.iter().try_for_each(|b| write!(f, "{b:02x}"))
}

/// The name of a field by its position, as FORMAT.md has them.
pub fn field_name(position: usize) -> String {
    const FIRST: [&str; CASE_FIELDS] =
        ["NAME", "B", "L", "N", "BOUND", "EXPLORING", "PATH", "TRACE", "LIST", "TABLE"];
    const HEAD: [&str; 9] = [
        "answer",
        "executions begun",
        "choices opened",
        "choices open",
        "rows begun",
        "thread",
        "row",
        "race kind",
        "other thread",
    ];
    const SUMMARY: [&str; 4] = ["state", "rows begun", "yields", "own version"];
    const LAST: [&str; 5] = ["DIGEST", "LIST'", "PATH'", "TRACE'", "CONDITION"];
    let number = position.wrapping_sub(CASE_FIELDS);
    match position {
        0..CASE_FIELDS => FIRST[position].to_string(),
        _ if number < 9 => HEAD[number].to_string(),
        _ if number < NUMBERS => {
            format!("thread {} {}", (number - 9) / 4, SUMMARY[(number - 9) % 4])
        }
        _ => LAST[(number - NUMBERS) % 5].to_string(),
    }
}

/// Whether a line holds nothing but a comment.
pub fn is_comment(line: &[u8]) -> bool {
    line.is_empty() || line[0] == b'#'
}

/// Reads the case of a line, with or without an answer behind it; the answer is not looked at.
pub fn read_case(line: &[u8]) -> Result<Case, String> {
    let fields = split(line)?;
    match fields.len() {
        CASE_FIELDS | ALL_FIELDS => case_of(&fields, None),
        CASE_FIELDS_WITH | ALL_FIELDS_WITH => case_of(&fields, fields.last()),
        count => Err(format!(
            "{count} fields where a case has {CASE_FIELDS}, an answered case {ALL_FIELDS}, and one \
             more with a condition"
        )),
    }
}

const CASE_FIELDS_WITH: usize = CASE_FIELDS + 1;
const ALL_FIELDS_WITH: usize = ALL_FIELDS + 1;

/// Reads an answered case.
pub fn read_answered(line: &[u8]) -> Result<(Case, Answer), String> {
    let fields = split(line)?;
    let case = match fields.len() {
        ALL_FIELDS => case_of(&fields, None)?,
        ALL_FIELDS_WITH => case_of(&fields, fields.last())?,
        count => {
            return Err(format!(
            "{count} fields where an answered case has {ALL_FIELDS}, and one more with a condition"
        ))
        }
    };
    let answer = answer_of(&fields, &case)?;
    Ok((case, answer))
}

/// The fields of a line. Every byte is judged later by the field it stands in.
fn split(line: &[u8]) -> Result<Vec<&[u8]>, String> {
    if line.len() > LONGEST_LINE {
        return Err(too_long());
    }
    let fields: Vec<&[u8]> = line.split(|&b| b == b' ').collect();
    match fields.iter().position(|field| field.is_empty()) {
        Some(empty) => {
            Err(format!("field {} is empty: fields are separated by one space", empty + 1))
        }
        None => Ok(fields),
    }
}

/// What is said of a line that is too long.
pub fn too_long() -> String {
    format!("the line is longer than {LONGEST_LINE} bytes")
}

fn case_of(fields: &[&[u8]], condition: Option<&&[u8]>) -> Result<Case, String> {
    let at = |position: usize| Field::new(position, fields[position]);
    let condition = match condition {
        Some(text) => {
            let last = Field { number: fields.len(), position: ALL_FIELDS, text };
            last.some_hex(LONGEST_CONDITION)?
        }
        None => Vec::new(),
    };
    Ok(Case {
        name: at(0).name()?,
        settings: Settings {
            branches: at(1).number(u64::MAX)?,
            operations: at(2).number(u64::MAX)?,
            executions: at(3).number(u64::MAX)?,
            bound: at(4).number_or_dash(255)?.map(|n| n as u8),
            exploring: at(5).number(1)? == 1,
        },
        path: at(6).number(LONGEST_BUFFER)? as usize,
        trace: at(7).number(LONGEST_BUFFER)? as usize,
        list: at(8).number_or_dash(LONGEST_LIST)?.map(|n| n as usize),
        table: at(9).hex(LONGEST_TABLE)?,
        condition,
    })
}

fn answer_of(fields: &[&[u8]], case: &Case) -> Result<Answer, String> {
    let at = |position: usize| Field::new(position, fields[position]);
    let mut numbers = [0; NUMBERS];
    for (n, number) in numbers.iter_mut().enumerate() {
        *number = at(CASE_FIELDS + n).number(u64::MAX)?;
    }
    let tail = CASE_FIELDS + NUMBERS;
    Ok(Answer {
        numbers,
        digest: at(tail).digest()?,
        list: at(tail + 1).list(case)?,
        path: at(tail + 2).left(case.path)?,
        trace: at(tail + 3).left(case.trace)?,
    })
}

/// One field, for reading.
#[derive(Clone, Copy)]
struct Field<'a> {
    /// Which of the line's it is, counted from 1.
    number: usize,
    /// Where it stands in an answered case with a condition: that gives its name.
    position: usize,
    text: &'a [u8],
}

impl Field<'_> {
    fn new(position: usize, text: &[u8]) -> Field<'_> {
        Field { number: position + 1, position, text }
    }

    fn wrong(self, what: &str) -> String {
        let name = field_name(self.position);
        format!("field {} ({name}) {what}", self.number)
    }

    fn name(self) -> Result<String, String> {
        let good = |b: &u8| b.is_ascii_alphanumeric() || b"_.-".contains(b);
        if !self.text.iter().all(good) {
            return Err(self.wrong("has a character other than A-Z, a-z, 0-9, '_', '.', '-'"));
        }
        if self.text.len() > LONGEST_NAME {
            return Err(self.wrong(&format!("has more than {LONGEST_NAME} characters")));
        }
        Ok(String::from_utf8_lossy(self.text).into_owned())
    }

    /// Digits alone and no zero in front, so that a number has one spelling.
    fn number(self, most: u64) -> Result<u64, String> {
        if !self.text.iter().all(u8::is_ascii_digit) {
            return Err(self.wrong("is not a decimal number"));
        }
        if self.text.len() > 1 && self.text[0] == b'0' {
            return Err(self.wrong("has a zero in front"));
        }
        let mut value: u64 = 0;
        for digit in self.text {
            value = value
                .checked_mul(10)
                .and_then(|v| v.checked_add(u64::from(digit - b'0')))
                .ok_or_else(|| self.wrong("does not fit 64 bits"))?;
        }
        if value > most {
            return Err(self.wrong(&format!("is above {most}")));
        }
        Ok(value)
    }

    fn number_or_dash(self, most: u64) -> Result<Option<u64>, String> {
        if self.text == b"-" {
            return Ok(None);
        }
        self.number(most).map(Some)
    }

    fn hex(self, most: usize) -> Result<Vec<u8>, String> {
        if self.text == b"-" {
            return Ok(Vec::new());
        }
        self.some_hex(most)
    }

    fn some_hex(self, most: usize) -> Result<Vec<u8>, String> {
        if !self.text.len().is_multiple_of(2) {
            return Err(self.wrong("has an odd number of hex digits"));
        }
        if self.text.len() / 2 > most {
            return Err(self.wrong(&format!("has more than {most} bytes")));
        }
        let digits: Option<Vec<u8>> = self.text.iter().map(|&b| hex_digit(b)).collect();
        let digits = digits.ok_or_else(|| self.wrong("is not lowercase hex"))?;
        Ok(digits.chunks(2).map(|pair| pair[0] << 4 | pair[1]).collect())
    }

    fn digest(self) -> Result<u64, String> {
        if self.text.len() != 16 {
            return Err(self.wrong("has not 16 hex digits"));
        }
        let bytes = self.hex(8)?;
        Ok(bytes.iter().fold(0, |sum, &b| sum << 8 | u64::from(b)))
    }

    fn list(self, case: &Case) -> Result<ListLeft, String> {
        match (self.text, case.list) {
            (b"-", None) => Ok(ListLeft::Absent),
            (b"=", Some(_)) => Ok(ListLeft::Unchanged),
            (b"+", Some(_)) => Ok(ListLeft::Summaries),
            (_, None) => Err(self.wrong("is not '-', though no list is passed")),
            (_, Some(_)) => Err(self.wrong("is neither '=' nor '+', though a list is passed")),
        }
    }

    fn left(self, most: usize) -> Result<Left, String> {
        if self.text == b"=" {
            return Ok(Left::Unchanged);
        }
        let bytes = self.hex(most)?;
        if bytes.last() == Some(&0) {
            return Err(self.wrong("has a zero byte at its end"));
        }
        Ok(Left::Bytes(bytes))
    }
}

fn hex_digit(b: u8) -> Option<u8> {
    match b {
        b'0'..=b'9' => Some(b - b'0'),
        b'a'..=b'f' => Some(b - b'a' + 10),
        _ => None,
    }
}
