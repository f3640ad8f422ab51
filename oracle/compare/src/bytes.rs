//! Calls without sense: any bytes as a table or condition, any numbers as settings, buffers of any
//! length. What is asked of the library is that it answers at all, writes where it may, and agrees with plain.

use crate::judge::{by_plain, differences};
use crate::library::{report_pattern, Call, Left, Numbers, NO_ARGUMENTS, UNBOUNDED};
use cases::format::Case;
use cases::random::Random;
use cases::run::pattern;
use cases::table::{Program, HEADER, ROW};
use cases::{claims, condition};
use oracle::limits::{MAX_BRANCHES, MAX_EXECUTIONS, MAX_OPERATIONS, MAX_ROWS};
use std::fmt;
use terms::{Settings, NUMBERS};

/// A call drawn at random. `case` holds what it means, once its numbers are accepted.
pub struct Drawn {
    pub case: Case,
    numbers: Numbers,
    report: usize,
}

impl fmt::Display for Drawn {
    fn fmt(&self, f: &mut fmt::Formatter<'_>) -> fmt::Result {
        let Numbers { bound, exploring, .. } = self.numbers;
        let (case, report) = (&self.case, self.report);
        write!(f, "{case} (bound {bound}, exploring {exploring}, report length {report})")
    }
}

/// The call of this seed and index.
pub fn draw(seed: u64, index: u64) -> Drawn {
    // Apart from the stream that the case of the same seed and index is drawn from.
    let r = &mut Random::new(!seed, index);
    let (branches, path) = limit_and_length(r, MAX_BRANCHES);
    let (operations, trace) = limit_and_length(r, MAX_OPERATIONS);
    let executions = match r.below(2_000) {
        0 => MAX_EXECUTIONS,
        1..=100 => r.pick(&[0, MAX_EXECUTIONS + 1, 1 << 32, u64::MAX, r.clone().number()]),
        _ => r.between(1, 60),
    };
    let bound = match r.below(24) {
        0 => r.pick(&[UNBOUNDED + 1, 511, 512, 1 << 32, u64::MAX]),
        1..=10 => r.below(UNBOUNDED),
        _ => UNBOUNDED,
    };
    let exploring = match r.below(24) {
        0 => r.pick(&[2, 255, 256, 1 << 63, u64::MAX]),
        other => u64::from(other > 3),
    };
    let report = match r.below(24) {
        0 => r.pick(&[0, 1, NUMBERS - 1, NUMBERS + 1, 2 * NUMBERS]),
        _ => NUMBERS,
    };
    let settings = Settings {
        branches,
        operations,
        executions,
        bound: u8::try_from(bound).ok(),
        exploring: exploring == 1,
    };
    let table = table(r, seed, index);
    let condition = condition(r, &table);
    let name = format!("b{seed}.{index}");
    let case = Case { name, settings, path, trace, list: None, table, condition };
    Drawn { case, numbers: Numbers { branches, operations, executions, bound, exploring }, report }
}

/// A limit in or out of its range, and a length that mostly fits it.
fn limit_and_length(r: &mut Random, most: u64) -> (u64, usize) {
    let limit = match r.below(60) {
        0 => 0,
        1 => most,
        2 => most + 1,
        3 => u64::MAX - r.below(3),
        4 => r.number(),
        // Sixteen times this wraps to a length that a buffer may have.
        5 => (1 << 60) + r.below(40),
        6..=12 => r.between(1, 6),
        _ => r.between(7, 70),
    };
    let fitting = limit.wrapping_mul(16);
    let length = match r.below(48) {
        0 => 0,
        1 => r.below(1_200),
        2 => fitting.wrapping_add(r.pick(&[1, 15, 16])),
        3 => fitting.wrapping_sub(r.pick(&[1, 15, 16])),
        _ => fitting,
    };
    let longest = 16 * (most + 2);
    (limit, if length <= longest { length } else { r.below(1_200) } as usize)
}

fn table(r: &mut Random, seed: u64, index: u64) -> Vec<u8> {
    match r.below(8) {
        0 => (0..r.below(300)).map(|_| r.number() as u8).collect(),
        1..=2 => likely_rows(r),
        3..=5 => damaged(r, cases::case(seed, index).table),
        _ => cases::case(seed, index).table,
    }
}

/// A sound header, the right length, and rows of small numbers, most of them zero.
fn likely_rows(r: &mut Random) -> Vec<u8> {
    let (threads, cells) = (r.between(1, 5), r.between(1, 4));
    let plains = r.pick(&[0, 0, 1, 2, 4]);
    let mut table = vec![threads as u8, cells as u8, 0, 0, 0, 0, 0, plains as u8];
    let mut rows = 0;
    for thread in 0..threads as usize {
        let count = r.pick(&[0, 1, 1, 2, 3, MAX_ROWS]);
        table[2 + thread] = count as u8;
        rows += count;
    }
    let starts = HEADER + 8 * (cells + plains) as usize;
    table.resize(starts + ROW * rows, 0);
    for row in table[starts..].chunks_mut(ROW) {
        row[0] = r.below(19) as u8;
        for _ in 0..r.below(5) {
            row[r.position(9)] = r.below(5) as u8;
        }
    }
    table
}

/// Any bytes, or a condition for the table, whole or damaged; often none.
fn condition(r: &mut Random, table: &[u8]) -> Vec<u8> {
    let likely = |r: &mut Random| match Program::read(table).filter(|p| !p.threads.is_empty()) {
        Some(program) => condition::bytes(&claims::sound(r, &program)),
        None => condition::bytes(&condition::equals(0, 0, 0)),
    };
    match r.below(12) {
        0 => (0..r.below(1_200)).map(|_| r.number() as u8).collect(),
        1 => (0..r.below(40)).map(|_| r.below(12) as u8).collect(),
        2..=3 => likely(r),
        4 => {
            let sound = likely(r);
            damaged(r, sound)
        }
        _ => Vec::new(),
    }
}

/// The bytes with a few of them changed, put in or taken out.
fn damaged(r: &mut Random, mut table: Vec<u8>) -> Vec<u8> {
    for _ in 0..r.between(1, 3) {
        if table.is_empty() {
            break;
        }
        let at = r.position(table.len());
        match r.below(12) {
            0 => table.truncate(at),
            1 => table.insert(at, r.number() as u8),
            2 => drop(table.remove(at)),
            3..=5 => table[at] = r.number() as u8,
            6..=8 => table[at] ^= 1 << r.below(8),
            _ => table[at] = r.below(5) as u8,
        }
    }
    table
}

/// Makes the call and says what is wrong with what it left. An error is a fault of plain.
pub fn wrongs(drawn: &Drawn, shift: usize) -> Result<(u64, Vec<String>), String> {
    let call =
        Call { numbers: drawn.numbers, report: drawn.report, ..Call::of(&drawn.case, shift) };
    let left = call.make();
    let Numbers { bound, exploring, .. } = drawn.numbers;
    let found = if bound > UNBOUNDED || exploring > 1 || drawn.report != NUMBERS {
        refused_wrongs(&left)
    } else {
        accepted_wrongs(drawn, &left)?
    };
    Ok((left.returned, found))
}

/// Arguments that are none: 255, and nothing written.
fn refused_wrongs(left: &Left) -> Vec<String> {
    let mut found: Vec<String> =
        left.broken.iter().map(|name| format!("{name}: written")).collect();
    if left.returned != NO_ARGUMENTS {
        found.push(format!("returned {} and not {NO_ARGUMENTS}", left.returned));
    }
    if !left.report.iter().enumerate().all(|(i, &n)| n == report_pattern(i)) {
        found.push("the report was written".to_string());
    }
    found.extend(written(left));
    found
}

fn accepted_wrongs(drawn: &Drawn, left: &Left) -> Result<Vec<String>, String> {
    let mut found = differences(&by_plain(&drawn.case)?, left);
    match left.returned {
        0 | 1 | 10..=18 => {}
        2..=5 => found.extend(written(left)),
        other => found.push(format!("{other} is no answer")),
    }
    Ok(found)
}

/// Which buffers are not as they were.
fn written(left: &Left) -> Vec<String> {
    let changed = |bytes: &[u8]| bytes.iter().enumerate().any(|(i, &b)| b != pattern(i));
    [("path", &left.path), ("trace", &left.trace)]
        .iter()
        .filter(|(_, bytes)| changed(bytes))
        .map(|(name, _)| format!("the {name} buffer was written"))
        .collect()
}
