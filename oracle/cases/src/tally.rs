//! How often each answer, race kind, opcode, order, change kind and word of a condition comes up.

use crate::condition::{self, Word, SIGNS};
use crate::format::{Answer, Case, Left};
use crate::run::by_oracle;
use crate::spread::spread;
use crate::table::{jump, Program, Row, CHANGES, OPCODES, ORDERS};
use std::fmt;

/// Answers that a run of the generator has to show often. 13 and 17 need programs that chance
/// seldom makes; the hand-built cases have them.
pub const REQUIRED: [usize; 13] = [0, 1, 2, 3, 4, 5, 10, 11, 12, 14, 15, 16, 18];
/// How often is often.
pub const OFTEN: u64 = 20;
/// Answer 18 has to be one in so many.
pub const UNMET: u64 = 50;
/// From how many cases on that is asked.
pub const ASKED_FROM: u64 = 20_000;

/// Counts over rows.
#[derive(Clone, Debug, Default, PartialEq, Eq)]
pub struct Rows {
    pub opcodes: [u64; OPCODES.len()],
    /// By opcode 0 to 4, then by order.
    pub orders: [[u64; 5]; 5],
    /// Failure orders.
    pub failures: [u64; 5],
    /// In RMW, then in exclusive.
    pub changes: [[u64; 13]; 2],
}

/// Counts over cases with a condition.
#[derive(Clone, Debug, Default, PartialEq, Eq)]
pub struct Claims {
    pub given: u64,
    /// Those that met answer 5, be it by the table.
    pub refused: u64,
    /// Those that held to the end: answers 0 and 1.
    pub held: u64,
    /// Those that held once at least before they did not.
    pub later: u64,
    /// Accepted ones by the depth of their groups.
    pub depths: [u64; 9],
    /// Comparisons of accepted ones by their sign.
    pub signs: [u64; 6],
    /// Joints of accepted ones: "and", "or".
    pub joints: [u64; 2],
}

/// Counts over cases.
#[derive(Clone, Debug, Default, PartialEq, Eq)]
pub struct Tally {
    pub cases: u64,
    pub executions: u64,
    pub answers: [u64; 19],
    pub races: [u64; 13],
    pub lists: u64,
    pub bounds: u64,
    /// Cases with plain cells, not refused.
    pub plains: u64,
    /// Runs that stop at a fault of a thread that goes on yielded, since it was picked so.
    pub picked: u64,
    /// Cases refused at a jump to itself.
    pub own_refused: u64,
    /// Jumps to their own row in accepted tables, by their kind of condition.
    pub own_held: [u64; 2],
    pub claims: Claims,
    /// Rows of accepted tables.
    pub held: Rows,
    /// Rows completed in last executions.
    pub done: Rows,
}

/// Runs the oracle over the generated cases of a seed. An error is a panic of the oracle.
pub fn tally(seed: u64, count: u64) -> Result<Tally, String> {
    let parts = spread(count, |indices| {
        let mut part = Tally::default();
        for index in indices {
            let case = crate::case(seed, index);
            part.take(&case, &by_oracle(&case)?);
        }
        Ok::<Tally, String>(part)
    });
    let mut all = Tally::default();
    for part in parts {
        all.add(&part?);
    }
    Ok(all)
}

impl Rows {
    fn take(&mut self, row: &Row) {
        self.opcodes[usize::from(row.opcode)] += 1;
        if row.has_order() {
            self.orders[usize::from(row.opcode)][usize::from(row.order)] += 1;
        }
        if row.has_failure() {
            self.failures[usize::from(row.failure)] += 1;
        }
        if row.has_change() {
            let exclusive = usize::from(row.opcode == 6);
            self.changes[exclusive][usize::from(row.change)] += 1;
        }
    }

    fn add(&mut self, other: &Rows) {
        add_each(&mut self.opcodes, &other.opcodes);
        add_each(&mut self.failures, &other.failures);
        for (sum, more) in self.orders.iter_mut().zip(&other.orders) {
            add_each(sum, more);
        }
        for (sum, more) in self.changes.iter_mut().zip(&other.changes) {
            add_each(sum, more);
        }
    }
}

impl Claims {
    fn take(&mut self, condition: &[u8], answer: &Answer) {
        if condition.is_empty() {
            return;
        }
        let (number, executions) = (answer.numbers[0], answer.numbers[1]);
        self.given += 1;
        self.refused += u64::from(number == 5);
        self.held += u64::from(number < 2);
        self.later += u64::from(number == 18 && executions > 1);
        let words = condition::words(condition).filter(|_| !(2..=5).contains(&number));
        let Some(words) = words else {
            return;
        };
        self.depths[condition::depth(&words)] += 1;
        for word in words {
            match word {
                Word::Compare { sign, .. } => self.signs[usize::from(sign) - 1] += 1,
                Word::And => self.joints[0] += 1,
                Word::Or => self.joints[1] += 1,
                Word::Open | Word::Close => {}
            }
        }
    }

    fn add(&mut self, other: &Claims) {
        self.given += other.given;
        self.refused += other.refused;
        self.held += other.held;
        self.later += other.later;
        add_each(&mut self.depths, &other.depths);
        add_each(&mut self.signs, &other.signs);
        add_each(&mut self.joints, &other.joints);
    }
}

impl fmt::Display for Claims {
    fn fmt(&self, f: &mut fmt::Formatter<'_>) -> fmt::Result {
        writeln!(f, "with a condition {}", self.given)?;
        writeln!(f, "of these refused by 5: {}", self.refused)?;
        writeln!(f, "of these held to the end: {}", self.held)?;
        writeln!(f, "of these unmet after the first execution: {}", self.later)?;
        for (depth, n) in self.depths.iter().enumerate() {
            writeln!(f, "groups {depth} deep: {n}")?;
        }
        for (sign, n) in SIGNS.iter().zip(self.signs) {
            writeln!(f, "sign {sign}: {n}")?;
        }
        writeln!(f, "joints and, or: {} {}", self.joints[0], self.joints[1])
    }
}

fn add_each(sum: &mut [u64], more: &[u64]) {
    for (s, m) in sum.iter_mut().zip(more) {
        *s += m;
    }
}

impl Tally {
    /// Counts one answered case.
    pub fn take(&mut self, case: &Case, answer: &Answer) {
        let number = answer.numbers[0] as usize;
        self.cases += 1;
        self.executions += answer.numbers[1];
        self.answers[number] += 1;
        self.races[answer.numbers[7] as usize] += 1;
        self.lists += u64::from(case.list.is_some());
        self.bounds += u64::from(case.settings.bound.is_some());
        self.claims.take(&case.condition, answer);
        self.own_refused += u64::from(refused_at_own(case, answer));
        let refused = (2..=5).contains(&number);
        let program = Program::read(&case.table).filter(|_| !refused);
        let Some(program) = program else {
            return;
        };
        self.plains += u64::from(!program.plains.is_empty());
        program.threads.iter().flatten().for_each(|row| self.held.take(row));
        add_each(&mut self.own_held, &[10, 11].map(|opcode| own_jumps(&program, opcode)));
        self.picked += u64::from(goes_on_yielded(&program, answer));
        if let Left::Bytes(trace) = &answer.trace {
            // The last entry may have lost its zeros; its first two bytes are looked at only where
            // they are there, or are zeros themselves.
            for entry in trace.chunks(16) {
                let at = |i: usize| usize::from(entry.get(i).copied().unwrap_or(0));
                self.done.take(&program.threads[at(0)][at(1)]);
            }
        }
    }

    fn add(&mut self, other: &Tally) {
        self.cases += other.cases;
        self.executions += other.executions;
        self.lists += other.lists;
        self.bounds += other.bounds;
        self.plains += other.plains;
        self.picked += other.picked;
        self.own_refused += other.own_refused;
        add_each(&mut self.own_held, &other.own_held);
        self.claims.add(&other.claims);
        add_each(&mut self.answers, &other.answers);
        add_each(&mut self.races, &other.races);
        self.held.add(&other.held);
        self.done.add(&other.done);
    }

    /// Required answers that came up too seldom, where there were enough cases to ask.
    pub fn missing(&self) -> Vec<usize> {
        let wanted = |answer: usize| if answer == 18 { self.cases / UNMET } else { OFTEN };
        let seldom = |&&answer: &&usize| self.answers[answer] < wanted(answer);
        match self.cases >= ASKED_FROM {
            true => REQUIRED.iter().filter(seldom).copied().collect(),
            false => Vec::new(),
        }
    }
}

impl fmt::Display for Tally {
    fn fmt(&self, f: &mut fmt::Formatter<'_>) -> fmt::Result {
        writeln!(f, "cases {}", self.cases)?;
        writeln!(f, "executions {}", self.executions)?;
        writeln!(f, "with a list {}", self.lists)?;
        writeln!(f, "with a bound {}", self.bounds)?;
        writeln!(f, "with plain cells {}", self.plains)?;
        for (answer, n) in self.answers.iter().enumerate() {
            if !(6..=9).contains(&answer) {
                writeln!(f, "answer {answer}: {n}")?;
            }
        }
        for (kind, n) in self.races.iter().enumerate().skip(1) {
            writeln!(f, "race kind {kind}: {n}")?;
        }
        writeln!(f, "faults of a picked yielder: {}", self.picked)?;
        writeln!(f, "refused at a jump to itself: {}", self.own_refused)?;
        let [jump_if, jump_if_not] = self.own_held;
        writeln!(f, "jump if, jump if not to its own row: {jump_if} {jump_if_not}")?;
        write!(f, "{}", self.claims)?;
        writeln!(f, "rows: in accepted tables, completed in last executions")?;
        for (opcode, name) in OPCODES.iter().enumerate() {
            let (held, done) = (self.held.opcodes[opcode], self.done.opcodes[opcode]);
            writeln!(f, "opcode {opcode} {name}: {held} {done}")?;
        }
        self.write_orders(f)?;
        self.write_changes(f)
    }
}

impl Tally {
    fn write_orders(&self, f: &mut fmt::Formatter<'_>) -> fmt::Result {
        for (opcode, name) in OPCODES.iter().enumerate().take(5) {
            for (order, word) in ORDERS.iter().enumerate() {
                if allowed(opcode, order) {
                    let held = self.held.orders[opcode][order];
                    let done = self.done.orders[opcode][order];
                    writeln!(f, "{name} {word}: {held} {done}")?;
                }
            }
        }
        for order in [0, 2, 4] {
            let (held, done) = (self.held.failures[order], self.done.failures[order]);
            writeln!(f, "failure order {}: {held} {done}", ORDERS[order])?;
        }
        Ok(())
    }

    fn write_changes(&self, f: &mut fmt::Formatter<'_>) -> fmt::Result {
        for (i, opcode) in ["RMW", "exclusive"].iter().enumerate() {
            for (change, name) in CHANGES.iter().enumerate() {
                let held = self.held.changes[i][change];
                let done = self.done.changes[i][change];
                writeln!(f, "{opcode} {name}: {held} {done}")?;
            }
        }
        Ok(())
    }
}

/// Whether the thread at fault is yielded by a yield that it has come past: the scheduling of its own
/// yield, where it is yielded too, can only answer 11 or 17.
fn goes_on_yielded(program: &Program, answer: &Answer) -> bool {
    let numbers = &answer.numbers;
    let (thread, row) = (numbers[5] as usize, numbers[6] as usize);
    let Some(rows) = program.threads.get(thread) else {
        return false;
    };
    let gives_way = rows.get(row).is_some_and(|row| row.opcode == 7);
    numbers[9 + 4 * thread] == 3 && !(gives_way && [11, 17].contains(&numbers[0]))
}

/// How many rows of this opcode jump to themselves.
fn own_jumps(program: &Program, opcode: u8) -> u64 {
    let own = |&(own, row): &(u16, &Row)| row.opcode == opcode && row.target == own;
    let count = |rows: &Vec<Row>| (0..).zip(rows).filter(own).count() as u64;
    program.threads.iter().map(count).sum()
}

/// Whether the bad row that a refusal names is a jump to itself with nothing else amiss.
fn refused_at_own(case: &Case, answer: &Answer) -> bool {
    let numbers = &answer.numbers;
    let (thread, row) = (numbers[5] as usize, numbers[6] as usize);
    let program = Program::read(&case.table).filter(|_| numbers[0] == 5);
    let rows = program.and_then(|program| program.threads.get(thread).cloned());
    rows.is_some_and(|rows| rows.get(row) == Some(&jump(row as u16)))
}

/// Whether a row of this opcode, 0 to 4, may have this order.
pub fn allowed(opcode: usize, order: usize) -> bool {
    match opcode {
        0 => order != 1 && order != 3,
        1 | 2 => order != 2 && order != 3,
        4 => order != 0,
        _ => true,
    }
}
