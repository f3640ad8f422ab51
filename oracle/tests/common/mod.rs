//! A small builder for tables, and a run that checks on the side what holds for every run.
#![allow(dead_code)] // Each test file uses a part of it.

use terms::{Report, Settings, Summary};

pub const RELAXED: u8 = 0;
pub const RELEASE: u8 = 1;
pub const ACQUIRE: u8 = 2;
pub const ACQREL: u8 = 3;
pub const SEQCST: u8 = 4;

/// What fills buffers before a run, so that a byte left alone shows.
pub const PATTERN: u8 = 0xa5;

#[derive(Clone, Copy, Debug, Default, PartialEq, Eq)]
pub struct Row {
    pub opcode: u8,
    pub place: u8,
    pub order: u8,
    pub failure: u8,
    pub change: u8,
    pub register: u8,
    pub target: u16,
    pub a: u64,
    pub b: u64,
}

impl Row {
    pub fn bytes(&self) -> Vec<u8> {
        let mut bytes = vec![self.opcode, self.place, self.order];
        bytes.extend([self.failure, self.change, self.register]);
        bytes.extend(self.target.to_le_bytes());
        bytes.extend(self.a.to_le_bytes());
        bytes.extend(self.b.to_le_bytes());
        bytes
    }
}

fn op(opcode: u8) -> Row {
    Row {
        opcode,
        ..Row::default()
    }
}

pub fn load(place: u8, order: u8, register: u8) -> Row {
    Row {
        place,
        order,
        register,
        ..op(0)
    }
}

pub fn store(place: u8, order: u8, a: u64) -> Row {
    Row {
        place,
        order,
        a,
        ..op(1)
    }
}

pub fn store_register(place: u8, order: u8, register: u8) -> Row {
    Row {
        place,
        order,
        register,
        ..op(2)
    }
}

/// An RMW of kinds 0 to 10.
pub fn rmw(place: u8, order: u8, change: u8, register: u8, a: u64) -> Row {
    Row {
        place,
        order,
        change,
        register,
        a,
        ..op(3)
    }
}

/// RMW kind 11: compare a, write b.
pub fn compare(place: u8, orders: (u8, u8), register: u8, a: u64, b: u64) -> Row {
    Row {
        failure: orders.1,
        b,
        ..rmw(place, orders.0, 11, register, a)
    }
}

/// RMW kind 12: decrement unless zero.
pub fn decrement(place: u8, orders: (u8, u8), register: u8) -> Row {
    Row {
        failure: orders.1,
        ..rmw(place, orders.0, 12, register, 0)
    }
}

pub fn fence(order: u8) -> Row {
    Row { order, ..op(4) }
}

pub fn unsync_load(place: u8, register: u8) -> Row {
    Row {
        place,
        register,
        ..op(5)
    }
}

/// An exclusive change of kinds 0 to 10.
pub fn exclusive(place: u8, change: u8, register: u8, a: u64) -> Row {
    Row {
        place,
        change,
        register,
        a,
        ..op(6)
    }
}

pub fn yields() -> Row {
    op(7)
}

pub fn join(place: u8) -> Row {
    Row { place, ..op(8) }
}

pub fn jump(target: u16) -> Row {
    Row { target, ..op(9) }
}

pub fn jump_if(register: u8, a: u64, target: u16) -> Row {
    Row {
        register,
        a,
        target,
        ..op(10)
    }
}

pub fn jump_unless(register: u8, a: u64, target: u16) -> Row {
    Row {
        register,
        a,
        target,
        ..op(11)
    }
}

pub fn check(register: u8, a: u64) -> Row {
    Row {
        register,
        a,
        ..op(12)
    }
}

pub fn critical() -> Row {
    op(13)
}

pub fn explore_state() -> Row {
    op(14)
}

pub fn skip_branch() -> Row {
    op(15)
}

pub fn spurious(register: u8) -> Row {
    Row { register, ..op(16) }
}

pub fn plain_read(place: u8, register: u8) -> Row {
    Row {
        place,
        register,
        ..op(17)
    }
}

pub fn plain_write(place: u8, a: u64) -> Row {
    Row { place, a, ..op(18) }
}

/// A table with these start values and these rows for each thread.
pub fn table(cells: &[u64], threads: &[&[Row]]) -> Vec<u8> {
    table_with(cells, &[], threads)
}

/// The same with plain cells.
pub fn table_with(cells: &[u64], plains: &[u64], threads: &[&[Row]]) -> Vec<u8> {
    let mut bytes = vec![threads.len() as u8, cells.len() as u8];
    bytes.extend(threads.iter().map(|rows| rows.len() as u8));
    bytes.resize(7, 0);
    bytes.push(plains.len() as u8);
    let starts = cells.iter().chain(plains);
    bytes.extend(starts.flat_map(|start| start.to_le_bytes()));
    let rows = threads.iter().flat_map(|rows| rows.iter());
    bytes.extend(rows.flat_map(Row::bytes));
    bytes
}

/// Exploring on start, no bound.
pub fn settings(branches: u64, operations: u64, executions: u64) -> Settings {
    Settings {
        branches,
        operations,
        executions,
        bound: None,
        exploring: true,
    }
}

/// An entry of a trace, taken apart.
#[derive(Clone, Copy, Debug, PartialEq, Eq)]
pub struct Entry {
    pub thread: u8,
    pub row: u8,
    pub opcode: u8,
    pub slot: u8,
    pub mask: u8,
    pub value: u64,
}

pub fn entries(trace: &[u8]) -> Vec<Entry> {
    let entry = |bytes: &[u8]| {
        assert_eq!(bytes[5..8], [0; 3], "three zeros");
        Entry {
            thread: bytes[0],
            row: bytes[1],
            opcode: bytes[2],
            slot: bytes[3],
            mask: bytes[4],
            value: u64::from_le_bytes(bytes[8..].try_into().unwrap()),
        }
    };
    assert_eq!(trace.len() % 16, 0);
    trace.chunks(16).map(entry).collect()
}

/// The entry of one thread's row in a trace, which has it exactly once.
pub fn entry_of(trace: &[u8], thread: u8, row: u8) -> Entry {
    let all = entries(trace);
    let mut hits = all.iter().filter(|e| (e.thread, e.row) == (thread, row));
    let hit = *hits.next().expect("the row completed");
    assert!(hits.next().is_none(), "the row completed once");
    hit
}

/// A run and all it left.
pub struct Ran {
    pub report: Report,
    /// Used bytes of path and trace, for each execution.
    pub history: Vec<(Vec<u8>, Vec<u8>)>,
}

impl Ran {
    pub fn last_path(&self) -> &[u8] {
        &self.history.last().unwrap().0
    }

    pub fn last_trace(&self) -> &[u8] {
        &self.history.last().unwrap().1
    }

    /// The value in the entry of one thread's row, for each execution.
    pub fn values(&self, thread: u8, row: u8) -> Vec<u64> {
        let value = |(_, trace): &(Vec<u8>, Vec<u8>)| entry_of(trace, thread, row).value;
        self.history.iter().map(value).collect()
    }

    /// Answer, executions, opened, open.
    pub fn counts(&self) -> [u64; 4] {
        let r = &self.report;
        [r.answer, r.executions, r.opened, r.open]
    }

    /// Answer, thread and row at fault.
    pub fn fault(&self) -> [u64; 3] {
        [self.report.answer, self.report.thread, self.report.row]
    }

    /// Answer, race kind and other thread.
    pub fn race(&self) -> [u64; 3] {
        [self.report.answer, self.report.kind, self.report.other]
    }
}

/// Runs a table that is not refused, and checks what holds for every such run.
pub fn run(table: &[u8], settings: &Settings) -> Ran {
    run_claimed(table, &[], settings)
}

/// The same with a final condition.
pub fn run_claimed(table: &[u8], condition: &[u8], settings: &Settings) -> Ran {
    let mut path = vec![PATTERN; 16 * settings.branches as usize];
    let mut trace = vec![PATTERN; 16 * settings.operations as usize];
    let mut list = [Summary {
        state: 77,
        rows: 77,
        yields: 77,
        version: 77,
    }; 5];
    let mut history = Vec::new();
    let mut take = |p: &[u8], t: &[u8]| history.push((p.to_vec(), t.to_vec()));
    let report = oracle::explore(
        table,
        condition,
        settings,
        &mut path,
        &mut trace,
        Some(&mut list),
        &mut take,
    );
    assert!(!(2..=5).contains(&report.answer), "refused: {report:?}");
    assert_eq!(list, report.threads);
    let ran = Ran { report, history };
    balanced(&ran, settings);
    left(&ran, &path, &trace);
    ran
}

/// The ledger, and the other sums of a report.
fn balanced(ran: &Ran, settings: &Settings) {
    let report = &ran.report;
    assert_eq!(
        report.executions + report.open,
        1 + report.opened,
        "the ledger"
    );
    assert_eq!(ran.history.len() as u64, report.executions);
    assert!(report.executions <= settings.executions);
    let rows: u64 = report.threads.iter().map(|thread| thread.rows).sum();
    assert_eq!(rows, report.rows);
    assert!(report.rows <= settings.operations);
    assert_eq!(open_in(ran.last_path()), report.open);
    let named = (11..=17).contains(&report.answer);
    assert_eq!(named, report.thread != 255);
    assert_eq!(named, report.row != 255);
    assert_eq!(report.answer == 14, report.kind != 0);
    assert_eq!(report.answer == 14, report.other != 255);
}

/// Both buffers hold what the last execution left, and zeros.
fn left(ran: &Ran, path: &[u8], trace: &[u8]) {
    for (buffer, used) in [(path, ran.last_path()), (trace, ran.last_trace())] {
        let (start, rest) = buffer.split_at(used.len());
        assert_eq!(start, used);
        assert!(rest.iter().all(|&byte| byte == 0), "zeros after");
    }
}

/// Choices open in a path, from document 01's words and the bytes alone.
pub fn open_in(path: &[u8]) -> u64 {
    let exploring = path.chunks(16).filter(|record| record[1] == 1);
    let open = |record: &[u8]| match record[0] {
        1 => record[2..7].iter().filter(|&&state| state == 3).count() as u64,
        2 => u64::from(record[10] - 1 - record[9]),
        3 => u64::from(1 - record[2]),
        kind => panic!("record of kind {kind}"),
    };
    exploring.map(open).sum()
}

/// A schedule record: states, preemptions, initial active, prev. Exploring.
pub fn schedule_record(states: [u8; 5], preemptions: u8, initial: u8, prev: u16) -> [u8; 16] {
    let mut record = [0; 16];
    record[..2].copy_from_slice(&[1, 1]);
    record[2..7].copy_from_slice(&states);
    record[7] = preemptions;
    record[8] = initial;
    record[9..11].copy_from_slice(&prev.to_le_bytes());
    record
}

/// A load record: offers and the place of the one chosen. Exploring.
pub fn load_record(offers: &[u8], pos: u8) -> [u8; 16] {
    let mut record = [0; 16];
    record[..2].copy_from_slice(&[2, 1]);
    record[2..2 + offers.len()].copy_from_slice(offers);
    record[9] = pos;
    record[10] = offers.len() as u8;
    record
}
