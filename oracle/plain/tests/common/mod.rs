//! Writing tables by hand, and running them with everything that must hold of every run.
#![allow(dead_code, unused_imports)]

pub use plain::{MAX_BRANCHES, MAX_EXECUTIONS, MAX_OPERATIONS, MAX_ROWS};
use std::collections::HashSet;
use terms::{Report, Settings, Summary};

pub const RELAXED: u8 = 0;
pub const RELEASE: u8 = 1;
pub const ACQUIRE: u8 = 2;
pub const ACQ_REL: u8 = 3;
pub const SEQ_CST: u8 = 4;

/// The 24 bytes of a row.
pub type Row = [u8; 24];

/// A row by its fields.
#[derive(Clone, Copy, Default)]
pub struct Fields {
    pub opcode: u8,
    pub place: u8,
    pub order: u8,
    pub failure: u8,
    pub change: u8,
    pub register: u8,
    pub target: u16,
    pub a: u64,
    pub b: u64,
}

impl Fields {
    pub fn row(self) -> Row {
        let mut row = [0; 24];
        row[..6].copy_from_slice(&[
            self.opcode,
            self.place,
            self.order,
            self.failure,
            self.change,
            self.register,
        ]);
        row[6..8].copy_from_slice(&self.target.to_le_bytes());
        row[8..16].copy_from_slice(&self.a.to_le_bytes());
        row[16..].copy_from_slice(&self.b.to_le_bytes());
        row
    }
}

pub fn load(place: u8, order: u8, register: u8) -> Row {
    Fields {
        opcode: 0,
        place,
        order,
        register,
        ..Fields::default()
    }
    .row()
}

pub fn store(place: u8, order: u8, a: u64) -> Row {
    Fields {
        opcode: 1,
        place,
        order,
        a,
        ..Fields::default()
    }
    .row()
}

pub fn store_register(place: u8, order: u8, register: u8) -> Row {
    Fields {
        opcode: 2,
        place,
        order,
        register,
        ..Fields::default()
    }
    .row()
}

/// A change that cannot fail.
pub fn rmw(place: u8, order: u8, change: u8, register: u8, a: u64) -> Row {
    Fields {
        opcode: 3,
        place,
        order,
        change,
        register,
        a,
        ..Fields::default()
    }
    .row()
}

pub fn fence(order: u8) -> Row {
    Fields {
        opcode: 4,
        order,
        ..Fields::default()
    }
    .row()
}

pub fn unsync_load(place: u8, register: u8) -> Row {
    Fields {
        opcode: 5,
        place,
        register,
        ..Fields::default()
    }
    .row()
}

pub fn with_mut(place: u8, change: u8, register: u8, a: u64) -> Row {
    Fields {
        opcode: 6,
        place,
        change,
        register,
        a,
        ..Fields::default()
    }
    .row()
}

/// A row of which only the opcode is used.
pub fn bare(opcode: u8) -> Row {
    Fields {
        opcode,
        ..Fields::default()
    }
    .row()
}

pub fn yield_now() -> Row {
    bare(7)
}

pub fn join(place: u8) -> Row {
    Fields {
        opcode: 8,
        place,
        ..Fields::default()
    }
    .row()
}

pub fn jump(target: u16) -> Row {
    Fields {
        opcode: 9,
        target,
        ..Fields::default()
    }
    .row()
}

pub fn jump_if(register: u8, a: u64, target: u16) -> Row {
    Fields {
        opcode: 10,
        register,
        a,
        target,
        ..Fields::default()
    }
    .row()
}

pub fn jump_unless(register: u8, a: u64, target: u16) -> Row {
    Fields {
        opcode: 11,
        register,
        a,
        target,
        ..Fields::default()
    }
    .row()
}

pub fn check(register: u8, a: u64) -> Row {
    Fields {
        opcode: 12,
        register,
        a,
        ..Fields::default()
    }
    .row()
}

pub fn spurious(register: u8) -> Row {
    Fields {
        opcode: 16,
        register,
        ..Fields::default()
    }
    .row()
}

pub fn plain_read(place: u8, register: u8) -> Row {
    Fields {
        opcode: 17,
        place,
        register,
        ..Fields::default()
    }
    .row()
}

pub fn plain_write(place: u8, a: u64) -> Row {
    Fields {
        opcode: 18,
        place,
        a,
        ..Fields::default()
    }
    .row()
}

/// A table of these cells and threads.
pub fn table(cells: &[u64], threads: &[&[Row]]) -> Vec<u8> {
    table_with(cells, &[], threads)
}

/// A table of these atomic cells, plain cells and threads.
pub fn table_with(cells: &[u64], plains: &[u64], threads: &[&[Row]]) -> Vec<u8> {
    let mut bytes = vec![0; 8];
    bytes[0] = threads.len() as u8;
    bytes[1] = cells.len() as u8;
    bytes[7] = plains.len() as u8;
    for (count, rows) in bytes[2..7].iter_mut().zip(threads) {
        *count = rows.len() as u8;
    }
    for cell in cells.iter().chain(plains) {
        bytes.extend(cell.to_le_bytes());
    }
    for row in threads.iter().copied().flatten() {
        bytes.extend(row);
    }
    bytes
}

/// Room for whatever a small program needs.
pub fn settings() -> Settings {
    Settings {
        branches: MAX_BRANCHES,
        operations: MAX_OPERATIONS,
        executions: MAX_EXECUTIONS,
        bound: None,
        exploring: true,
    }
}

pub fn bounded(bound: u8) -> Settings {
    Settings {
        bound: Some(bound),
        ..settings()
    }
}

/// What a run left.
pub struct Left {
    pub report: Report,
    pub path: Vec<u8>,
    pub trace: Vec<u8>,
    /// Path and trace of each execution, used bytes only.
    pub history: Vec<(Vec<u8>, Vec<u8>)>,
}

impl Left {
    /// Values in the trace of each execution's entries with this opcode.
    pub fn values(&self, opcode: u8) -> Vec<u64> {
        let entries = self
            .history
            .iter()
            .flat_map(|(_, trace)| trace.as_chunks::<16>().0);
        entries
            .filter(|entry| entry[2] == opcode)
            .map(value)
            .collect()
    }

    /// Entries of the last execution.
    pub fn entries(&self) -> &[[u8; 16]] {
        self.history
            .last()
            .map_or(&[], |(_, trace)| trace.as_chunks().0)
    }
}

pub fn value(entry: &[u8; 16]) -> u64 {
    u64::from_le_bytes(*entry.last_chunk().unwrap())
}

/// Runs with buffers of the right lengths.
pub fn run(table: &[u8], settings: &Settings) -> Left {
    run_claimed(table, &[], settings)
}

/// The same with a final condition.
pub fn run_claimed(table: &[u8], condition: &[u8], settings: &Settings) -> Left {
    let path = 16 * settings.branches.min(MAX_BRANCHES + 1) as usize;
    let trace = 16 * settings.operations.min(MAX_OPERATIONS + 1) as usize;
    run_all(table, condition, settings, (path, trace, 5))
}

/// Runs without condition, with buffers of any lengths.
pub fn run_in(table: &[u8], settings: &Settings, path: usize, trace: usize, list: usize) -> Left {
    run_all(table, &[], settings, (path, trace, list))
}

/// Runs all three entries, which have to agree, and tests what must hold of every run.
fn run_all(
    table: &[u8],
    condition: &[u8],
    settings: &Settings,
    (path, trace, list): (usize, usize, usize),
) -> Left {
    let before = Summary {
        state: 7,
        rows: 7,
        yields: 7,
        version: 7,
    };
    let mut summaries = vec![before; list];
    let mut left = dirty(path, trace);
    let (path_bytes, trace_bytes) = (&mut left.path, &mut left.trace);
    left.report = plain::explore_watched(
        table,
        condition,
        settings,
        path_bytes,
        trace_bytes,
        Some(&mut summaries),
        |path, trace| left.history.push((path.to_vec(), trace.to_vec())),
    );
    agrees_with_list(&left, [table, condition], settings, &summaries);
    if list == 5 {
        agrees_without_list(&left, [table, condition], settings);
    }
    if (2..=5).contains(&left.report.answer) {
        let untouched = dirty(path, trace);
        assert!(left.path == untouched.path && left.trace == untouched.trace);
        assert!(summaries.iter().all(|summary| *summary == before));
        assert!(left.history.is_empty());
    } else {
        assert_eq!(summaries, left.report.threads);
        holds(&left);
    }
    left
}

/// Buffers that are not zero, to show whether they are cleared or left alone.
fn dirty(path: usize, trace: usize) -> Left {
    let report = Report::refusal(0, 0, 0);
    Left {
        report,
        path: vec![0xA5; path],
        trace: vec![0x5A; trace],
        history: Vec::new(),
    }
}

fn agrees_with_list(
    left: &Left,
    [table, condition]: [&[u8]; 2],
    settings: &Settings,
    list: &[Summary],
) {
    let mut again = dirty(left.path.len(), left.trace.len());
    let mut summaries = vec![
        Summary {
            state: 7,
            rows: 7,
            yields: 7,
            version: 7
        };
        list.len()
    ];
    let report = plain::explore_into(
        table,
        condition,
        settings,
        &mut again.path,
        &mut again.trace,
        &mut summaries,
    );
    assert_eq!((report, summaries), (left.report, list.to_vec()));
    assert!(again.path == left.path && again.trace == left.trace);
}

fn agrees_without_list(left: &Left, [table, condition]: [&[u8]; 2], settings: &Settings) {
    let mut again = dirty(left.path.len(), left.trace.len());
    let (path, trace) = (&mut again.path, &mut again.trace);
    let report = plain::explore(table, condition, settings, path, trace);
    assert_eq!(report, left.report);
    assert!(again.path == left.path && again.trace == left.trace);
}

/// The ledger, the ends of both buffers, and that no execution is another one over again.
fn holds(left: &Left) {
    let report = &left.report;
    assert_eq!(report.executions, 1 + report.opened - report.open);
    assert_eq!(report.executions, left.history.len() as u64);
    assert_eq!(
        report.rows,
        report.threads.iter().map(|thread| thread.rows).sum::<u64>()
    );
    let (path, trace) = left.history.last().unwrap();
    assert!(left.path.starts_with(path) && left.path[path.len()..].iter().all(|&byte| byte == 0));
    assert!(
        left.trace.starts_with(trace) && left.trace[trace.len()..].iter().all(|&byte| byte == 0)
    );
    let choices: HashSet<Vec<u8>> = left.history.iter().map(|(path, _)| choices(path)).collect();
    assert_eq!(choices.len(), left.history.len());
}

/// What was chosen at each record.
fn choices(path: &[u8]) -> Vec<u8> {
    let choice = |record: &[u8; 16]| match record[0] {
        1 => record[2..7]
            .iter()
            .position(|&state| state == 4)
            .map_or(255, |thread| thread as u8),
        2 => record[2 + record[9] as usize],
        _ => record[2],
    };
    path.as_chunks().0.iter().map(choice).collect()
}
