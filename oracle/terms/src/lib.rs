//! The words that every explorer of this workspace shares: settings in, report out, and the digest
//! of a whole history. No rule of document 01 is decided here.

/// What a run is given beside its table and buffers. Nothing is checked yet.
#[derive(Clone, Copy, Debug, PartialEq, Eq)]
pub struct Settings {
    /// Branch limit B.
    pub branches: u64,
    /// Operation limit L.
    pub operations: u64,
    /// Execution budget N.
    pub executions: u64,
    /// Preemption bound, or none.
    pub bound: Option<u8>,
    /// Exploring on start.
    pub exploring: bool,
}

/// One thread at the end of the last execution; all zero for an absent thread.
#[derive(Clone, Copy, Debug, Default, PartialEq, Eq)]
pub struct Summary {
    /// 0 absent, 1 runnable, 2 blocked, 3 yielded, 4 ended.
    pub state: u64,
    /// Rows begun by this thread.
    pub rows: u64,
    pub yields: u64,
    /// Own part of the causality.
    pub version: u64,
}

/// The answer of a run.
#[derive(Clone, Copy, Debug, PartialEq, Eq)]
pub struct Report {
    pub answer: u64,
    /// Executions begun.
    pub executions: u64,
    /// Choices opened in the whole history.
    pub opened: u64,
    /// Choices open in the path left.
    pub open: u64,
    /// Rows begun in the last execution.
    pub rows: u64,
    /// Thread at fault, or 255.
    pub thread: u64,
    /// Row at fault, or 255.
    pub row: u64,
    /// Race kind, or 0.
    pub kind: u64,
    /// Other thread of the race, or 255.
    pub other: u64,
    pub threads: [Summary; 5],
}

/// How many numbers a report has.
pub const NUMBERS: usize = 29;

impl Report {
    /// The report of a refusal (answers 2 to 5): no execution was begun.
    pub fn refusal(answer: u64, thread: u64, row: u64) -> Report {
        Report {
            answer,
            executions: 0,
            opened: 0,
            open: 0,
            rows: 0,
            thread,
            row,
            kind: 0,
            other: 255,
            threads: [Summary::default(); 5],
        }
    }

    /// The report as numbers, in the order of its fields, the summaries by thread.
    pub fn numbers(&self) -> [u64; NUMBERS] {
        let mut out = [0; NUMBERS];
        let head = [
            self.answer,
            self.executions,
            self.opened,
            self.open,
            self.rows,
            self.thread,
            self.row,
            self.kind,
            self.other,
        ];
        out[..9].copy_from_slice(&head);
        for (t, s) in self.threads.iter().enumerate() {
            out[9 + 4 * t..13 + 4 * t].copy_from_slice(&[s.state, s.rows, s.yields, s.version]);
        }
        out
    }
}

/// FNV-1a (64 bits) over a whole history. For each execution, when it ends or faults: the number of
/// path records as eight little-endian bytes, those records, the number of trace entries likewise,
/// those entries. So no execution can go missing unseen.
#[derive(Clone, Copy, Debug, PartialEq, Eq)]
pub struct Digest(u64);

impl Default for Digest {
    fn default() -> Self {
        Digest(0xcbf2_9ce4_8422_2325)
    }
}

impl Digest {
    /// Takes one execution: `path` and `trace` are its used bytes alone, 16 for each record or entry.
    pub fn execution(&mut self, path: &[u8], trace: &[u8]) {
        for part in [path, trace] {
            self.bytes(&(part.len() as u64 / 16).to_le_bytes());
            self.bytes(part);
        }
    }

    fn bytes(&mut self, bytes: &[u8]) {
        for &b in bytes {
            self.0 = (self.0 ^ u64::from(b)).wrapping_mul(0x0000_0100_0000_01b3);
        }
    }

    /// The digest of the executions taken so far.
    pub fn value(self) -> u64 {
        self.0
    }
}
