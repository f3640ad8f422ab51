//! The fifty programs that speed is measured on. docs/SPEED.md has the same list, in the lines that
//! `compare fifty` prints; it was fixed before anything was measured and stays as it is.

mod large;
mod loops;
mod many;
mod offers;
mod small;

use cases::table::Program;
use std::fmt;
use terms::Settings;

/// A program to be timed.
pub struct Timed {
    pub name: &'static str,
    /// What its time goes into.
    pub stresses: &'static str,
    pub program: Program,
    pub settings: Settings,
    /// How often it is explored in one measurement: a single run of a small one is too short to
    /// time.
    pub runs: u32,
}

/// All fifty, ten of each kind.
pub fn all() -> Vec<Timed> {
    let kinds = [small::all(), large::all(), many::all(), loops::all(), offers::all()];
    kinds.into_iter().flatten().collect()
}

/// A program that is explored from the start, without bound, once in a measurement.
fn timed(name: &'static str, stresses: &'static str, program: Program) -> Timed {
    let settings =
        Settings { branches: 64, operations: 64, executions: 1, bound: None, exploring: true };
    Timed { name, stresses, program, settings, runs: 1 }
}

impl Timed {
    /// The limits B, L and N.
    fn limits(mut self, branches: u64, operations: u64, executions: u64) -> Timed {
        self.settings = Settings { branches, operations, executions, ..self.settings };
        self
    }

    fn bound(mut self, bound: u8) -> Timed {
        self.settings.bound = Some(bound);
        self
    }

    fn runs(mut self, runs: u32) -> Timed {
        self.runs = runs;
        self
    }

    /// Bytes of the path buffer.
    pub fn path(&self) -> usize {
        16 * self.settings.branches as usize
    }

    /// Bytes of the trace buffer.
    pub fn trace(&self) -> usize {
        16 * self.settings.operations as usize
    }
}

/// Its line in the table of docs/SPEED.md.
impl fmt::Display for Timed {
    fn fmt(&self, f: &mut fmt::Formatter<'_>) -> fmt::Result {
        let rows: usize = self.program.threads.iter().map(Vec::len).sum();
        let Settings { branches, operations, executions, bound, .. } = self.settings;
        let bound = bound.map_or(String::new(), |bound| format!(", bound {bound}"));
        write!(
            f,
            "| {} | {} | {} | {rows} | {branches} | {operations} | {executions} | {} | {}{bound} |",
            self.name,
            self.program.threads.len(),
            self.program.starts.len(),
            self.runs,
            self.stresses,
        )
    }
}
