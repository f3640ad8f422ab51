//! Cases built by hand, each with a line that says what it shows and the answer it is built for.

mod claims;
mod fences;
mod flags;
mod limits;
mod orders;
mod plain;
mod races;
mod refused;
mod rows;
mod scheduling;
mod worked;

use crate::format::Case;
use crate::table::Program;
use terms::Settings;

/// A hand-built case.
#[derive(Clone, Debug)]
pub struct Hand {
    /// What it shows, in a line.
    pub shows: String,
    /// The answer it is built for.
    pub answer: u64,
    pub case: Case,
}

/// All of them.
pub fn all() -> Vec<Hand> {
    [
        worked::all(),
        limits::all(),
        rows::all(),
        scheduling::all(),
        flags::all(),
        races::all(),
        fences::all(),
        orders::all(),
        plain::all(),
        refused::all(),
        claims::all(),
    ]
    .concat()
}

/// A case that explores on start, without bound or list, with room to spare.
fn hand(name: &str, answer: u64, program: Program) -> Hand {
    let settings =
        Settings { branches: 64, operations: 64, executions: 1_000, bound: None, exploring: true };
    let case = Case {
        name: name.to_string(),
        settings,
        path: 16 * 64,
        trace: 16 * 64,
        list: None,
        table: program.table(),
        condition: Vec::new(),
    };
    Hand { shows: String::new(), answer, case }
}

impl Hand {
    fn shows(mut self, shows: &str) -> Hand {
        self.shows = shows.to_string();
        self
    }

    /// Other limits B, L and N, the buffers fitted to them.
    fn limits(mut self, branches: u64, operations: u64, executions: u64) -> Hand {
        self.case.settings.branches = branches;
        self.case.settings.operations = operations;
        self.case.settings.executions = executions;
        self.case.path = 16 * branches as usize;
        self.case.trace = 16 * operations as usize;
        self
    }

    fn bound(mut self, bound: u8) -> Hand {
        self.case.settings.bound = Some(bound);
        self
    }

    /// Not exploring on start.
    fn quiet(mut self) -> Hand {
        self.case.settings.exploring = false;
        self
    }

    /// With a thread list of this length.
    fn list(mut self, length: usize) -> Hand {
        self.case.list = Some(length);
        self
    }
}
