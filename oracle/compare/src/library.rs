//! The proved explorer behind its C entries. All that is unsafe in calling it stands here.

use crate::guarded::Guarded;
use cases::run::pattern;
use terms::{Settings, NUMBERS};

/// What an entry returns for arguments that are none: another bound, exploring, or number of numbers.
pub const NO_ARGUMENTS: u64 = 255;
/// How the entry is told that there is no preemption bound.
pub const UNBOUNDED: u64 = 256;

mod entry {
    // A slice goes as its address, then its length in elements.
    extern "C" {
        pub fn chjirvollu_explore(
            table: *const u8,
            table_length: usize,
            branches: u64,
            operations: u64,
            executions: u64,
            bound: u64,
            exploring: u64,
            path: *mut u8,
            path_length: usize,
            trace: *mut u8,
            trace_length: usize,
            report: *mut u64,
            report_length: usize,
        ) -> u64;

        pub fn chjirvollu_explore_condition(
            table: *const u8,
            table_length: usize,
            condition: *const u8,
            condition_length: usize,
            branches: u64,
            operations: u64,
            executions: u64,
            bound: u64,
            exploring: u64,
            path: *mut u8,
            path_length: usize,
            trace: *mut u8,
            trace_length: usize,
            report: *mut u64,
            report_length: usize,
        ) -> u64;

        pub fn chjirvollu_read(
            text: *const u8,
            text_length: usize,
            table: *mut u8,
            table_length: usize,
            condition: *mut u8,
            condition_length: usize,
            numbers: *mut u64,
            numbers_length: usize,
        ) -> u64;

        pub fn chjirvollu_write(
            table: *const u8,
            table_length: usize,
            condition: *const u8,
            condition_length: usize,
            text: *mut u8,
            text_length: usize,
            numbers: *mut u64,
            numbers_length: usize,
        ) -> u64;
    }
}

/// The numbers of a call, as the entry takes them.
#[derive(Clone, Copy, Debug)]
pub struct Numbers {
    pub branches: u64,
    pub operations: u64,
    pub executions: u64,
    pub bound: u64,
    pub exploring: u64,
}

impl From<&Settings> for Numbers {
    fn from(settings: &Settings) -> Numbers {
        Numbers {
            branches: settings.branches,
            operations: settings.operations,
            executions: settings.executions,
            bound: settings.bound.map_or(UNBOUNDED, u64::from),
            exploring: settings.exploring.into(),
        }
    }
}

/// Calls the entry that takes no condition.
pub fn explore(
    table: &[u8],
    numbers: Numbers,
    path: &mut [u8],
    trace: &mut [u8],
    report: &mut [u64],
) -> u64 {
    // SAFETY: each address goes with its own slice's length, and no slice that is written overlaps
    // another. The entry takes any numbers and lengths, and keeps no address.
    unsafe {
        entry::chjirvollu_explore(
            table.as_ptr(),
            table.len(),
            numbers.branches,
            numbers.operations,
            numbers.executions,
            numbers.bound,
            numbers.exploring,
            path.as_mut_ptr(),
            path.len(),
            trace.as_mut_ptr(),
            trace.len(),
            report.as_mut_ptr(),
            report.len(),
        )
    }
}

/// Calls the entry that takes a condition.
pub fn explore_condition(
    table: &[u8],
    condition: &[u8],
    numbers: Numbers,
    path: &mut [u8],
    trace: &mut [u8],
    report: &mut [u64],
) -> u64 {
    // SAFETY: as above.
    unsafe {
        entry::chjirvollu_explore_condition(
            table.as_ptr(),
            table.len(),
            condition.as_ptr(),
            condition.len(),
            numbers.branches,
            numbers.operations,
            numbers.executions,
            numbers.bound,
            numbers.exploring,
            path.as_mut_ptr(),
            path.len(),
            trace.as_mut_ptr(),
            trace.len(),
            report.as_mut_ptr(),
            report.len(),
        )
    }
}

/// Calls the entry that reads a text.
pub fn read(text: &[u8], table: &mut [u8], condition: &mut [u8], numbers: &mut [u64]) -> u64 {
    // SAFETY: as above.
    unsafe {
        entry::chjirvollu_read(
            text.as_ptr(),
            text.len(),
            table.as_mut_ptr(),
            table.len(),
            condition.as_mut_ptr(),
            condition.len(),
            numbers.as_mut_ptr(),
            numbers.len(),
        )
    }
}

/// Calls the entry that writes one.
pub fn write(table: &[u8], condition: &[u8], text: &mut [u8], numbers: &mut [u64]) -> u64 {
    // SAFETY: as above.
    unsafe {
        entry::chjirvollu_write(
            table.as_ptr(),
            table.len(),
            condition.as_ptr(),
            condition.len(),
            text.as_mut_ptr(),
            text.len(),
            numbers.as_mut_ptr(),
            numbers.len(),
        )
    }
}

/// What a watched call is given.
pub struct Call<'a> {
    pub table: &'a [u8],
    /// None where the entry that takes no condition is called.
    pub condition: Option<&'a [u8]>,
    pub numbers: Numbers,
    /// Lengths of the path, the trace and the report.
    pub path: usize,
    pub trace: usize,
    pub report: usize,
    /// How far the buffers are moved off their alignment.
    pub shift: usize,
}

/// What a watched call left.
pub struct Left {
    pub returned: u64,
    pub report: Vec<u64>,
    pub path: Vec<u8>,
    pub trace: Vec<u8>,
    /// Memory that was written though it must not be, by name.
    pub broken: Vec<&'static str>,
}

/// The number that stands at a place of the report before a call: none that a report can have.
pub fn report_pattern(place: usize) -> u64 {
    0xc3c3_c3c3_0000_0000 + place as u64
}

impl Call<'_> {
    /// The call that a case means. Without a condition it goes to the entry that takes none; one shift in
    /// sixteen gives no bytes to the other entry.
    pub fn of(case: &cases::format::Case, shift: usize) -> Call<'_> {
        let bare = case.condition.is_empty() && shift % 16 != 15;
        Call {
            table: &case.table,
            condition: (!bare).then_some(&case.condition),
            numbers: Numbers::from(&case.settings),
            path: case.path,
            trace: case.trace,
            report: NUMBERS,
            shift,
        }
    }

    /// Makes the call with filled buffers inside guards.
    pub fn make(&self) -> Left {
        let mut table = Guarded::new(self.table.iter().copied(), self.shift);
        let claimed = self.condition.unwrap_or(&[]);
        let mut condition = Guarded::new(claimed.iter().copied(), self.shift);
        let mut path = Guarded::new((0..self.path).map(pattern), self.shift);
        let mut trace = Guarded::new((0..self.trace).map(pattern), self.shift);
        let mut report = Guarded::new((0..self.report).map(report_pattern), 0);
        // Table and condition too are lent from memory that can be written, so that a write into them
        // would show as a difference and not end the program.
        let (lent, claim) = (&*table.lent(), &*condition.lent());
        let (numbers, path_lent) = (self.numbers, path.lent());
        let returned = match self.condition {
            None => explore(lent, numbers, path_lent, trace.lent(), report.lent()),
            Some(_) => {
                explore_condition(lent, claim, numbers, path_lent, trace.lent(), report.lent())
            }
        };
        // What is lent so cannot change, so far as the compiler knows; here it shall look.
        let [table, condition] = std::hint::black_box([table, condition]);
        let watched = [
            ("a guard of the table", table.intact()),
            ("the table", table.inside() == self.table),
            ("a guard of the condition", condition.intact()),
            ("the condition", condition.inside() == claimed),
            ("a guard of the path buffer", path.intact()),
            ("a guard of the trace buffer", trace.intact()),
            ("a guard of the report", report.intact()),
        ];
        let broken = watched.iter().filter(|(_, well)| !well).map(|(name, _)| *name).collect();
        Left {
            returned,
            report: report.inside().to_vec(),
            path: path.inside().to_vec(),
            trace: trace.inside().to_vec(),
            broken,
        }
    }
}
