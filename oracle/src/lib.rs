//! The oracle: `atomic.rs` and `path.rs` of loom 0.7.2 over plain Rust support with document 01's
//! rules. What it answers is what every other explorer of this project is compared with.

mod change;
mod condition;
mod entry;
mod explorer;
mod guard;
mod interpreter;
pub mod limits;
mod rt;
mod table;

// atomic.rs says `use tracing::trace;`. Tracing is out of scope, so the name leads back here, to a
// macro that does nothing. It stands below the modules, so that it is reached by that name alone.
extern crate self as tracing;

macro_rules! trace {
    ($($ignored:tt)*) => {};
}
pub(crate) use trace;

use explorer::Run;
use terms::{Digest, Report, Settings, Summary};

/// Explores a table, as document 01 says. `condition` is claimed of the registers whenever all threads
/// have ended (document 02, section 3); no bytes claim nothing.
///
/// `list` is the caller's list of thread records; it is judged only when given. `history` is called
/// once for each execution, when it ends or faults, with the used bytes of path and trace, 16 for
/// each record or entry; it is not called on a refusal (answers 2 to 5), which leaves both buffers
/// and the list unchanged.
///
/// # Panics
///
/// A panic is a failed run, never an answer.
pub fn explore(
    table: &[u8],
    condition: &[u8],
    settings: &Settings,
    path: &mut [u8],
    trace: &mut [u8],
    list: Option<&mut [Summary]>,
    history: &mut dyn FnMut(&[u8], &[u8]),
) -> Report {
    let records = list.as_ref().map(|list| list.len());
    let lengths = (path.len(), trace.len(), records);
    let (program, condition) = match explorer::accept(table, condition, settings, lengths) {
        Ok(accepted) => accepted,
        Err(refusal) => return refusal.report(),
    };
    let run = Run {
        program: &program,
        condition: &condition,
        settings,
        path,
        trace,
    };
    let report = run.explore(history);
    if let Some(list) = list {
        list.copy_from_slice(&report.threads);
    }
    report
}

/// [`explore`], with the digest of the whole history.
pub fn explore_digest(
    table: &[u8],
    condition: &[u8],
    settings: &Settings,
    path: &mut [u8],
    trace: &mut [u8],
    list: Option<&mut [Summary]>,
) -> (Report, u64) {
    let mut digest = Digest::default();
    let mut take = |path: &[u8], trace: &[u8]| digest.execution(path, trace);
    let report = explore(table, condition, settings, path, trace, list, &mut take);
    (report, digest.value())
}
