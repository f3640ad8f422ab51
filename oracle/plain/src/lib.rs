//! A model checker for small programs over atomic and plain cells, after loom 0.7.2: it runs a program again
//! and again, each time taking another choice of thread or of store read, until none is left open.
//!
//! This one is written for speed in ordinary Rust: state changed in place, no allocation in a run,
//! choices and trace kept directly in the caller's buffers.

#![forbid(unsafe_code)]

mod atomic;
mod cell;
mod claim;
mod execution;
mod fault;
mod op;
mod path;
mod table;
mod thread;
mod trace;
mod vv;

use claim::Claim;
use execution::Execution;
use fault::{Fault, Race};
use path::Path;
use table::Program;
pub use table::MAX_ROWS;
use terms::{Report, Settings, Summary};
use trace::Trace;
use vv::MAX_THREADS;

/// Records that a path can hold at most.
pub const MAX_BRANCHES: u64 = 4_096;
/// Rows that may begin in an execution at most.
pub const MAX_OPERATIONS: u64 = 4_096;
/// Executions of a run at most.
pub const MAX_EXECUTIONS: u64 = 65_535;
/// Bytes of a path record and of a trace entry.
const RECORD: u64 = 16;

/// Explores the program of `table`, leaving the last execution's choices in `path` and what it did
/// in `trace`. Whenever all threads have ended, `condition` has to hold; no bytes are none.
pub fn explore(
    table: &[u8],
    condition: &[u8],
    settings: &Settings,
    path: &mut [u8],
    trace: &mut [u8],
) -> Report {
    explore_watched(table, condition, settings, path, trace, None, |_, _| ())
}

/// Explores as `explore` does, and also writes the five summaries into `list`.
pub fn explore_into(
    table: &[u8],
    condition: &[u8],
    settings: &Settings,
    path: &mut [u8],
    trace: &mut [u8],
    list: &mut [Summary],
) -> Report {
    let list = Some(list);
    explore_watched(table, condition, settings, path, trace, list, |_, _| ())
}

/// Explores, and shows `history` the used bytes of path and trace as each execution ends or faults.
pub fn explore_watched(
    table: &[u8],
    condition: &[u8],
    settings: &Settings,
    path: &mut [u8],
    trace: &mut [u8],
    list: Option<&mut [Summary]>,
    history: impl FnMut(&[u8], &[u8]),
) -> Report {
    let listed = list.as_ref().map(|list| list.len());
    if let Some(answer) = refusal(settings, path.len(), trace.len(), listed) {
        return Report::refusal(answer, 255, 255);
    }
    let program = match Program::decode(table) {
        Ok(program) => program,
        Err(refused) => return Report::refusal(5, refused.thread.into(), refused.row.into()),
    };
    let Some(claim) = Claim::accept(condition, program.threads) else {
        return Report::refusal(5, 255, 255);
    };
    path.fill(0);
    trace.fill(0);
    let path = Path::new(path, settings.bound, settings.exploring);
    let execution = Execution::new(&program, settings.operations, path, Trace::new(trace));
    let report = run(execution, &claim, settings.executions, history);
    if let Some(list) = list {
        list.copy_from_slice(&report.threads);
    }
    report
}

/// The answer to settings or lengths with which no run is possible.
fn refusal(settings: &Settings, path: usize, trace: usize, list: Option<usize>) -> Option<u64> {
    let Settings {
        branches,
        operations,
        executions,
        ..
    } = *settings;
    let in_range = (1..=MAX_BRANCHES).contains(&branches)
        && (1..=MAX_OPERATIONS).contains(&operations)
        && (1..=MAX_EXECUTIONS).contains(&executions);
    if !in_range {
        Some(2)
    } else if path as u64 != RECORD * branches {
        Some(3)
    } else if trace as u64 != RECORD * operations || list.is_some_and(|len| len != MAX_THREADS) {
        Some(4)
    } else {
        None
    }
}

/// Runs one execution after another.
fn run(
    mut execution: Execution,
    claim: &Claim,
    budget: u64,
    mut history: impl FnMut(&[u8], &[u8]),
) -> Report {
    let mut executions = 0;
    let outcome = loop {
        executions += 1;
        let outcome = execution.run();
        history(execution.path.used(), execution.trace.used());
        match (outcome, execution.path.last_open()) {
            (Err(fault), _) => break Err(fault),
            (Ok(()), _) if !execution.meets(claim) => break Ok(18),
            (Ok(()), None) => break Ok(0),
            (Ok(()), Some(_)) if executions == budget => break Ok(1),
            (Ok(()), Some(last)) => execution.path.step(last),
        }
    };
    execution.path.finish();
    execution.trace.finish();
    report(&execution, executions, outcome)
}

fn report(execution: &Execution, executions: u64, outcome: Result<u64, Fault>) -> Report {
    let (thread, row) = match outcome {
        Ok(_) | Err(Fault::Deadlock) => (255, 255),
        Err(_) => execution.place(),
    };
    let (kind, other) = match outcome {
        Err(Fault::Race(Race { kind, other })) => (kind.into(), other.into()),
        _ => (0, 255),
    };
    Report {
        answer: outcome.unwrap_or_else(Fault::answer),
        executions,
        opened: execution.path.opened(),
        open: execution.path.open(),
        rows: execution.rows(),
        thread,
        row,
        kind,
        other,
        threads: execution.summaries(),
    }
}
