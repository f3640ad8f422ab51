//! The run: checks 2 to 5, one execution after another, and the report. Document 01, "Settings,
//! buffers, answers"; answer 18 is that of document 02, section 3.

use crate::condition::Condition;
use crate::guard;
use crate::interpreter::{Fault, Interpreter, Lane};
use crate::limits::{MAX_BRANCHES, MAX_EXECUTIONS, MAX_OPERATIONS};
use crate::rt::thread::{self, State};
use crate::rt::{self, Execution, Installed, Path, MAX_THREADS};
use crate::table::{Bad, Program};

use terms::{Report, Settings, Summary};

/// What a run is given, once accepted.
pub(crate) struct Run<'a> {
    pub(crate) program: &'a Program,
    pub(crate) condition: &'a Condition,
    pub(crate) settings: &'a Settings,
    pub(crate) path: &'a mut [u8],
    pub(crate) trace: &'a mut [u8],
}

/// What is known of the last execution.
struct Last {
    fault: Option<Fault>,
    /// Whether the condition holds of the registers as they are left.
    holds: bool,
    rows: u64,
    /// Bytes used of the path buffer and of the trace buffer.
    path: usize,
    trace: usize,
    opened: u64,
    open: u64,
    threads: [Summary; MAX_THREADS],
}

/// Answers 2 to 5: no execution is begun.
#[derive(Debug, Clone, Copy)]
pub(crate) struct Refusal {
    answer: u64,
    thread: u64,
    row: u64,
}

impl Refusal {
    fn new(answer: u64) -> Refusal {
        Refusal {
            answer,
            thread: 255,
            row: 255,
        }
    }

    pub(crate) fn report(self) -> Report {
        Report::refusal(self.answer, self.thread, self.row)
    }
}

/// Checks 2 to 5, in this order, the table before the condition; the lengths of path and trace are in
/// bytes, that of the list in records.
pub(crate) fn accept(
    table: &[u8],
    condition: &[u8],
    settings: &Settings,
    (path, trace, list): (usize, usize, Option<usize>),
) -> Result<(Program, Condition), Refusal> {
    let in_range = (1..=MAX_BRANCHES).contains(&settings.branches)
        && (1..=MAX_OPERATIONS).contains(&settings.operations)
        && (1..=MAX_EXECUTIONS).contains(&settings.executions);
    if !in_range {
        return Err(Refusal::new(2));
    }
    if path as u64 != 16 * settings.branches {
        return Err(Refusal::new(3));
    }
    if trace as u64 != 16 * settings.operations || list.is_some_and(|length| length != 5) {
        return Err(Refusal::new(4));
    }
    let program = Program::read(table).map_err(|Bad { thread, row }| Refusal {
        answer: 5,
        thread,
        row,
    })?;
    let condition = Condition::read(condition, program.threads).ok_or(Refusal::new(5))?;
    Ok((program, condition))
}

impl Run<'_> {
    /// Explores; `history` is told of each execution when it ends or faults.
    pub(crate) fn explore(mut self, history: &mut dyn FnMut(&[u8], &[u8])) -> Report {
        guard::install();
        let _installed = Installed::new(self.execution());
        self.path.fill(0);
        self.trace.fill(0);
        let (mut executions, mut opened) = (0, 0);
        loop {
            executions += 1;
            let last = self.one();
            opened += last.opened;
            history(&self.path[..last.path], &self.trace[..last.trace]);
            if let Some(answer) = answer(&last, executions, self.settings.executions) {
                self.path[last.path..].fill(0);
                self.trace[last.trace..].fill(0);
                return report(answer, executions, opened, &last);
            }
            assert!(rt::step(), "a choice is open, but the path has no next one");
        }
    }

    fn execution(&self) -> Execution {
        let settings = self.settings;
        let branches = settings.branches as usize;
        let path = Path::new(branches, settings.bound, settings.exploring);
        Execution::new(path, self.program.threads, self.program.starts().len())
    }

    /// One execution, to its end or first fault; both buffers then begin with what it left.
    fn one(&mut self) -> Last {
        let (pending, records) = rt::execution(|e| (e.path.pending(), e.path.len()));
        let limit = self.settings.operations;
        let mut interpreter = Interpreter::new(self.program, limit, self.trace);
        let fault = interpreter.run();
        let register = |thread: usize, register: usize| {
            let lane: &Lane = &interpreter.lanes[thread];
            lane.registers[register]
        };
        rt::execution(|e| Last {
            fault,
            holds: self.condition.holds(&register),
            rows: interpreter.rows,
            path: e.path.write(self.path),
            trace: interpreter.trace.used(),
            opened: e.path.pending() - pending + e.path.opened_by_adding(records),
            open: e.path.open(),
            threads: summaries(&e.threads, &interpreter.lanes),
        })
    }
}

/// The answer, if the run stops here: the fault; 18 if the condition does not hold where all threads
/// have ended; 0 if nothing is open; 1 if the budget is used up.
fn answer(last: &Last, executions: u64, budget: u64) -> Option<u64> {
    match last.fault {
        Some(fault) => Some(fault.met.answer),
        None if !last.holds => Some(18),
        None if last.open == 0 => Some(0),
        None if executions == budget => Some(1),
        None => None,
    }
}

fn report(answer: u64, executions: u64, opened: u64, last: &Last) -> Report {
    let fault = last.fault.as_ref();
    Report {
        answer,
        executions,
        opened,
        open: last.open,
        rows: last.rows,
        thread: fault.map_or(255, |fault| fault.thread),
        row: fault.map_or(255, |fault| fault.row),
        kind: fault.map_or(0, |fault| fault.met.kind),
        other: fault.map_or(255, |fault| fault.met.other),
        threads: last.threads,
    }
}

fn summaries(threads: &thread::Set, lanes: &[Lane; MAX_THREADS]) -> [Summary; MAX_THREADS] {
    let mut summaries = [Summary::default(); MAX_THREADS];
    for (id, thread) in threads.iter() {
        summaries[id.as_usize()] = Summary {
            state: match thread.state {
                State::Runnable => 1,
                State::Blocked(_) => 2,
                State::Yield => 3,
                State::Terminated => 4,
            },
            rows: lanes[id.as_usize()].rows,
            yields: thread.yield_count,
            version: thread.causality[id].into(),
        };
    }
    summaries
}

#[cfg(test)]
mod tests {
    use super::*;

    /// P3 of document 01, with a yield and a spurious branch in thread 1.
    fn table() -> Vec<u8> {
        let row = |opcode: u8, a: u8| {
            let mut row = [0; 24];
            (row[0], row[8]) = (opcode, a);
            row
        };
        let header = [2, 1, 1, 3, 0, 0, 0, 0];
        let rows = [row(1, 1), row(0, 0), row(7, 0), row(16, 0)];
        [&header[..], &[0; 8], &rows.concat()].concat()
    }

    /// The path has a next choice exactly when one is open, and each takes one.
    #[test]
    fn a_step_is_there_exactly_when_a_choice_is_open() {
        let settings = Settings {
            branches: 32,
            operations: 32,
            executions: 1,
            bound: None,
            exploring: true,
        };
        let (mut path, mut trace) = ([0; 512], [0; 512]);
        let lengths = (512, 512, None);
        let (program, condition) = accept(&table(), &[], &settings, lengths).expect("accepted");
        let mut run = Run {
            program: &program,
            condition: &condition,
            settings: &settings,
            path: &mut path,
            trace: &mut trace,
        };
        let _installed = Installed::new(run.execution());
        for executions in 1.. {
            let last = run.one();
            assert_eq!(rt::step(), last.open > 0);
            if last.open == 0 {
                assert!(executions > 5);
                break;
            }
            let left = rt::execution(|e| e.path.open());
            assert_eq!(left, last.open - 1);
        }
    }
}
