//! The runtime that the two files of loom 0.7.2 stand in. `atomic` and `path` are loom's own (MIT,
//! see LICENSE-loom), every edit marked `EDIT`; the other modules are plain support written from
//! document 01, named after loom's files so that `crate::rt::..` paths need no edit.
//!
//! No thread ever switches here: the interpreter asks for each scheduling itself, and calls a cell
//! only when the current thread was chosen for that operation.

#[path = "access.rs"]
mod access;
// Loom's code is kept as it stands: lints are no reason to edit it.
#[path = "atomic.rs"]
#[allow(clippy::all)]
pub(crate) mod atomic;
#[path = "cell.rs"]
mod cell;
#[path = "execution.rs"]
mod execution;
#[path = "location.rs"]
pub(crate) mod location;
#[path = "num.rs"]
mod num;
#[macro_use]
#[path = "object.rs"]
mod object;
#[path = "path.rs"]
#[allow(clippy::all, dead_code)]
mod path;
#[path = "synchronize.rs"]
mod synchronize;
#[path = "thread.rs"]
pub(crate) mod thread;
#[path = "vv.rs"]
mod vv;

use self::access::Access;
use self::atomic::Action;
pub(crate) use self::atomic::{fence, Atomic};
pub(crate) use self::cell::Cell;
pub(crate) use self::execution::{Execution, Next};
pub(crate) use self::location::Location;
use self::num::Numeric;
pub(crate) use self::path::Path;
use self::synchronize::Synchronize;
use self::vv::VersionVec;

use crate::guard::{self, Call, Met};

use std::cell::RefCell;

/// Document 01: MAX_THREADS is 5.
pub(crate) const MAX_THREADS: usize = 5;

/// Document 01: MAX_ATOMIC_HISTORY is 7.
pub(crate) const MAX_ATOMIC_HISTORY: usize = 7;

/// The atomic cells of a table; places past their count are empty.
pub(crate) type Cells = [Option<Atomic<u64>>; 4];

/// The plain cells of a table; places past their count are empty.
pub(crate) type Plains = [Option<Cell>; 4];

thread_local! {
    static EXECUTION: RefCell<Option<Execution>> = const { RefCell::new(None) };
}

/// Stands for the run on this machine thread; when dropped, the run before it (one whose history
/// is just being told) is back.
pub(crate) struct Installed(Option<Execution>);

impl Installed {
    pub(crate) fn new(execution: Execution) -> Installed {
        Installed(EXECUTION.with_borrow_mut(|slot| slot.replace(execution)))
    }
}

impl Drop for Installed {
    fn drop(&mut self) {
        let before = self.0.take();
        EXECUTION.with_borrow_mut(|slot| *slot = before);
    }
}

pub(crate) fn execution<F, R>(f: F) -> R
where
    F: FnOnce(&mut Execution) -> R,
{
    EXECUTION.with_borrow_mut(|slot| f(slot.as_mut().expect("no run on this thread")))
}

/// Opcodes 0 to 4 raise the own version by 1 before acting.
fn synchronize<F, R>(f: F) -> R
where
    F: FnOnce(&mut Execution) -> R,
{
    execution(|execution| {
        execution.threads.active_causality_inc();
        f(execution)
    })
}

/// The start of an execution: thread 0 makes the cells, the plain ones last, then all threads stand
/// as document 01 says.
pub(crate) fn restart(threads: usize, starts: &[u64], plain_starts: &[u64]) -> (Cells, Plains) {
    execution(|execution| execution.restart(threads));
    let made = |i: usize| starts.get(i).map(|&value| Atomic::new(value, Location));
    let cells = std::array::from_fn(made);
    let made = |i: usize| plain_starts.get(i).map(|&value| Cell::new(value));
    let plains = std::array::from_fn(made);
    execution(|execution| execution.threads.cells_made());
    (cells, plains)
}

/// Sets the pending operation of a row that is scheduled before it acts; says whether it is one.
pub(crate) fn set_operation(opcode: u8, cell: usize) -> bool {
    let action = match opcode {
        0 => Action::Load,
        1 | 2 => Action::Store,
        3 => Action::Rmw,
        _ => return false,
    };
    execution(|execution| execution.set_operation(cell, action));
    true
}

pub(crate) fn set_yield() {
    execution(Execution::set_yield);
}

/// Whether the join went through; if not, the current thread is blocked.
pub(crate) fn join(target: usize) -> bool {
    execution(|execution| execution.join(target))
}

pub(crate) fn end_thread() {
    execution(Execution::end_thread);
}

pub(crate) fn schedule() -> Result<Next, Met> {
    let next = guard::met(Call::Schedule, || execution(Execution::schedule));
    if next.is_err_and(|met| met.answer == 17) {
        // Loom has inserted the branch before its sum fails; document 01 says it is not added.
        execution(|execution| execution.path.remove_last());
    }
    next
}

pub(crate) fn branch_spurious() -> Result<bool, Met> {
    let branch = || execution(|execution| execution.path.branch_spurious());
    guard::met(Call::Spurious, branch)
}

pub(crate) fn critical() -> Result<(), Met> {
    guard::met(Call::Critical, || {
        execution(|execution| execution.path.critical())
    })
}

pub(crate) fn explore_state() -> Result<(), Met> {
    let explore = || execution(|execution| execution.path.explore_state());
    guard::met(Call::ExploreState, explore)
}

pub(crate) fn skip_branch() {
    execution(|execution| execution.path.skip_branch());
}

/// Moves the path to its next choice; says whether there was one.
pub(crate) fn step() -> bool {
    execution(|execution| execution.path.step())
}
