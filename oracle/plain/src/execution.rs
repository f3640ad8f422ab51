//! One execution: the interpreter of rows, and the scheduling that loom has in `rt/execution.rs`.

use crate::atomic::{Access, State};
use crate::cell::PlainCell;
use crate::claim::Claim;
use crate::fault::Fault;
use crate::op::{Cell, Change, Op, Order, Orders, Register, Row};
use crate::path::{self, Path, Seed};
use crate::table::{Program, MAX_CELLS, MAX_PLAINS};
use crate::thread::{Run, Thread};
use crate::trace::{Done, Trace};
use crate::vv::{VersionVec, MAX_THREADS};
use std::array;
use terms::Summary;

/// A program under way. It is reused from one execution to the next, and so are path and trace.
pub struct Execution<'a> {
    program: &'a Program,
    pub path: Path<'a>,
    pub trace: Trace<'a>,
    threads: [Thread; MAX_THREADS],
    cells: [State; MAX_CELLS],
    plains: [PlainCell; MAX_PLAINS],
    /// What all sequentially consistent fences have brought together.
    seq_cst: VersionVec,
    /// The thread that runs.
    current: usize,
    /// Rows begun.
    rows: u64,
    /// Rows that may begin.
    limit: u64,
}

impl<'a> Execution<'a> {
    pub fn new(program: &'a Program, limit: u64, path: Path<'a>, trace: Trace<'a>) -> Self {
        Execution {
            program,
            path,
            trace,
            threads: array::from_fn(Thread::new),
            cells: array::from_fn(|_| State::unmade()),
            plains: [PlainCell::UNMADE; MAX_PLAINS],
            seq_cst: VersionVec::new(),
            current: 0,
            rows: 0,
            limit,
        }
    }

    /// Runs the program from its start to its end or its first fault.
    pub fn run(&mut self) -> Result<(), Fault> {
        self.restart();
        let program = self.program;
        loop {
            let thread = &mut self.threads[self.current];
            if thread.next == program.counts[thread.id] {
                if !self.end_thread()? {
                    return Ok(());
                }
                continue;
            }
            let op = program.row(thread);
            if !thread.begun {
                if self.rows == self.limit {
                    return Err(Fault::Operations);
                }
                self.rows += 1;
                thread.rows += 1;
                thread.begun = true;
                if let Some(operation) = op.operation() {
                    thread.operation = Some(operation);
                    self.schedule()?;
                    continue;
                }
            }
            self.act(op)?;
        }
    }

    /// Thread 0 makes the cells and then starts the others.
    fn restart(&mut self) {
        self.trace.restart();
        self.seq_cst = VersionVec::new();
        self.current = 0;
        self.rows = 0;
        let mut first = Thread::new(0);
        first.raise_version();
        for (cell, &value) in self
            .cells
            .iter_mut()
            .zip(&self.program.values[..self.program.cells])
        {
            cell.make(&first, value);
        }
        let plains = &self.program.plain_values[..self.program.plains];
        for (cell, &value) in self.plains.iter_mut().zip(plains) {
            *cell = PlainCell::make(&first, value);
        }
        for id in 1..self.program.threads {
            let mut thread = Thread::new(id);
            thread.causality.join(&first.causality);
            thread.raise_version();
            self.threads[id] = thread;
        }
        first.raise_version();
        self.threads[0] = first;
    }

    /// Chooses the thread that runs next; answers whether there was one.
    fn schedule(&mut self) -> Result<bool, Fault> {
        self.backtrack_races();
        let branch = self.path.pos();
        let threads = &self.threads[..self.program.threads];
        let current = self.current;
        let Some(chosen) = self.path.branch_thread(|| seed(threads, current))? else {
            let terminal = threads.iter().all(|thread| thread.run == Run::Ended);
            return if terminal {
                Ok(false)
            } else {
                Err(Fault::Deadlock)
            };
        };
        self.current = chosen;
        self.record_access(branch);
        self.wake_yielded();
        Ok(true)
    }

    /// A yielded thread that is chosen stays yielded until another one is chosen.
    fn wake_yielded(&mut self) {
        let chosen = self.current;
        for thread in &mut self.threads {
            if thread.run == Run::Yielded && thread.id != chosen {
                thread.run = Run::Runnable;
            }
        }
    }

    /// Where a pending access is not ordered after the last one it depends on, the other order has
    /// to be tried too.
    fn backtrack_races(&mut self) {
        for thread in &self.threads[..self.program.threads] {
            let Some(operation) = thread.operation else {
                continue;
            };
            let access =
                self.cells[usize::from(operation.cell)].last_dependent_access(operation.action);
            if !access.dpor_vv.at_most(&thread.dpor_vv) {
                self.path.backtrack(access.branch, thread.id);
            }
        }
    }

    /// The chosen thread now makes its pending access.
    fn record_access(&mut self, branch: usize) {
        let thread = &mut self.threads[self.current];
        let Some(operation) = thread.operation else {
            return;
        };
        let cell = &mut self.cells[usize::from(operation.cell)];
        let mut dpor_vv = thread.dpor_vv;
        dpor_vv.join(&cell.last_dependent_access(operation.action).dpor_vv);
        dpor_vv.inc(thread.id);
        thread.dpor_vv = dpor_vv;
        cell.set_last_access(operation.action, Access { branch, dpor_vv });
    }

    /// The current thread is past its last row. Answers whether another goes on.
    fn end_thread(&mut self) -> Result<bool, Fault> {
        let ended = self.current;
        self.threads[ended].set_ended();
        let join = Op::Join(ended as u8);
        for thread in &mut self.threads[..self.program.threads] {
            // Only a join blocks, so a blocked thread's row is there to be looked at.
            if thread.run == Run::Blocked && *self.program.row(thread) == join {
                thread.run = Run::Runnable;
            }
        }
        self.schedule()
    }

    /// Does what a row says, once nothing stands before it any more.
    fn act(&mut self, op: &Op) -> Result<(), Fault> {
        let thread = &self.threads[self.current];
        let mut next = thread.next + 1;
        let done = match *op {
            Op::Load(cell, order, register) => self.load(cell, order, register)?,
            Op::Store(cell, order, value) => self.store(cell, order, value)?,
            Op::StoreRegister(cell, order, register) => {
                self.store(cell, order, thread.register(register))?
            }
            Op::Rmw(cell, orders, register, change) => self.rmw(cell, orders, register, change)?,
            Op::Fence(order) => self.fence(order),
            Op::UnsyncLoad(cell, register) => self.unsync_load(cell, register)?,
            Op::WithMut(cell, register, change) => self.with_mut(cell, register, change)?,
            Op::Yield => return self.yield_now(op),
            Op::Join(target) if self.is_ended(target) => self.join(target),
            Op::Join(_) => return self.block(),
            Op::Jump(target) => jump(true, target, &mut next),
            Op::JumpIf(condition, target) => jump(thread.holds(condition), target, &mut next),
            Op::JumpUnless(condition, target) => jump(!thread.holds(condition), target, &mut next),
            Op::Check(condition) => check(thread.holds(condition))?,
            Op::Critical => self.path.critical().map(|()| Done::BARE)?,
            Op::ExploreState => self.path.explore_state().map(|()| Done::BARE)?,
            Op::SkipBranch => self.skip_branch(),
            Op::Spurious(register) => self.spurious(register)?,
            Op::PlainRead(cell, register) => self.plain_read(cell, register)?,
            Op::PlainWrite(cell, value) => self.plain_write(cell, value)?,
        };
        self.complete(op, done);
        self.advance(self.current, next);
        Ok(())
    }

    /// Writes the current row into the trace.
    fn complete(&mut self, op: &Op, done: Done) {
        let row = self.threads[self.current].next;
        self.trace.push(self.current as u8, row, op.opcode(), done);
    }

    fn advance(&mut self, thread: usize, next: Row) {
        let thread = &mut self.threads[thread];
        thread.next = next;
        thread.begun = false;
    }

    fn load(&mut self, cell: Cell, order: Order, register: Register) -> Result<Done, Fault> {
        let thread = &mut self.threads[self.current];
        let cell = &mut self.cells[usize::from(cell)];
        thread.raise_version();
        if self.path.is_traversed() {
            let offers = cell.match_load_to_stores(thread, order)?;
            self.path.push_load(offers)?;
        }
        let (slot, offers) = self.path.branch_load();
        let value = cell.load(thread, slot, order)?;
        thread.set_register(register, value);
        Ok(Done::read(slot, offers, value))
    }

    fn store(&mut self, cell: Cell, order: Order, value: u64) -> Result<Done, Fault> {
        let thread = &mut self.threads[self.current];
        thread.raise_version();
        let slot = self.cells[usize::from(cell)].store_new(thread, value, order)?;
        Ok(Done::at(slot, value))
    }

    fn rmw(
        &mut self,
        cell: Cell,
        orders: Orders,
        register: Register,
        change: Change,
    ) -> Result<Done, Fault> {
        let thread = &mut self.threads[self.current];
        let cell = &mut self.cells[usize::from(cell)];
        thread.raise_version();
        if self.path.is_traversed() {
            let offers = cell.match_rmw_to_stores()?;
            self.path.push_load(offers)?;
        }
        let (slot, offers) = self.path.branch_load();
        let value = cell.rmw(thread, slot, orders, change)?;
        thread.set_register(register, value);
        Ok(Done::read(slot, offers, value))
    }

    fn fence(&mut self, order: Order) -> Done {
        let thread = &mut self.threads[self.current];
        thread.raise_version();
        if order.acquires() {
            for cell in &self.cells[..self.program.cells] {
                cell.fence_acq(thread);
            }
        }
        if order.releases() {
            thread.released = thread.causality;
        }
        if order == Order::SeqCst {
            thread.causality.join(&self.seq_cst);
            self.seq_cst.join(&thread.causality);
        }
        Done::BARE
    }

    fn unsync_load(&mut self, cell: Cell, register: Register) -> Result<Done, Fault> {
        let thread = &mut self.threads[self.current];
        let (slot, value) = self.cells[usize::from(cell)].unsync_load(thread)?;
        thread.set_register(register, value);
        Ok(Done::at(slot, value))
    }

    fn with_mut(&mut self, cell: Cell, register: Register, change: Change) -> Result<Done, Fault> {
        let thread = &mut self.threads[self.current];
        let (slot, found, left) = self.cells[usize::from(cell)].with_mut(thread, change)?;
        thread.set_register(register, found);
        Ok(Done::at(slot, left))
    }

    /// The row is complete before the scheduling, but the thread stays at it until then, so that a
    /// fault in the scheduling names it.
    fn yield_now(&mut self, op: &Op) -> Result<(), Fault> {
        let current = self.current;
        self.complete(op, Done::BARE);
        self.threads[current].set_yield();
        self.schedule()?;
        let next = self.threads[current].next + 1;
        self.advance(current, next);
        Ok(())
    }

    fn is_ended(&self, thread: u8) -> bool {
        self.threads[usize::from(thread)].run == Run::Ended
    }

    /// Takes over what an ended thread knew.
    fn join(&mut self, target: u8) -> Done {
        let target = &self.threads[usize::from(target)];
        let (causality, dpor_vv) = (target.causality, target.dpor_vv);
        let thread = &mut self.threads[self.current];
        thread.raise_version();
        thread.causality.join(&causality);
        thread.dpor_vv.join(&dpor_vv);
        Done::BARE
    }

    /// Waits, in the middle of its row, for the thread to be joined.
    fn block(&mut self) -> Result<(), Fault> {
        self.threads[self.current].set_blocked();
        self.schedule()?;
        Ok(())
    }

    fn skip_branch(&mut self) -> Done {
        self.path.skip_branch();
        Done::BARE
    }

    fn spurious(&mut self, register: Register) -> Result<Done, Fault> {
        let value = self.path.branch_spurious()?.into();
        self.threads[self.current].set_register(register, value);
        Ok(Done::value(value))
    }

    fn plain_read(&mut self, cell: Cell, register: Register) -> Result<Done, Fault> {
        let thread = &mut self.threads[self.current];
        let value = self.plains[usize::from(cell)].read(thread)?;
        thread.set_register(register, value);
        Ok(Done::value(value))
    }

    fn plain_write(&mut self, cell: Cell, value: u64) -> Result<Done, Fault> {
        let thread = &self.threads[self.current];
        self.plains[usize::from(cell)].write(thread, value)?;
        Ok(Done::value(value))
    }

    /// Whether the registers are now as claimed.
    pub fn meets(&self, claim: &Claim) -> bool {
        claim.is_met(|thread, register| self.threads[usize::from(thread)].register(register))
    }

    /// Rows begun.
    pub fn rows(&self) -> u64 {
        self.rows
    }

    /// The current thread and its row.
    pub fn place(&self) -> (u64, u64) {
        (self.current as u64, self.threads[self.current].next.into())
    }

    pub fn summaries(&self) -> [Summary; MAX_THREADS] {
        array::from_fn(|id| match self.threads[..self.program.threads].get(id) {
            Some(thread) => thread.summary(),
            None => Summary::default(),
        })
    }
}

/// What every thread could do at a new schedule. The current thread goes on if it can; else the one
/// that has yielded least does, the lowest of several.
fn seed(threads: &[Thread], current: usize) -> Seed {
    let initial = if threads[current].is_runnable() {
        Some(current)
    } else {
        let runnable = threads.iter().filter(|thread| thread.is_runnable());
        runnable
            .min_by_key(|thread| thread.yields)
            .map(|thread| thread.id)
    };
    let mut seed = [path::thread::DISABLED; MAX_THREADS];
    for (state, thread) in seed.iter_mut().zip(threads) {
        *state = match thread.run {
            _ if initial == Some(thread.id) => path::thread::ACTIVE,
            Run::Yielded => path::thread::YIELD,
            Run::Runnable => path::thread::SKIP,
            Run::Blocked | Run::Ended => path::thread::DISABLED,
        };
    }
    seed
}

fn jump(taken: bool, target: Row, next: &mut Row) -> Done {
    if taken {
        *next = target;
    }
    Done::BARE
}

fn check(holds: bool) -> Result<Done, Fault> {
    holds.then_some(Done::BARE).ok_or(Fault::Check)
}
