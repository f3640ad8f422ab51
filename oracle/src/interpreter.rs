//! One execution of a table. Document 01, "Table" (opcodes), "Support rules" (when a scheduling is
//! made) and the limits that a row may meet; document 02, section 5, for opcodes 17 and 18.

use crate::change::changed;
use crate::entry::{Seen, Trace};
use crate::guard::{self, Call, Met};
use crate::rt::{self, Atomic, Cells, Location, Next, Plains, MAX_THREADS};
use crate::table::{ordering, Program, Row};

/// Where a thread stands in its rows.
#[derive(Debug, Clone, Copy, Default)]
pub(crate) struct Lane {
    /// The row it is at; its row count once it is to end.
    row: usize,
    /// That row has begun: its thread is in the middle of it.
    begun: bool,
    /// Rows begun by this thread.
    pub(crate) rows: u64,
    pub(crate) registers: [u64; 4],
}

/// A fault, and the thread and row that the report names.
#[derive(Debug, Clone, Copy)]
pub(crate) struct Fault {
    pub(crate) met: Met,
    pub(crate) thread: u64,
    pub(crate) row: u64,
}

/// Why an execution goes no further.
enum Stop {
    Ended,
    Deadlock,
    Met(Met),
}

impl From<Met> for Stop {
    fn from(met: Met) -> Stop {
        Stop::Met(met)
    }
}

pub(crate) struct Interpreter<'a> {
    program: &'a Program,
    cells: Cells,
    plains: Plains,
    /// Operation limit L.
    limit: u64,
    pub(crate) trace: Trace<'a>,
    pub(crate) lanes: [Lane; MAX_THREADS],
    /// Rows begun by all threads.
    pub(crate) rows: u64,
    current: usize,
}

impl<'a> Interpreter<'a> {
    /// The start of an execution: cells and threads are made anew, thread 0 runs at once.
    pub(crate) fn new(program: &'a Program, limit: u64, trace: &'a mut [u8]) -> Interpreter<'a> {
        let (starts, plain_starts) = (program.starts(), program.plain_starts());
        let (cells, plains) = rt::restart(program.threads, starts, plain_starts);
        Interpreter {
            program,
            cells,
            plains,
            limit,
            trace: Trace::new(trace),
            lanes: [Lane::default(); MAX_THREADS],
            rows: 0,
            current: 0,
        }
    }

    /// Runs to the end of the execution (none) or to the first fault.
    pub(crate) fn run(&mut self) -> Option<Fault> {
        loop {
            let thread = self.current;
            let row = self.lanes[thread].row;
            let (met, thread, row) = match self.tick(thread, row) {
                Ok(()) => continue,
                Err(Stop::Ended) => return None,
                Err(Stop::Deadlock) => (Met::new(10), 255, 255),
                Err(Stop::Met(met)) => (met, thread as u64, row as u64),
            };
            return Some(Fault { met, thread, row });
        }
    }

    /// One row, or its part up to a scheduling, or a thread's end.
    fn tick(&mut self, thread: usize, number: usize) -> Result<(), Stop> {
        let Some(row) = self.program.of(thread).get(number) else {
            rt::end_thread();
            return self.schedule();
        };
        if !self.lanes[thread].begun {
            self.begin(thread)?;
            if rt::set_operation(row.opcode, row.place.into()) {
                return self.schedule();
            }
        }
        match row.opcode {
            0..=6 => {
                let seen = self.memory(thread, row)?;
                self.complete(thread, row, seen);
                Ok(())
            }
            7 => self.give_way(thread, row),
            8 => self.join(thread, row),
            9..=11 => {
                self.jump(thread, row);
                Ok(())
            }
            17 | 18 => {
                let seen = self.plain(thread, row)?;
                self.complete(thread, row, seen);
                Ok(())
            }
            _ => self.remaining(thread, row),
        }
    }

    /// Begins a row. L is tested first, so a row that cannot begin is counted nowhere.
    fn begin(&mut self, thread: usize) -> Result<(), Met> {
        if self.rows == self.limit {
            return Err(Met::new(12));
        }
        self.rows += 1;
        self.lanes[thread].rows += 1;
        self.lanes[thread].begun = true;
        Ok(())
    }

    fn complete(&mut self, thread: usize, row: &Row, seen: Seen) {
        let lane = &mut self.lanes[thread];
        self.trace.add(thread, lane.row, row, seen);
        lane.row += 1;
        lane.begun = false;
    }

    /// Calls the scheduling; afterwards the chosen thread is current.
    fn schedule(&mut self) -> Result<(), Stop> {
        match rt::schedule()? {
            Next::Thread(chosen) => self.current = chosen,
            Next::Ended => return Err(Stop::Ended),
            Next::Deadlock => return Err(Stop::Deadlock),
        }
        Ok(())
    }

    /// Opcodes 0 to 6 act.
    fn memory(&mut self, thread: usize, row: &Row) -> Result<Seen, Met> {
        let registers = &mut self.lanes[thread].registers;
        let register = &mut registers[usize::from(row.register)];
        if row.opcode == 4 {
            rt::fence(ordering(row.order));
            return Ok(Seen::NOTHING);
        }
        let cell = self.cells[usize::from(row.place)].as_mut();
        let cell = cell.expect("the table names this cell");
        match row.opcode {
            0 => load(cell, row, register),
            1 => store(cell, row, row.a),
            2 => store(cell, row, *register),
            3 => rmw(cell, row, register),
            5 => unsync_load(cell, register),
            _ => exclusive(cell, row, register),
        }
    }

    /// Opcodes 17 and 18.
    fn plain(&mut self, thread: usize, row: &Row) -> Result<Seen, Met> {
        let cell = self.plains[usize::from(row.place)].as_mut();
        let cell = cell.expect("the table names this plain cell");
        if row.opcode == 18 {
            cell.write(row.a)?;
            return Ok(Seen::value(row.a));
        }
        let value = cell.read()?;
        self.lanes[thread].registers[usize::from(row.register)] = value;
        Ok(Seen::value(value))
    }

    /// A yield's entry comes before its scheduling, the only thing in it that can fault.
    fn give_way(&mut self, thread: usize, row: &Row) -> Result<(), Stop> {
        self.complete(thread, row, Seen::NOTHING);
        rt::set_yield();
        self.schedule()
    }

    fn join(&mut self, thread: usize, row: &Row) -> Result<(), Stop> {
        if rt::join(row.place.into()) {
            self.complete(thread, row, Seen::NOTHING);
            return Ok(());
        }
        self.schedule()
    }

    /// Opcodes 9 to 11.
    fn jump(&mut self, thread: usize, row: &Row) {
        let register = self.lanes[thread].registers[usize::from(row.register)];
        self.complete(thread, row, Seen::NOTHING);
        let taken = match row.opcode {
            9 => true,
            10 => register == row.a,
            _ => register != row.a,
        };
        if taken {
            self.lanes[thread].row = row.target.into();
        }
    }

    /// Opcodes 12 to 16.
    fn remaining(&mut self, thread: usize, row: &Row) -> Result<(), Stop> {
        let registers = &mut self.lanes[thread].registers;
        let register = &mut registers[usize::from(row.register)];
        let mut seen = Seen::NOTHING;
        match row.opcode {
            12 if *register != row.a => return Err(Met::new(15).into()),
            12 => {}
            13 => rt::critical()?,
            14 => rt::explore_state()?,
            15 => rt::skip_branch(),
            16 => {
                *register = rt::branch_spurious()?.into();
                seen = Seen::value(*register);
            }
            other => unreachable!("opcode {other} was accepted"),
        }
        self.complete(thread, row, seen);
        Ok(())
    }
}

fn load(cell: &Atomic<u64>, row: &Row, register: &mut u64) -> Result<Seen, Met> {
    let order = ordering(row.order);
    *register = guard::met(Call::Load, || cell.load(Location, order))?;
    Ok(read(*register))
}

fn store(cell: &Atomic<u64>, row: &Row, value: u64) -> Result<Seen, Met> {
    let order = ordering(row.order);
    guard::met(Call::Store, || cell.store(Location, value, order))?;
    Ok(at_newest(cell, value))
}

fn rmw(cell: &Atomic<u64>, row: &Row, register: &mut u64) -> Result<Seen, Met> {
    let (success, failure) = (ordering(row.order), ordering(row.failure));
    // A failure hands the value read back as its error.
    let change = |value| changed(row, value).ok_or(value);
    let result = guard::met(Call::Rmw, || cell.rmw(Location, success, failure, change))?;
    *register = result.unwrap_or_else(|value| value);
    Ok(read(*register))
}

fn unsync_load(cell: &Atomic<u64>, register: &mut u64) -> Result<Seen, Met> {
    *register = guard::met(Call::UnsyncLoad, || cell.unsync_load(Location))?;
    Ok(at_newest(cell, *register))
}

fn exclusive(cell: &mut Atomic<u64>, row: &Row, register: &mut u64) -> Result<Seen, Met> {
    let mut left = 0;
    let change = |value: &mut u64| {
        let before = *value;
        *value = changed(row, before).unwrap_or(before);
        left = *value;
        before
    };
    *register = guard::met(Call::Exclusive, || cell.with_mut(Location, change))?;
    Ok(at_newest(cell, left))
}

/// What a load or RMW saw: slot and offers are those of its load branch.
fn read(value: u64) -> Seen {
    let (slot, mask) = rt::execution(|execution| execution.path.chosen());
    Seen { slot, mask, value }
}

/// A store's own slot is the newest, once it is made.
fn at_newest(cell: &Atomic<u64>, value: u64) -> Seen {
    Seen {
        slot: cell.newest(),
        mask: 0,
        value,
    }
}
