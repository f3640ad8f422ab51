//! One execution after another over one path, and the scheduling. Document 01, "Support rules":
//! the start of each execution, yield, join, a thread's end, and scheduling (a) to (e).

use crate::rt::object::{self, Operation};
use crate::rt::path::Thread as Seed;
use crate::rt::thread::{self, State};
use crate::rt::{atomic, Path, MAX_THREADS};

#[derive(Debug)]
pub(crate) struct Execution {
    pub(super) id: Id,
    pub(crate) path: Path,
    pub(crate) threads: thread::Set,
    /// The cells, by number.
    pub(super) objects: object::Store,
}

/// Names the execution; one runs at a time, so there is nothing to tell apart.
#[derive(Debug, Clone, Copy)]
pub(crate) struct Id;

/// What a scheduling found.
#[derive(Debug, Clone, Copy, PartialEq, Eq)]
pub(crate) enum Next {
    Thread(usize),
    /// No thread, and every one has ended.
    Ended,
    /// No thread, though some have not ended.
    Deadlock,
}

impl Execution {
    pub(crate) fn new(path: Path, threads: usize, cells: usize) -> Execution {
        Execution {
            id: Id,
            path,
            threads: thread::Set::new(Id, threads),
            objects: object::Store::with_capacity(cells),
        }
    }

    /// Forgets threads and cells; thread 0 is about to make the cells anew.
    pub(super) fn restart(&mut self, threads: usize) {
        self.threads = thread::Set::new(self.id, threads);
        self.objects.clear();
    }

    pub(super) fn set_operation(&mut self, cell: usize, action: atomic::Action) {
        let active = self.threads.active_mut();
        active.operation = Some(Operation::new(cell, action));
        active.granted = false;
    }

    pub(super) fn set_yield(&mut self) {
        let version = self.threads.active_atomic_version();
        let active = self.threads.active_mut();
        active.state = State::Yield;
        active.last_yield = Some(version);
        active.yield_count += 1;
        active.operation = None;
    }

    /// Joins the target if it has ended; else blocks on it, and says false.
    pub(super) fn join(&mut self, target: usize) -> bool {
        let target = thread::Id::new(self.id, target);
        let ended = self.threads[target];
        if !ended.is_terminated() {
            let active = self.threads.active_mut();
            active.state = State::Blocked(target.as_usize());
            active.operation = None;
            return false;
        }
        self.threads.active_causality_inc();
        let active = self.threads.active_mut();
        active.causality.join(&ended.causality);
        active.dpor_vv.join(&ended.dpor_vv);
        true
    }

    /// Ends the current thread; whoever waits for it is runnable before the end's scheduling.
    pub(super) fn end_thread(&mut self) {
        let id = self.threads.active_id().as_usize();
        let active = self.threads.active_mut();
        active.operation = None;
        active.state = State::Terminated;
        for (_, thread) in self.threads.iter_mut() {
            if thread.state == State::Blocked(id) {
                thread.state = State::Runnable;
            }
        }
    }

    pub(super) fn schedule(&mut self) -> Next {
        self.backtrack();
        let seed = self.seed(self.initial());
        let path_id = self.path.pos();
        let next = self.path.branch_thread(self.id, seed.into_iter());
        self.threads.set_active(next);
        let Some(chosen) = next else {
            let ended = self.threads.iter().all(|(_, th)| th.is_terminated());
            return if ended { Next::Ended } else { Next::Deadlock };
        };
        self.record_access(path_id);
        self.wake_yielded(chosen);
        Next::Thread(chosen.as_usize())
    }

    /// (a) For each thread in order with a pending operation: if the last dependent access is not
    /// at most the thread's schedule vector, backtrack from that access's branch.
    fn backtrack(&mut self) {
        for (id, thread) in self.threads.iter() {
            let Some(operation) = thread.operation else {
                continue;
            };
            let Some(access) = self.objects.last_dependent_access(operation) else {
                continue;
            };
            if !access.happens_before(&thread.dpor_vv) {
                self.path.backtrack(access.path_id(), id);
            }
        }
    }

    /// (b) The current thread if runnable, else the runnable one with fewest yields, the lowest
    /// number on a tie.
    fn initial(&self) -> Option<thread::Id> {
        if self.threads.active().is_runnable() {
            return Some(self.threads.active_id());
        }
        let runnable = self.threads.iter().filter(|(_, th)| th.is_runnable());
        // The first of several equal minima is the one that is kept.
        let fewest = runnable.min_by_key(|(_, th)| th.yield_count);
        fewest.map(|(id, _)| id)
    }

    /// (c) Initial Active, else yielded Yield, not runnable or absent Disabled, others Skip.
    fn seed(&self, initial: Option<thread::Id>) -> [Seed; MAX_THREADS] {
        let mut seed = [Seed::Disabled; MAX_THREADS];
        for (id, thread) in self.threads.iter() {
            seed[id.as_usize()] = if initial == Some(id) {
                Seed::Active
            } else if thread.is_yield() {
                Seed::Yield
            } else if thread.is_runnable() {
                Seed::Skip
            } else {
                Seed::Disabled
            };
        }
        seed
    }

    /// (d), its end: the chosen thread's operation is recorded as the cell's access.
    fn record_access(&mut self, path_id: usize) {
        let id = self.threads.active_id();
        let active = self.threads.active_mut();
        let Some(operation) = active.operation else {
            return;
        };
        if let Some(access) = self.objects.last_dependent_access(operation) {
            active.dpor_vv.join(access.version());
        }
        active.dpor_vv.inc(id);
        active.granted = true;
        let version = active.dpor_vv;
        self.objects.set_last_access(operation, path_id, &version);
    }

    /// (e) Every yielded thread but the chosen one is then runnable again. The chosen one stays
    /// yielded until a later choice picks another thread (request 1 of document 02).
    fn wake_yielded(&mut self, chosen: thread::Id) {
        for (id, thread) in self.threads.iter_mut() {
            if id != chosen && thread.is_yield() {
                thread.state = State::Runnable;
            }
        }
    }
}
