//! Threads. Document 01, "Support rules": all exist from the start of an execution, runnable,
//! without operation or last yield; thread 0 runs. Its vectors while cells are made and afterwards
//! are those of "Start of each execution".

use crate::rt::object::Operation;
use crate::rt::{execution, VersionVec, MAX_THREADS};

use std::ops;

#[derive(Debug, Clone, Copy)]
pub(crate) struct Thread {
    pub(crate) state: State,

    /// The pending operation.
    pub(super) operation: Option<Operation>,

    /// A scheduling has chosen this thread for its pending operation, which has not acted yet.
    pub(super) granted: bool,

    pub(crate) causality: VersionVec,

    /// The causality at the last release fence.
    pub(crate) released: VersionVec,

    /// The schedule vector.
    pub(crate) dpor_vv: VersionVec,

    /// Own version at the last yield.
    pub(crate) last_yield: Option<u16>,

    pub(crate) yield_count: u64,
}

#[derive(Debug, Clone, Copy, PartialEq, Eq)]
pub(crate) enum State {
    Runnable,
    /// Blocked in a join on this thread.
    Blocked(usize),
    Yield,
    Terminated,
}

#[derive(Debug)]
pub(crate) struct Set {
    execution_id: execution::Id,

    /// The first `present` of these exist.
    threads: [Thread; MAX_THREADS],
    present: usize,

    /// The current thread; none when the last scheduling found none.
    active: Option<usize>,

    /// The global SeqCst vector.
    seq_cst_causality: VersionVec,
}

#[derive(Debug, Clone, Copy, PartialEq, Eq)]
pub(crate) struct Id(usize);

impl Thread {
    fn new() -> Thread {
        Thread {
            state: State::Runnable,
            operation: None,
            granted: false,
            causality: VersionVec::new(),
            released: VersionVec::new(),
            dpor_vv: VersionVec::new(),
            last_yield: None,
            yield_count: 0,
        }
    }

    pub(crate) fn is_runnable(&self) -> bool {
        self.state == State::Runnable
    }

    pub(crate) fn is_yield(&self) -> bool {
        self.state == State::Yield
    }

    pub(crate) fn is_terminated(&self) -> bool {
        self.state == State::Terminated
    }
}

impl Set {
    /// The threads while cells are made: thread 0 is (1,0,0,0,0).
    pub(crate) fn new(execution_id: execution::Id, present: usize) -> Set {
        let mut set = Set {
            execution_id,
            threads: [Thread::new(); MAX_THREADS],
            present,
            active: Some(0),
            seq_cst_causality: VersionVec::new(),
        };
        set.threads[0].causality.inc(Id(0));
        set
    }

    /// The threads after cells are made: thread 0 is (2,0,0,0,0), each other has 1 at place 0 and 1
    /// at its own.
    pub(crate) fn cells_made(&mut self) {
        self.threads[0].causality.inc(Id(0));
        for i in 1..self.present {
            self.threads[i].causality.inc(Id(0));
            self.threads[i].causality.inc(Id(i));
        }
    }

    pub(crate) fn execution_id(&self) -> execution::Id {
        self.execution_id
    }

    pub(crate) fn active_id(&self) -> Id {
        Id(self.active.expect("no thread is current"))
    }

    pub(crate) fn active(&self) -> &Thread {
        &self[self.active_id()]
    }

    pub(crate) fn active_mut(&mut self) -> &mut Thread {
        let id = self.active_id();
        &mut self[id]
    }

    pub(crate) fn set_active(&mut self, id: Option<Id>) {
        self.active = id.map(Id::as_usize);
    }

    /// Raises the current thread's own version.
    pub(crate) fn active_causality_inc(&mut self) {
        let id = self.active_id();
        self[id].causality.inc(id);
    }

    /// The current thread's own version.
    pub(crate) fn active_atomic_version(&self) -> u16 {
        let id = self.active_id();
        self[id].causality[id]
    }

    /// The last part of a SeqCst fence: the thread joins the global vector, that joins the thread.
    pub(crate) fn seq_cst_fence(&mut self) {
        let global = self.seq_cst_causality;
        self.active_mut().causality.join(&global);
        let mine = self.active().causality;
        self.seq_cst_causality.join(&mine);
    }

    /// The threads that exist, by number.
    pub(crate) fn iter(&self) -> impl Iterator<Item = (Id, &Thread)> + '_ {
        let named = |(i, thread)| (Id(i), thread);
        self.threads[..self.present].iter().enumerate().map(named)
    }

    pub(crate) fn iter_mut(&mut self) -> impl Iterator<Item = (Id, &mut Thread)> + '_ {
        let named = |(i, thread)| (Id(i), thread);
        self.threads[..self.present]
            .iter_mut()
            .enumerate()
            .map(named)
    }
}

impl ops::Index<Id> for Set {
    type Output = Thread;

    fn index(&self, id: Id) -> &Thread {
        &self.threads[..self.present][id.0]
    }
}

impl ops::IndexMut<Id> for Set {
    fn index_mut(&mut self, id: Id) -> &mut Thread {
        &mut self.threads[..self.present][id.0]
    }
}

impl Id {
    pub(crate) fn new(_execution_id: execution::Id, id: usize) -> Id {
        Id(id)
    }

    pub(crate) fn as_usize(self) -> usize {
        self.0
    }
}

impl From<Id> for usize {
    fn from(id: Id) -> usize {
        id.0
    }
}
