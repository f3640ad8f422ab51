//! Vectors. Document 01, "Support rules": five u16; x < y when each part is at most and not all are
//! equal; join takes the greater of each; `ahead` is the lowest thread whose part in the other
//! vector is greater; a thread's version is its own part.

use crate::rt::{execution, thread, MAX_THREADS};

use std::cmp::Ordering;
use std::ops;

#[derive(Debug, Copy, Clone, Eq, PartialEq)]
pub(crate) struct VersionVec {
    versions: [u16; MAX_THREADS],
}

impl VersionVec {
    pub(crate) fn new() -> VersionVec {
        VersionVec {
            versions: [0; MAX_THREADS],
        }
    }

    pub(crate) fn versions(
        &self,
        execution_id: execution::Id,
    ) -> impl Iterator<Item = (thread::Id, u16)> + '_ {
        let named = move |(i, &part)| (thread::Id::new(execution_id, i), part);
        self.versions.iter().enumerate().map(named)
    }

    /// Raises one part by 1. No part can pass 65535 within L, so a sum that does is a crash.
    pub(crate) fn inc(&mut self, id: thread::Id) {
        self.versions[id.as_usize()] += 1;
    }

    pub(crate) fn join(&mut self, other: &VersionVec) {
        for (mine, &theirs) in self.versions.iter_mut().zip(&other.versions) {
            *mine = (*mine).max(theirs);
        }
    }

    pub(crate) fn ahead(&self, other: &VersionVec) -> Option<usize> {
        (0..MAX_THREADS).find(|&i| other.versions[i] > self.versions[i])
    }

    fn at_most(&self, other: &VersionVec) -> bool {
        (0..MAX_THREADS).all(|i| self.versions[i] <= other.versions[i])
    }
}

impl PartialOrd for VersionVec {
    fn partial_cmp(&self, other: &VersionVec) -> Option<Ordering> {
        match (self.at_most(other), other.at_most(self)) {
            (true, true) => Some(Ordering::Equal),
            (true, false) => Some(Ordering::Less),
            (false, true) => Some(Ordering::Greater),
            (false, false) => None,
        }
    }
}

impl ops::Index<thread::Id> for VersionVec {
    type Output = u16;

    fn index(&self, id: thread::Id) -> &u16 {
        &self.versions[id.as_usize()]
    }
}
