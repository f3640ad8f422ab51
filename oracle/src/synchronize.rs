//! Synchronisation of a store. Document 01, "Support rules": loads of order Acquire, AcqRel and
//! SeqCst join the store's sync vector into the thread; a store joins the thread's released vector
//! into its sync and, for Release, AcqRel and SeqCst, the thread's causality too.

use crate::rt::{thread, VersionVec};

use std::sync::atomic::Ordering;

#[derive(Debug, Clone, Copy)]
pub(crate) struct Synchronize {
    sync: VersionVec,
}

impl Synchronize {
    pub(crate) fn new() -> Synchronize {
        Synchronize {
            sync: VersionVec::new(),
        }
    }

    pub(crate) fn sync_load(&mut self, threads: &mut thread::Set, order: Ordering) {
        match order {
            Ordering::Relaxed | Ordering::Release => {}
            Ordering::Acquire | Ordering::AcqRel | Ordering::SeqCst => {
                threads.active_mut().causality.join(&self.sync);
            }
            other => unreachable!("no such order: {other:?}"),
        }
    }

    pub(crate) fn sync_store(&mut self, threads: &mut thread::Set, order: Ordering) {
        self.sync.join(&threads.active().released);
        match order {
            Ordering::Relaxed | Ordering::Acquire => {}
            Ordering::Release | Ordering::AcqRel | Ordering::SeqCst => {
                self.sync.join(&threads.active().causality);
            }
            other => unreachable!("no such order: {other:?}"),
        }
    }
}
