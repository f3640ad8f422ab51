//! An atomic cell: the stores it remembers, who has seen them, and which of them may be read.
//!
//! Names follow loom's `rt/atomic.rs`. The CDSChecker paper explains the model.

use crate::fault::{Fault, Race};
use crate::op::{Action, Change, Order, Orders};
use crate::thread::Thread;
use crate::vv::{Lanes, VersionVec, LANES};

/// Stores that a cell remembers.
pub const MAX_ATOMIC_HISTORY: usize = 7;

pub struct State {
    /// Everything that happened before some atomic load.
    loaded_at: VersionVec,
    /// Everything that happened before some unsynchronised load.
    unsync_loaded_at: VersionVec,
    /// Everything that happened before some atomic store.
    stored_at: VersionVec,
    /// Everything that happened before some exclusive access, the making of the cell included.
    unsync_mut_at: VersionVec,
    last_access: Access,
    last_non_load_access: Access,
    /// The newest stores; a new one goes to slot `cnt` mod seven. Only live slots are ever read, so
    /// what an earlier execution left in the others does no harm.
    stores: [Store; MAX_ATOMIC_HISTORY],
    /// How many stores there were in all.
    cnt: u16,
}

/// An access that others may depend on. The default, made at zero, is ordered before everything and
/// so stands for "none yet".
#[derive(Clone, Copy, Default)]
pub struct Access {
    /// Position of the schedule record at which it was chosen.
    pub branch: usize,
    pub dpor_vv: VersionVec,
}

#[derive(Clone, Copy)]
struct Store {
    value: u64,
    /// The storing thread's causality.
    happens_before: VersionVec,
    /// Its place in the modification order, which is partial.
    modification_order: VersionVec,
    /// What a thread that reads this store and acquires comes to know.
    sync: VersionVec,
    first_seen: FirstSeen,
    seq_cst: bool,
}

/// The version at which each thread first saw a store. Unseen is the greatest number, which no
/// version reaches; so is every lane that belongs to no thread.
#[derive(Clone, Copy)]
#[repr(align(16))]
struct FirstSeen(Lanes);

// The races, by number: the present access and the earlier one that it is not ordered after.
const LOAD_MUT: u8 = 1;
const UNSYNC_LOAD_MUT: u8 = 2;
const UNSYNC_LOAD_STORE: u8 = 3;
const STORE_MUT: u8 = 4;
const STORE_UNSYNC_LOAD: u8 = 5;
const MUT_LOAD: u8 = 6;
const MUT_UNSYNC_LOAD: u8 = 7;
const MUT_STORE: u8 = 8;
const MUT_MUT: u8 = 9;

impl State {
    /// Room for a cell. It has to be made anew for each execution.
    pub fn unmade() -> State {
        State {
            loaded_at: VersionVec::new(),
            unsync_loaded_at: VersionVec::new(),
            stored_at: VersionVec::new(),
            unsync_mut_at: VersionVec::new(),
            last_access: Access::default(),
            last_non_load_access: Access::default(),
            stores: [Store::unmade(); MAX_ATOMIC_HISTORY],
            cnt: 0,
        }
    }

    /// Makes the cell, by a thread that has made nothing unordered with it.
    pub fn make(&mut self, thread: &Thread, value: u64) {
        self.loaded_at = VersionVec::new();
        self.unsync_loaded_at = VersionVec::new();
        self.stored_at = VersionVec::new();
        self.unsync_mut_at = thread.causality;
        self.last_access = Access::default();
        self.last_non_load_access = Access::default();
        self.cnt = 0;
        self.store(thread, VersionVec::new(), value, Order::Release);
    }

    /// Reads the store in slot `index`.
    pub fn load(&mut self, thread: &mut Thread, index: usize, order: Order) -> Result<u64, Race> {
        self.track_load(thread)?;
        self.apply_load_coherence(thread, index);
        let store = &mut self.stores[index];
        store.first_seen.touch(thread);
        sync_load(thread, &store.sync, order);
        Ok(store.value)
    }

    /// Stores a value that continues no earlier store's release sequence; answers the slot.
    pub fn store_new(&mut self, thread: &Thread, value: u64, order: Order) -> Result<usize, Race> {
        self.track_store(thread)?;
        Ok(self.store(thread, VersionVec::new(), value, order))
    }

    /// Reads the store in slot `index` and, unless the change fails, stores what it makes of it.
    /// Answers the value read.
    pub fn rmw(
        &mut self,
        thread: &mut Thread,
        index: usize,
        orders: Orders,
        change: Change,
    ) -> Result<u64, Race> {
        self.track_load(thread)?;
        self.apply_load_coherence(thread, index);
        self.stores[index].first_seen.touch(thread);
        let Store { value, sync, .. } = self.stores[index];
        let Some(next) = change.apply(value) else {
            sync_load(thread, &sync, orders.failure);
            return Ok(value);
        };
        self.track_store(thread)?;
        sync_load(thread, &sync, orders.success);
        // The new store goes on with the read store's sync: that is the release sequence.
        self.store(thread, sync, next, orders.success);
        Ok(value)
    }

    /// The newest value, read without synchronisation, and its slot.
    pub fn unsync_load(&mut self, thread: &Thread) -> Result<(usize, u64), Race> {
        self.track_unsync_load(thread)?;
        let newest = self.newest();
        Ok((newest, self.stores[newest].value))
    }

    /// Changes the newest value in place. Answers its slot, the value found and the value left.
    pub fn with_mut(&mut self, thread: &Thread, change: Change) -> Result<(usize, u64, u64), Race> {
        self.track_unsync_mut(thread)?;
        let newest = self.newest();
        let value = &mut self.stores[newest].value;
        let found = *value;
        *value = change.apply(found).unwrap_or(found);
        Ok((newest, found, *value))
    }

    /// An acquire fence's part in this cell: every store that the thread has seen now synchronises.
    /// The stores are taken oldest first, and what one brings counts when the next is judged.
    pub fn fence_acq(&self, thread: &mut Thread) {
        for slot in oldest_first(self.cnt) {
            let store = &self.stores[slot];
            if store.first_seen.is_seen_by_current(thread) {
                thread.causality.join(&store.sync);
            }
        }
    }

    fn store(&mut self, thread: &Thread, mut sync: VersionVec, value: u64, order: Order) -> usize {
        let index = index(self.cnt);
        let happens_before = thread.causality;
        // Whatever happened before is earlier (write-write coherence), and so is whatever was read
        // (read-write coherence), the store in the slot to be used again included.
        let mut modification_order = happens_before;
        for store in self.live() {
            if store.first_seen.is_seen_by_current(thread) {
                modification_order.join(&store.modification_order);
            }
        }
        sync_store(thread, &mut sync, order);
        let mut first_seen = FirstSeen::new();
        first_seen.touch(thread);
        let seq_cst = order == Order::SeqCst;
        self.stores[index] = Store {
            value,
            happens_before,
            modification_order,
            sync,
            first_seen,
            seq_cst,
        };
        self.cnt += 1;
        index
    }

    /// The store read is later than all that the thread has seen and all that happened before.
    fn apply_load_coherence(&mut self, thread: &Thread, index: usize) {
        let mut modification_order = self.stores[index].modification_order;
        // The store itself adds nothing to its own order, so it need not be left out.
        for store in self.live() {
            if store.first_seen.is_seen_by_current(thread)
                || store.happens_before.less(&thread.causality)
            {
                modification_order.join(&store.modification_order);
            }
        }
        self.stores[index].modification_order = modification_order;
    }

    fn track_load(&mut self, thread: &Thread) -> Result<(), Race> {
        ordered(thread, &self.unsync_mut_at, LOAD_MUT)?;
        self.loaded_at.join(&thread.causality);
        Ok(())
    }

    fn track_unsync_load(&mut self, thread: &Thread) -> Result<(), Race> {
        ordered(thread, &self.unsync_mut_at, UNSYNC_LOAD_MUT)?;
        ordered(thread, &self.stored_at, UNSYNC_LOAD_STORE)?;
        self.unsync_loaded_at.join(&thread.causality);
        Ok(())
    }

    fn track_store(&mut self, thread: &Thread) -> Result<(), Race> {
        ordered(thread, &self.unsync_mut_at, STORE_MUT)?;
        ordered(thread, &self.unsync_loaded_at, STORE_UNSYNC_LOAD)?;
        self.stored_at.join(&thread.causality);
        Ok(())
    }

    fn track_unsync_mut(&mut self, thread: &Thread) -> Result<(), Race> {
        ordered(thread, &self.loaded_at, MUT_LOAD)?;
        ordered(thread, &self.unsync_loaded_at, MUT_UNSYNC_LOAD)?;
        ordered(thread, &self.stored_at, MUT_STORE)?;
        ordered(thread, &self.unsync_mut_at, MUT_MUT)?;
        self.unsync_mut_at.join(&thread.causality);
        Ok(())
    }

    /// The stores that a load may return, bit i for slot i.
    pub fn match_load_to_stores(&self, thread: &Thread, order: Order) -> Result<u8, Fault> {
        let seq_cst = order == Order::SeqCst;
        let mut seen = [false; MAX_ATOMIC_HISTORY];
        for (seen, store) in seen.iter_mut().zip(self.live()) {
            *seen = store.first_seen.is_seen_by_current(thread);
        }
        self.offers(|i, j, newer| {
            seen[newer]
                || i.first_seen.is_seen_before_yield(thread)
                || seq_cst && i.seq_cst && j.seq_cst
        })
    }

    /// The stores that a read-modify-write may read: only the newest ones.
    pub fn match_rmw_to_stores(&self) -> Result<u8, Fault> {
        self.offers(|_, _, _| true)
    }

    /// The live stores but those hidden by a newer one. `hides` is asked about an older store, a
    /// newer one and the newer one's slot. Equal orders are a fault only where the scan, which
    /// leaves a store as soon as it is hidden, comes upon them.
    fn offers(&self, hides: impl Fn(&Store, &Store, usize) -> bool) -> Result<u8, Fault> {
        let stores = self.live();
        let mut offers = 0;
        'stores: for (i, older) in stores.iter().enumerate() {
            for (j, newer) in stores.iter().enumerate() {
                if i == j || !older.modification_order.at_most(&newer.modification_order) {
                    continue;
                }
                if older.modification_order == newer.modification_order {
                    return Err(Fault::EqualOrders);
                }
                if hides(older, newer, j) {
                    continue 'stores;
                }
            }
            offers |= 1 << i;
        }
        Ok(offers)
    }

    /// The last access that one of this kind depends on. Loads don't depend on each other.
    pub fn last_dependent_access(&self, action: Action) -> &Access {
        match action {
            Action::Load => &self.last_non_load_access,
            Action::Store => &self.last_access,
        }
    }

    pub fn set_last_access(&mut self, action: Action, access: Access) {
        self.last_access = access;
        if action == Action::Store {
            self.last_non_load_access = access;
        }
    }

    fn live(&self) -> &[Store] {
        &self.stores[..MAX_ATOMIC_HISTORY.min(self.cnt.into())]
    }

    /// The slot of the last store made.
    fn newest(&self) -> usize {
        index(self.cnt - 1)
    }
}

impl Store {
    fn unmade() -> Store {
        Store {
            value: 0,
            happens_before: VersionVec::new(),
            modification_order: VersionVec::new(),
            sync: VersionVec::new(),
            first_seen: FirstSeen::new(),
            seq_cst: false,
        }
    }
}

impl FirstSeen {
    fn new() -> FirstSeen {
        FirstSeen([u16::MAX; LANES])
    }

    /// Marks first sight. Versions only rise, so the lesser number is the earlier mark or, where
    /// there was none, the new one.
    fn touch(&mut self, thread: &Thread) {
        for (mark, now) in self.0.iter_mut().zip(thread.causality.only(thread.id)) {
            *mark = now.min(*mark);
        }
    }

    fn is_seen_by_current(&self, thread: &Thread) -> bool {
        thread.causality.reaches(&self.0)
    }

    fn is_seen_before_yield(&self, thread: &Thread) -> bool {
        self.0[thread.id] <= thread.last_yield
    }
}

/// Whether all that `accesses` stands for happened before the thread's present step.
pub fn ordered(thread: &Thread, accesses: &VersionVec, kind: u8) -> Result<(), Race> {
    match thread.causality.ahead(accesses) {
        None => Ok(()),
        Some(other) => Err(Race {
            kind,
            other: other as u8,
        }),
    }
}

fn sync_load(thread: &mut Thread, sync: &VersionVec, order: Order) {
    if order.acquires() {
        thread.causality.join(sync);
    }
}

fn sync_store(thread: &Thread, sync: &mut VersionVec, order: Order) {
    sync.join(&thread.released);
    if order.releases() {
        sync.join(&thread.causality);
    }
}

fn index(cnt: u16) -> usize {
    cnt as usize % MAX_ATOMIC_HISTORY
}

/// The live slots in the order in which they were written.
fn oldest_first(cnt: u16) -> impl Iterator<Item = usize> {
    let oldest = cnt.saturating_sub(MAX_ATOMIC_HISTORY as u16);
    (oldest..cnt).map(index)
}

#[cfg(test)]
mod tests {
    use super::*;

    #[test]
    fn fences_take_the_oldest_store_first() {
        assert_eq!(oldest_first(9).collect::<Vec<_>>(), [2, 3, 4, 5, 6, 0, 1]);
        assert_eq!(oldest_first(7).collect::<Vec<_>>(), [0, 1, 2, 3, 4, 5, 6]);
        assert_eq!(oldest_first(8).collect::<Vec<_>>(), [1, 2, 3, 4, 5, 6, 0]);
        assert_eq!(oldest_first(1).collect::<Vec<_>>(), [0]);
    }
}
