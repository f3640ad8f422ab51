//! A child of atomic.rs, so that it sees the private count of stores there: the slot that a trace
//! entry names (document 01, "Trace entry").

use super::{index, Atomic};
use crate::rt;

impl Atomic<u64> {
    /// The slot of the newest store in execution order.
    pub(crate) fn newest(&self) -> u8 {
        rt::execution(|execution| {
            let state = self.state.get(&execution.objects);
            index(state.cnt - 1) as u8
        })
    }
}

#[cfg(test)]
mod tests {
    use super::super::State;
    use crate::rt::{execution, thread, Location, Synchronize};
    use std::sync::atomic::Ordering;

    /// The order in which a fence meets the stores, as slots: each holds its own number as value.
    fn fence_order(cnt: u16) -> Vec<u64> {
        let mut threads = thread::Set::new(execution::Id, 1);
        let mut state = State::new(&mut threads, 0, Location);
        for number in 1..cnt {
            let value = u64::from(number % 7);
            state.store(&mut threads, Synchronize::new(), value, Ordering::Relaxed);
        }
        assert_eq!(state.cnt, cnt);
        state.stores_mut().map(|store| store.value).collect()
    }

    /// P8 of document 01, and the counts about it: oldest first.
    #[test]
    fn p8_stores_come_oldest_first() {
        assert_eq!(fence_order(9), [2, 3, 4, 5, 6, 0, 1]);
        assert_eq!(fence_order(1), [0]);
        assert_eq!(fence_order(6), [0, 1, 2, 3, 4, 5]);
        assert_eq!(fence_order(7), [0, 1, 2, 3, 4, 5, 6]);
        assert_eq!(fence_order(8), [1, 2, 3, 4, 5, 6, 0]);
        assert_eq!(fence_order(13), [6, 0, 1, 2, 3, 4, 5]);
        assert_eq!(fence_order(14), [0, 1, 2, 3, 4, 5, 6]);
    }
}
