//! The object store, used twice: for cells, and for the records of a path. Document 01, "What must
//! change shape": a reference is a position. The capacity of a path's store is exactly B, whatever
//! room the vector beneath it happens to have.

use crate::rt::atomic;
use crate::rt::{Access, Location, VersionVec};

use std::fmt;
use std::marker::PhantomData;

#[derive(Debug)]
pub(super) struct Store<T = Entry> {
    entries: Vec<T>,
    capacity: usize,
}

pub(super) trait Object: Sized {
    type Entry;

    fn into_entry(self) -> Self::Entry;

    fn get_ref(entry: &Self::Entry) -> Option<&Self>;

    fn get_mut(entry: &mut Self::Entry) -> Option<&mut Self>;
}

/// A position in a store, with the type of what stands there; `()` when that is not known.
pub(super) struct Ref<T = ()> {
    index: usize,
    _p: PhantomData<T>,
}

/// A pending operation: which cell, and what is to be done with it.
#[derive(Debug, Clone, Copy, PartialEq)]
pub(super) struct Operation {
    cell: usize,
    action: atomic::Action,
}

/// An enum of objects, and the ways in and out of it; path.rs and this file each make one.
macro_rules! objects {
    ( $(#[$attrs:meta])* $e:ident, $( $name:ident($ty:path), )* ) => {
        $(#[$attrs])*
        pub(super) enum $e {
            $( $name($ty), )*
        }

        $(
            impl crate::rt::object::Object for $ty {
                type Entry = $e;

                fn into_entry(self) -> $e {
                    $e::$name(self)
                }

                fn get_ref(entry: &$e) -> Option<&$ty> {
                    match entry {
                        $e::$name(object) => Some(object),
                        #[allow(unreachable_patterns)]
                        _ => None,
                    }
                }

                fn get_mut(entry: &mut $e) -> Option<&mut $ty> {
                    match entry {
                        $e::$name(object) => Some(object),
                        #[allow(unreachable_patterns)]
                        _ => None,
                    }
                }
            }
        )*
    };
}

objects! {
    #[derive(Debug)]
    Entry,
    Atomic(atomic::State),
}

impl<T> Store<T> {
    pub(super) fn with_capacity(capacity: usize) -> Store<T> {
        Store {
            entries: Vec::new(),
            capacity,
        }
    }

    pub(super) fn len(&self) -> usize {
        self.entries.len()
    }

    pub(super) fn capacity(&self) -> usize {
        self.capacity
    }

    pub(super) fn reserve_exact(&mut self, additional: usize) {
        self.capacity = self.entries.len() + additional;
    }

    pub(super) fn insert<O: Object<Entry = T>>(&mut self, item: O) -> Ref<O> {
        assert!(self.entries.len() < self.capacity, "the store is full");
        self.entries.push(item.into_entry());
        Ref::at(self.entries.len() - 1)
    }

    /// Keeps everything up to and including this object.
    pub(super) fn truncate<O>(&mut self, last: Ref<O>) {
        self.entries.truncate(last.index + 1);
    }

    pub(super) fn clear(&mut self) {
        self.entries.clear();
    }

    pub(super) fn entries(&self) -> &[T] {
        &self.entries
    }

    pub(super) fn iter_ref<O>(&self) -> impl DoubleEndedIterator<Item = Ref<O>> + '_
    where
        O: Object<Entry = T>,
    {
        let entries = self.entries.iter().enumerate();
        entries.filter_map(|(index, entry)| O::get_ref(entry).map(|_| Ref::at(index)))
    }

    pub(super) fn iter_mut<'a, O>(&'a mut self) -> impl DoubleEndedIterator<Item = &'a mut O>
    where
        O: Object<Entry = T> + 'a,
        T: 'a,
    {
        self.entries.iter_mut().filter_map(O::get_mut)
    }
}

impl Store {
    pub(super) fn last_dependent_access(&self, operation: Operation) -> Option<&Access> {
        let Entry::Atomic(state) = &self.entries[operation.cell];
        state.last_dependent_access(operation.action)
    }

    pub(super) fn set_last_access(
        &mut self,
        operation: Operation,
        path_id: usize,
        version: &VersionVec,
    ) {
        let Entry::Atomic(state) = &mut self.entries[operation.cell];
        state.set_last_access(operation.action, path_id, version);
    }
}

impl Operation {
    /// Cells are made in order in an empty store, so a cell's number is its position.
    pub(super) fn new(cell: usize, action: atomic::Action) -> Operation {
        Operation { cell, action }
    }
}

impl<T> Ref<T> {
    fn at(index: usize) -> Ref<T> {
        Ref {
            index,
            _p: PhantomData,
        }
    }

    pub(super) fn ref_eq(self, other: Ref<T>) -> bool {
        self.index == other.index
    }

    pub(super) fn as_usize(self) -> usize {
        self.index
    }
}

impl<T: Object> Ref<T> {
    pub(super) fn get(self, store: &Store<T::Entry>) -> &T {
        T::get_ref(&store.entries[self.index]).expect("another kind of object stands here")
    }

    pub(super) fn get_mut(self, store: &mut Store<T::Entry>) -> &mut T {
        T::get_mut(&mut store.entries[self.index]).expect("another kind of object stands here")
    }
}

impl Ref {
    pub(super) fn from_usize(index: usize) -> Ref {
        Ref::at(index)
    }

    pub(super) fn downcast<T: Object>(self, store: &Store<T::Entry>) -> Option<Ref<T>> {
        T::get_ref(&store.entries[self.index]).map(|_| Ref::at(self.index))
    }
}

impl Ref<atomic::State> {
    /// The interpreter has made the scheduling already: it sets the pending operation, schedules,
    /// and lets a thread act only once it is chosen. So nothing is left to do here but to see that
    /// this is so.
    pub(super) fn branch_action(self, action: atomic::Action, _location: Location) {
        let operation = Operation::new(self.index, action);
        super::execution(|execution| {
            let active = execution.threads.active_mut();
            assert_eq!(active.operation, Some(operation), "another operation");
            assert!(active.granted, "the operation was not scheduled");
            active.granted = false;
        })
    }
}

impl<T> Clone for Ref<T> {
    fn clone(&self) -> Ref<T> {
        *self
    }
}

impl<T> Copy for Ref<T> {}

impl<T> fmt::Debug for Ref<T> {
    fn fmt(&self, f: &mut fmt::Formatter<'_>) -> fmt::Result {
        write!(f, "Ref({})", self.index)
    }
}
