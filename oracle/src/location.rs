//! Source locations are out of scope (document 01, "Out: locations"), so these are stubs. What is
//! left of loom's file is the panic builder: it turns the nine race reports of atomic.rs into
//! document 01's race kinds 1 to 9.

use crate::rt::thread;

use std::ops;

#[derive(Debug, Clone, Copy)]
pub(crate) struct Location;

#[derive(Debug)]
pub(super) struct LocationSet;

impl LocationSet {
    pub(super) fn new() -> LocationSet {
        LocationSet
    }

    pub(super) fn track(&mut self, _location: Location, _threads: &thread::Set) {}
}

impl ops::Index<usize> for LocationSet {
    type Output = Location;

    fn index(&self, _thread: usize) -> &Location {
        &Location
    }
}

impl ops::Index<&thread::Set> for LocationSet {
    type Output = Location;

    fn index(&self, _threads: &thread::Set) -> &Location {
        &Location
    }
}

/// The payload of a race's panic.
#[derive(Debug, Clone, Copy, PartialEq, Eq)]
pub(crate) struct Race {
    /// 1 to 9.
    pub(crate) kind: u64,
    /// What `ahead` gave.
    pub(crate) other: u64,
}

/// The texts of atomic.rs, kind 1 first: the order of document 01's list.
const RACES: [&str; 9] = [
    "Causality violation: Concurrent load and mut accesses.",
    "Causality violation: Concurrent `unsync_load` and mut accesses.",
    "Causality violation: Concurrent `unsync_load` and atomic store.",
    "Causality violation: Concurrent atomic store and mut accesses.",
    "Causality violation: Concurrent atomic store and `unsync_load` accesses.",
    "Causality violation: Concurrent atomic load and unsync mut accesses.",
    "Causality violation: Concurrent `unsync_load` and unsync mut accesses.",
    "Causality violation: Concurrent atomic store and unsync mut accesses.",
    "Causality violation: Concurrent unsync mut accesses.",
];

pub(super) struct PanicBuilder {
    text: &'static str,
    /// The first thread named; atomic.rs names the other one first, the current one second.
    other: Option<usize>,
}

pub(super) fn panic(text: &'static str) -> PanicBuilder {
    PanicBuilder { text, other: None }
}

impl PanicBuilder {
    pub(super) fn location(self, _key: &str, _location: Location) -> PanicBuilder {
        self
    }

    pub(super) fn thread(
        mut self,
        _key: &str,
        thread: impl Into<usize>,
        _location: Location,
    ) -> PanicBuilder {
        self.other = self.other.or(Some(thread.into()));
        self
    }

    pub(super) fn fire(self) -> ! {
        let place = RACES.iter().position(|&text| text == self.text);
        let (Some(place), Some(other)) = (place, self.other) else {
            panic!("not a race that document 01 knows: {}", self.text);
        };
        std::panic::panic_any(Race {
            kind: place as u64 + 1,
            other: other as u64,
        })
    }
}
