//! What stops a run before its choices or its budget are used up.

/// The first fault of a run.
#[derive(Clone, Copy, Debug, PartialEq, Eq)]
pub enum Fault {
    /// No thread can be chosen, yet not all have ended.
    Deadlock,
    /// A branch is to be added to a full path.
    Branches,
    /// A row is to begin, and no more may.
    Operations,
    /// Two stores of equal order met in a scan.
    EqualOrders,
    /// Unordered accesses, at least one of them not atomic.
    Race(Race),
    /// A check row's register has another value.
    Check,
    /// `critical` or `explore_state` in the wrong state.
    Exploring,
    /// More preemptions than a record can count.
    Preemptions,
}

/// Which two accesses race, by number, and which thread made the earlier one.
#[derive(Clone, Copy, Debug, PartialEq, Eq)]
pub struct Race {
    pub kind: u8,
    pub other: u8,
}

impl Fault {
    /// The number under which it is reported.
    pub fn answer(self) -> u64 {
        match self {
            Fault::Deadlock => 10,
            Fault::Branches => 11,
            Fault::Operations => 12,
            Fault::EqualOrders => 13,
            Fault::Race(_) => 14,
            Fault::Check => 15,
            Fault::Exploring => 16,
            Fault::Preemptions => 17,
        }
    }
}

impl From<Race> for Fault {
    fn from(race: Race) -> Fault {
        Fault::Race(race)
    }
}
