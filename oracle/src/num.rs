//! What a cell holds. Document 01 knows u64 alone ("Out: generics"); the trait is there only
//! because atomic.rs asks for it.

pub(crate) trait Numeric: Sized + Copy + PartialEq {
    fn into_u64(self) -> u64;

    fn from_u64(src: u64) -> Self;
}

impl Numeric for u64 {
    fn into_u64(self) -> u64 {
        self
    }

    fn from_u64(src: u64) -> u64 {
        src
    }
}
