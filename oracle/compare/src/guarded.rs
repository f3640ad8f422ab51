//! Memory lent to the library, with guards on both sides: what is written past either end shows.

/// Guard elements on each side, at least.
pub const GUARD: usize = 64;

/// What may stand in such memory.
pub trait Element: Copy + PartialEq {
    /// What a guard holds at a place. It differs from its neighbours and from the fill, so that a
    /// shifted or repeated write cannot look like none.
    fn guard(place: usize) -> Self;
}

impl Element for u8 {
    fn guard(place: usize) -> u8 {
        (place * 11 + 173) as u8
    }
}

impl Element for u64 {
    fn guard(place: usize) -> u64 {
        0xa5a5_0000_5a5a_0000 + place as u64
    }
}

/// A slice within guards.
pub struct Guarded<T> {
    all: Vec<T>,
    start: usize,
    end: usize,
}

impl<T: Element> Guarded<T> {
    /// These elements within guards. `shift` more guard elements in front move the slice to another
    /// alignment.
    pub fn new(elements: impl ExactSizeIterator<Item = T>, shift: usize) -> Guarded<T> {
        let start = GUARD + shift;
        let end = start + elements.len();
        let mut all: Vec<T> = (0..start).map(T::guard).collect();
        all.extend(elements);
        all.extend((end..end + GUARD).map(T::guard));
        Guarded { all, start, end }
    }

    /// What is lent.
    pub fn lent(&mut self) -> &mut [T] {
        &mut self.all[self.start..self.end]
    }

    /// What stands there now.
    pub fn inside(&self) -> &[T] {
        &self.all[self.start..self.end]
    }

    /// Whether both guards are as they were made.
    pub fn intact(&self) -> bool {
        let untouched = |place: usize| self.all[place] == T::guard(place);
        (0..self.start).chain(self.end..self.all.len()).all(untouched)
    }
}

#[cfg(test)]
mod tests {
    use super::*;

    #[test]
    fn a_write_past_either_end_shows() {
        for (shift, length) in [(0, 0), (3, 1), (15, 40)] {
            let whole = Guarded::new((0..length).map(|place| place as u8), shift);
            assert!(whole.intact());
            assert_eq!(whole.inside().len(), length);
            let outside = (0..whole.start).chain(whole.end..whole.all.len());
            for place in outside {
                let mut broken = Guarded::new((0..length).map(|place| place as u8), shift);
                broken.all[place] ^= 1;
                assert!(!broken.intact(), "place {place} of shift {shift}");
            }
        }
    }
}
