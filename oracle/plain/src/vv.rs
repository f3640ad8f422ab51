//! Version vectors: what each thread had done when something happened.

/// Threads in a program at most.
pub const MAX_THREADS: usize = 5;

/// Eight lanes fill one 128-bit register, so that joins and comparisons need no loop. The lanes
/// past the threads are always zero and so never decide anything.
pub const LANES: usize = 8;

/// One number for each lane.
pub type Lanes = [u16; LANES];

/// The parts of all threads.
#[derive(Clone, Copy, Debug, Default, PartialEq, Eq)]
#[repr(align(16))]
pub struct VersionVec(Lanes);

/// For each lane, all the others. A lane is changed by adding or merging a whole vector, because a
/// write of two bytes alone would hold up the next read of all sixteen.
const OTHERS: [Lanes; LANES] = {
    let mut others = [[u16::MAX; LANES]; LANES];
    let mut lane = 0;
    while lane < LANES {
        others[lane][lane] = 0;
        lane += 1;
    }
    others
};

impl VersionVec {
    pub const fn new() -> VersionVec {
        VersionVec([0; LANES])
    }

    pub fn get(&self, thread: usize) -> u16 {
        self.0[thread]
    }

    /// Raises one thread's part. At most 4,096 rows begin in an execution, so it never wraps.
    pub fn inc(&mut self, thread: usize) {
        for (part, other) in self.0.iter_mut().zip(OTHERS[thread]) {
            *part = part.wrapping_add(1 & !other);
        }
    }

    /// This vector's part in the thread's own lane, the greatest number in all others.
    pub fn only(&self, thread: usize) -> Lanes {
        let version = self.0[thread];
        OTHERS[thread].map(|other| version | other)
    }

    /// Takes the greater of each part.
    pub fn join(&mut self, other: &VersionVec) {
        for (mine, theirs) in self.0.iter_mut().zip(other.0) {
            *mine = theirs.max(*mine);
        }
    }

    /// The lowest thread whose part in `other` is greater. Hardly ever is there one.
    pub fn ahead(&self, other: &VersionVec) -> Option<usize> {
        if other.at_most(self) {
            return None;
        }
        self.lowest_ahead(other)
    }

    // Apart, so that its look at single lanes does not spoil the comparison of whole vectors.
    #[cold]
    #[inline(never)]
    fn lowest_ahead(&self, other: &VersionVec) -> Option<usize> {
        (0..MAX_THREADS).find(|&thread| self.0[thread] < other.0[thread])
    }

    /// Whether each part is at most the other's. The excess of all lanes is gathered before it is
    /// tested, so there is one branch and not five.
    pub fn at_most(&self, other: &VersionVec) -> bool {
        let mut excess = 0;
        for (mine, theirs) in self.0.iter().zip(other.0) {
            excess |= mine.saturating_sub(theirs);
        }
        excess == 0
    }

    /// Whether each part is at most the other's and some part is less.
    pub fn less(&self, other: &VersionVec) -> bool {
        self.at_most(other) && self != other
    }

    /// Whether some mark is no later than this vector's part in the same lane.
    pub fn reaches(&self, marks: &Lanes) -> bool {
        let mut reached = false;
        for (mine, mark) in self.0.iter().zip(marks) {
            reached |= mark <= mine;
        }
        reached
    }
}

#[cfg(test)]
mod tests {
    use super::*;

    fn vector(parts: [u16; MAX_THREADS]) -> VersionVec {
        let mut lanes = [0; LANES];
        lanes[..MAX_THREADS].copy_from_slice(&parts);
        VersionVec(lanes)
    }

    #[test]
    fn order_is_partial() {
        let low = vector([1, 2, 0, 0, 0]);
        let high = vector([1, 3, 0, 0, 0]);
        let aside = vector([0, 0, 0, 0, 1]);
        assert!(low.less(&high) && low.at_most(&high));
        assert!(!high.less(&low) && !high.at_most(&low));
        assert!(low.at_most(&low) && !low.less(&low));
        assert!(!low.at_most(&aside) && !aside.at_most(&low));
    }

    #[test]
    fn join_takes_the_greater_and_ahead_the_lowest() {
        let mut left = vector([5, 0, 2, 0, 9]);
        let right = vector([4, 1, 3, 0, 9]);
        assert_eq!(left.ahead(&right), Some(1));
        left.join(&right);
        assert_eq!(left, vector([5, 1, 3, 0, 9]));
        assert_eq!(left.ahead(&right), None);
    }

    #[test]
    fn lanes_of_one_thread() {
        let mut parts = vector([5, 0, 2, 0, 9]);
        parts.inc(1);
        assert_eq!(parts, vector([5, 1, 2, 0, 9]));
        let marks = parts.only(2);
        assert_eq!(marks.iter().position(|&mark| mark == 2), Some(2));
        assert_eq!(
            marks.iter().filter(|&&mark| mark == u16::MAX).count(),
            LANES - 1
        );
        assert!(parts.reaches(&marks) && !vector([9, 9, 1, 9, 9]).reaches(&marks));
    }
}
