//! A small source of random numbers (splitmix64). It is written out here so that a seed gives the
//! same cases on every machine and with every compiler.

/// A stream of numbers.
#[derive(Clone, Debug)]
pub struct Random(u64);

impl Random {
    /// The stream of one case. Both numbers are mixed before they meet, so that neighbouring seeds
    /// and indices have nothing in common.
    pub fn new(seed: u64, index: u64) -> Random {
        let from_seed = mix(seed.wrapping_add(0x9e37_79b9_7f4a_7c15));
        let from_index = mix(index.wrapping_mul(0xd134_2543_de82_ef95).wrapping_add(1));
        Random(mix(from_seed ^ from_index.rotate_left(32)))
    }

    /// The next number, over all 64 bits.
    pub fn number(&mut self) -> u64 {
        self.0 = self.0.wrapping_add(0x9e37_79b9_7f4a_7c15);
        mix(self.0)
    }

    /// A number below `end`, which is not zero. The slight unevenness of the remainder is of no
    /// account here.
    pub fn below(&mut self, end: u64) -> u64 {
        self.number() % end
    }

    /// A number from `low` to `high`, both included.
    pub fn between(&mut self, low: u64, high: u64) -> u64 {
        low + self.below(high - low + 1)
    }

    /// True in `part` of `whole` cases.
    pub fn chance(&mut self, part: u64, whole: u64) -> bool {
        self.below(whole) < part
    }

    /// One of the things given.
    pub fn pick<T: Copy>(&mut self, from: &[T]) -> T {
        from[self.position(from.len())]
    }

    /// A position in something of this length, which is not zero.
    pub fn position(&mut self, length: usize) -> usize {
        self.below(length as u64) as usize
    }
}

fn mix(x: u64) -> u64 {
    let x = (x ^ (x >> 30)).wrapping_mul(0xbf58_476d_1ce4_e5b9);
    let x = (x ^ (x >> 27)).wrapping_mul(0x94d0_49bb_1331_11eb);
    x ^ (x >> 31)
}

#[cfg(test)]
mod tests {
    use super::*;

    /// Known numbers: if one of these moves, every recorded seed names other cases than before.
    #[test]
    fn stays_the_same() {
        let mut r = Random(0);
        assert_eq!(r.number(), 0xe220_a839_7b1d_cdaf);
        assert_eq!(r.number(), 0x6e78_9e6a_a1b9_65f4);
    }
}
