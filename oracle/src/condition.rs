//! The final condition: what is claimed of the registers when all threads have ended. Document 02,
//! section 3; docs/GRAMMAR.md has the bytes.

/// The longest condition in bytes.
const LONGEST: usize = 1024;

/// So many groups stand in each other at most.
const DEEPEST: usize = 8;

const REGISTERS: usize = 4;

/// An accepted condition.
#[derive(Debug)]
pub(crate) enum Condition {
    /// No bytes: nothing is claimed.
    None,
    Comparison(Comparison),
    /// Joined by "and".
    All(Vec<Condition>),
    /// Joined by "or".
    Any(Vec<Condition>),
}

/// A comparison of a thread's register with a number.
#[derive(Debug)]
pub(crate) struct Comparison {
    sign: u8,
    thread: usize,
    register: usize,
    number: u64,
}

impl Condition {
    /// None where the bytes are no condition, or name a thread or register that there is not.
    pub(crate) fn read(bytes: &[u8], threads: usize) -> Option<Condition> {
        if bytes.is_empty() {
            return Some(Condition::None);
        }
        if bytes.len() > LONGEST {
            return None;
        }
        let mut reader = Reader {
            rest: bytes,
            threads,
        };
        let condition = reader.condition(DEEPEST)?;
        reader.rest.is_empty().then_some(condition)
    }

    /// Whether it holds; `register` gives what a thread's register holds.
    pub(crate) fn holds(&self, register: &dyn Fn(usize, usize) -> u64) -> bool {
        match self {
            Condition::None => true,
            Condition::Comparison(comparison) => comparison.holds(register),
            Condition::All(members) => members.iter().all(|member| member.holds(register)),
            Condition::Any(members) => members.iter().any(|member| member.holds(register)),
        }
    }
}

impl Comparison {
    fn holds(&self, register: &dyn Fn(usize, usize) -> u64) -> bool {
        let held = register(self.thread, self.register);
        match self.sign {
            1 => held == self.number,
            2 => held != self.number,
            3 => held < self.number,
            4 => held <= self.number,
            5 => held > self.number,
            6 => held >= self.number,
            other => unreachable!("sign {other} was accepted"),
        }
    }
}

struct Reader<'a> {
    rest: &'a [u8],
    threads: usize,
}

impl Reader<'_> {
    fn next(&mut self) -> Option<u8> {
        let (&first, rest) = self.rest.split_first()?;
        self.rest = rest;
        Some(first)
    }

    /// A condition with at most so many groups in each other.
    fn condition(&mut self, deep: usize) -> Option<Condition> {
        match self.next()? {
            sign @ 1..=6 => self.comparison(sign).map(Condition::Comparison),
            7 if deep > 0 => self.group(deep - 1),
            _ => None,
        }
    }

    /// What follows the bracket: conditions with one kind of joint between them.
    fn group(&mut self, deep: usize) -> Option<Condition> {
        let mut members = vec![self.condition(deep)?];
        let mut joint = None;
        loop {
            match self.next()? {
                8 if joint == Some(10) => return Some(Condition::Any(members)),
                8 => return Some(Condition::All(members)),
                byte @ (9 | 10) if joint.is_none_or(|joint| joint == byte) => joint = Some(byte),
                _ => return None,
            }
            members.push(self.condition(deep)?);
        }
    }

    fn comparison(&mut self, sign: u8) -> Option<Comparison> {
        let (thread, register) = (self.next()?.into(), self.next()?.into());
        let (&number, rest) = self.rest.split_first_chunk()?;
        self.rest = rest;
        (thread < self.threads && register < REGISTERS).then_some(Comparison {
            sign,
            thread,
            register,
            number: u64::from_le_bytes(number),
        })
    }
}

#[cfg(test)]
mod tests {
    use super::*;

    fn compared(sign: u8, thread: u8, register: u8, number: u64) -> Vec<u8> {
        [&[sign, thread, register][..], &number.to_le_bytes()].concat()
    }

    /// The conditions in a group with this joint between them.
    fn group(joint: u8, members: &[Vec<u8>]) -> Vec<u8> {
        [&[7][..], &members.join(&[joint][..]), &[8]].concat()
    }

    /// That thread 0's register 0, which holds 5 in these tests, is this number.
    fn is(number: u64) -> Vec<u8> {
        compared(1, 0, 0, number)
    }

    fn holds(bytes: &[u8]) -> Option<bool> {
        let held =
            |thread: usize, register: usize| [[5, 6, 7, 8], [0, 0, 0, u64::MAX]][thread][register];
        Condition::read(bytes, 2).map(|condition| condition.holds(&held))
    }

    #[test]
    fn no_bytes_claim_nothing() {
        assert_eq!(holds(&[]), Some(true));
    }

    #[test]
    fn signs() {
        let below_equal_above = [
            [false, true, false],
            [true, false, true],
            [false, false, true],
            [false, true, true],
            [true, false, false],
            [true, true, false],
        ];
        for (sign, wanted) in (1..).zip(below_equal_above) {
            let held = [4, 5, 6].map(|number| holds(&compared(sign, 0, 0, number)));
            assert_eq!(held, wanted.map(Some), "sign {sign}");
        }
        // Numbers are unsigned, the lowest byte first.
        assert_eq!(holds(&compared(5, 1, 3, 1)), Some(true));
        assert_eq!(holds(&[1, 0, 3, 8, 0, 0, 0, 0, 0, 0, 0]), Some(true));
        assert_eq!(holds(&[1, 0, 3, 0, 0, 0, 0, 0, 0, 0, 8]), Some(false));
    }

    #[test]
    fn threads_and_registers_that_there_are() {
        for thread in 0..=255 {
            for register in 0..=255 {
                let read = Condition::read(&compared(2, thread, register, 0), 2).is_some();
                assert_eq!(read, thread < 2 && register < 4, "{thread} {register}");
            }
        }
    }

    #[test]
    fn groups() {
        for bits in 0..8 {
            let members = [0, 1, 2].map(|bit| is(5 + (bits >> bit & 1)));
            assert_eq!(holds(&group(9, &members)), Some(bits == 0));
            assert_eq!(holds(&group(10, &members)), Some(bits != 7));
            assert_eq!(holds(&group(9, &members[..1])), holds(&members[0]));
        }
        let either = group(10, &[is(1), is(5)]);
        assert_eq!(holds(&group(9, &[is(5), either.clone()])), Some(true));
        assert_eq!(holds(&group(9, &[either, is(4)])), Some(false));
    }

    #[test]
    fn no_bytes_are_left_over_or_missing() {
        let whole = group(10, &[is(1), group(9, &[is(5), is(5)]), is(2)]);
        assert_eq!(holds(&whole), Some(true));
        for length in 1..whole.len() {
            assert_eq!(holds(&whole[..length]), None, "{length}");
        }
        for last in 0..=255 {
            assert_eq!(holds(&[&whole[..], &[last]].concat()), None, "{last}");
            assert_eq!(holds(&[&is(5)[..], &[last]].concat()), None, "{last}");
        }
    }

    #[test]
    fn other_bytes_and_places_are_refused() {
        for first in (0..=255).filter(|first| !(1..=6).contains(first)) {
            assert_eq!(holds(&compared(first, 0, 0, 5)), None, "{first}");
        }
        assert_eq!(holds(&[7, 8]), None);
        assert_eq!(holds(&[&is(5)[..], &[9], &is(5)].concat()), None);
        assert_eq!(holds(&group(8, &[is(5), is(5)])), None);
        for joints in [[9, 10], [10, 9]] {
            let [first, second] = joints;
            let mixed = [&[7][..], &is(5), &[first], &is(5), &[second], &is(5), &[8]].concat();
            assert_eq!(holds(&mixed), None);
        }
    }

    #[test]
    fn eight_deep_and_no_deeper() {
        let mut condition = is(5);
        for depth in 1..=10 {
            condition = group(9, &[condition]);
            assert_eq!(holds(&condition), (depth <= 8).then_some(true), "{depth}");
        }
        // Side by side they may be more.
        let flat = group(9, &vec![group(10, &[is(5)]); 20]);
        assert_eq!(holds(&flat), Some(true));
    }

    /// With n comparisons and g groups a condition has 12 n - 1 + 2 g bytes: never 1,024.
    #[test]
    fn as_long_as_allowed() {
        let mut members = vec![is(5); 85];
        members[84] = group(9, &members[84..]);
        let longest = group(9, &members);
        assert_eq!(longest.len(), 1023);
        assert_eq!(holds(&longest), Some(true));
        members[0] = group(9, &members[..1]);
        let longer = group(9, &members);
        assert_eq!(longer.len(), 1025);
        assert_eq!(holds(&longer), None);
        assert_eq!(holds(&[&longest[..], &[8]].concat()), None);
    }
}
