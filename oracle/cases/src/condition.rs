//! Final conditions as words, and their bytes. A condition may be as wrong as it likes: what is
//! refused is for the explorers to say.

pub const EQUALS: u8 = 1;
pub const DIFFERS: u8 = 2;
pub const BELOW: u8 = 3;
pub const AT_MOST: u8 = 4;
pub const ABOVE: u8 = 5;
pub const AT_LEAST: u8 = 6;

/// How the signs are written, by number less one.
pub const SIGNS: [&str; 6] = ["=", "!=", "<", "<=", ">", ">="];

/// Bytes that an accepted condition has at most.
pub const LONGEST: usize = 1_024;
/// Groups that stand in each other in an accepted condition at most.
pub const DEEPEST: usize = 8;
/// Bytes of a comparison.
pub const COMPARISON: usize = 11;

/// One word of a condition.
#[derive(Clone, Copy, Debug, PartialEq, Eq)]
pub enum Word {
    /// A thread's register is compared with a number.
    Compare {
        sign: u8,
        thread: u8,
        register: u8,
        number: u64,
    },
    Open,
    Close,
    And,
    Or,
}

/// A condition, or a part of one.
pub type Words = Vec<Word>;

impl Word {
    /// The word's bytes.
    pub fn bytes(&self) -> Vec<u8> {
        match *self {
            Word::Compare { sign, thread, register, number } => {
                [&[sign, thread, register][..], &number.to_le_bytes()].concat()
            }
            Word::Open => vec![7],
            Word::Close => vec![8],
            Word::And => vec![9],
            Word::Or => vec![10],
        }
    }

    /// The word that these bytes begin with, and what follows it.
    pub fn read(bytes: &[u8]) -> Option<(Word, &[u8])> {
        let (&first, rest) = bytes.split_first()?;
        let word = match first {
            1..=6 => {
                let (comparison, rest) = rest.split_first_chunk::<{ COMPARISON - 1 }>()?;
                let [thread, register, number @ ..] = *comparison;
                let number = u64::from_le_bytes(number);
                return Some((Word::Compare { sign: first, thread, register, number }, rest));
            }
            7 => Word::Open,
            8 => Word::Close,
            9 => Word::And,
            10 => Word::Or,
            _ => return None,
        };
        Some((word, rest))
    }
}

/// The condition's bytes.
pub fn bytes(words: &[Word]) -> Vec<u8> {
    words.iter().flat_map(Word::bytes).collect()
}

/// The words of a condition; none where the bytes are not words.
pub fn words(mut bytes: &[u8]) -> Option<Words> {
    let mut words = Vec::new();
    while !bytes.is_empty() {
        let (word, rest) = Word::read(bytes)?;
        words.push(word);
        bytes = rest;
    }
    Some(words)
}

pub fn compared(sign: u8, thread: u8, register: u8, number: u64) -> Words {
    vec![Word::Compare { sign, thread, register, number }]
}

pub fn equals(thread: u8, register: u8, number: u64) -> Words {
    compared(EQUALS, thread, register, number)
}

pub fn differs(thread: u8, register: u8, number: u64) -> Words {
    compared(DIFFERS, thread, register, number)
}

/// The conditions in a group, joined by "and".
pub fn and(members: &[Words]) -> Words {
    group(Word::And, members)
}

/// The conditions in a group, joined by "or".
pub fn or(members: &[Words]) -> Words {
    group(Word::Or, members)
}

/// The conditions in a group with this joint.
pub fn group(joint: Word, members: &[Words]) -> Words {
    [&[Word::Open][..], &members.join(&joint), &[Word::Close]].concat()
}

/// How deep the groups stand in each other.
pub fn depth(words: &[Word]) -> usize {
    let (mut depth, mut deepest) = (0_usize, 0);
    for word in words {
        match word {
            Word::Open => depth += 1,
            Word::Close => depth = depth.saturating_sub(1),
            _ => {}
        }
        deepest = deepest.max(depth);
    }
    deepest
}

#[cfg(test)]
mod tests {
    use super::*;

    #[test]
    fn words_read_back() {
        let either = or(&[equals(1, 3, u64::MAX), compared(AT_LEAST, 0, 2, 258)]);
        let all = and(&[either.clone(), differs(0, 0, 0), and(&[either])]);
        let bytes = bytes(&all);
        assert_eq!(bytes.len(), 12 * 5 - 1 + 2 * 4);
        assert_eq!(bytes[..6], [7, 7, 1, 1, 3, 255]);
        assert_eq!(words(&bytes).as_ref(), Some(&all));
        assert_eq!(depth(&all), 3);
        assert_eq!(words(&[]), Some(Vec::new()));
        assert_eq!(words(&[0]), None);
        assert_eq!(words(&bytes[..5]), None);
    }
}
