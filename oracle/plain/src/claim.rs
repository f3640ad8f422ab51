//! What is claimed of the registers when all threads have ended: comparisons, and groups of them.
//!
//! It stays in its bytes and is gone through anew at each end, from the front to the back.

use crate::thread::REGISTERS;

/// Bytes at most.
const MAX_BYTES: usize = 1_024;
/// Groups in each other at most.
const MAX_DEPTH: usize = 8;
/// Bytes of a comparison.
const COMPARISON: usize = 11;

/// An accepted claim. Without any bytes it is always met.
pub struct Claim<'a> {
    bytes: &'a [u8],
}

/// One word of a claim.
enum Word {
    Compare(Compare),
    Open,
    Close,
    Join(Joint),
}

struct Compare {
    sign: u8,
    thread: u8,
    register: u8,
    number: u64,
}

#[derive(Clone, Copy, PartialEq, Eq)]
enum Joint {
    And,
    Or,
}

impl<'a> Claim<'a> {
    /// Accepts bytes that are a claim about a program of so many threads.
    pub fn accept(bytes: &'a [u8], threads: usize) -> Option<Claim<'a>> {
        if bytes.len() > MAX_BYTES {
            return None;
        }
        // The joint of each group that is open, once it has one.
        let mut joints = [None; MAX_DEPTH];
        let mut depth = 0;
        // Whether a member has just ended, so that none may begin.
        let mut ended = false;
        let mut rest = bytes;
        while !rest.is_empty() {
            match (ended, word(&mut rest)?) {
                (false, Word::Compare(compare)) if compare.is_about(threads) => ended = true,
                (false, Word::Open) if depth < MAX_DEPTH => {
                    joints[depth] = None;
                    depth += 1;
                }
                (true, Word::Close) if depth > 0 => depth -= 1,
                (true, Word::Join(joint)) if depth > 0 => {
                    if *joints[depth - 1].get_or_insert(joint) != joint {
                        return None;
                    }
                    ended = false;
                }
                _ => return None,
            }
        }
        let whole = ended && depth == 0;
        (whole || bytes.is_empty()).then_some(Claim { bytes })
    }

    /// Whether the registers are as claimed.
    pub fn is_met(&self, register: impl Fn(u8, u8) -> u64) -> bool {
        // What stands before the member that is gone through: its value and the joint behind it.
        let mut before = [None; MAX_DEPTH + 1];
        let mut depth = 0;
        let mut value = true;
        let mut rest = self.bytes;
        while let Some(word) = word(&mut rest) {
            match word {
                Word::Compare(compare) => {
                    value = compare.is_true(register(compare.thread, compare.register));
                }
                Word::Open => {
                    depth += 1;
                    continue;
                }
                Word::Close => depth -= 1,
                Word::Join(joint) => {
                    before[depth] = Some((value, joint));
                    continue;
                }
            }
            value = match before[depth].take() {
                None => value,
                Some((left, Joint::And)) => left && value,
                Some((left, Joint::Or)) => left || value,
            };
        }
        value
    }
}

/// Takes the first word, if the bytes begin with one.
fn word(bytes: &mut &[u8]) -> Option<Word> {
    let (word, length) = match **bytes {
        [sign @ 1..=6, thread, register, ..] => {
            let number = bytes.get(3..COMPARISON)?.try_into().ok()?;
            let compare = Compare {
                sign,
                thread,
                register,
                number: u64::from_le_bytes(number),
            };
            (Word::Compare(compare), COMPARISON)
        }
        [7, ..] => (Word::Open, 1),
        [8, ..] => (Word::Close, 1),
        [9, ..] => (Word::Join(Joint::And), 1),
        [10, ..] => (Word::Join(Joint::Or), 1),
        _ => return None,
    };
    *bytes = &bytes[length..];
    Some(word)
}

impl Compare {
    /// Whether there are this thread and register.
    fn is_about(&self, threads: usize) -> bool {
        usize::from(self.thread) < threads && usize::from(self.register) < REGISTERS
    }

    fn is_true(&self, held: u64) -> bool {
        let order = held.cmp(&self.number);
        match self.sign {
            1 => order.is_eq(),
            2 => order.is_ne(),
            3 => order.is_lt(),
            4 => order.is_le(),
            5 => order.is_gt(),
            _ => order.is_ge(),
        }
    }
}
