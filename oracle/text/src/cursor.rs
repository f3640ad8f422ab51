//! Tokens one after another, each asked for what may stand there.

use crate::token::Token;
use crate::{Place, Refused, ORDERS, PLAIN_CELLS, REGISTERS};

pub struct Cursor<'a> {
    rest: &'a [Token<'a>],
    /// Where a missing token is missed.
    end: Place,
    /// The token that was taken last.
    last: Place,
}

impl<'a> Cursor<'a> {
    pub fn new(tokens: &'a [Token<'a>], end: Place) -> Cursor<'a> {
        Cursor { rest: tokens, end, last: end }
    }

    /// The next token's text.
    pub fn take(&mut self) -> Result<&'a [u8], Refused> {
        let (first, rest) = self.rest.split_first().ok_or(Refused(self.end))?;
        (self.rest, self.last) = (rest, first.place);
        Ok(first.text)
    }

    /// The token that was taken last cannot stand there.
    pub fn refused(&self) -> Refused {
        Refused(self.last)
    }

    /// Takes a token of which `read` knows what it means.
    pub fn expect<T>(&mut self, read: impl FnOnce(&[u8]) -> Option<T>) -> Result<T, Refused> {
        let text = self.take()?;
        read(text).ok_or(self.refused())
    }

    pub fn word(&mut self, word: &str) -> Result<(), Refused> {
        self.expect(|text| (text == word.as_bytes()).then_some(()))
    }

    pub fn number(&mut self) -> Result<u64, Refused> {
        self.expect(number)
    }

    /// The number of something that there are so many of.
    pub fn below(&mut self, count: usize) -> Result<u8, Refused> {
        self.expect(|text| number(text).filter(|&n| n < count as u64).map(|n| n as u8))
    }

    pub fn register(&mut self) -> Result<u8, Refused> {
        self.expect(register)
    }

    /// A plain cell, where there are so many.
    pub fn plain(&mut self, count: usize) -> Result<u8, Refused> {
        self.expect(|text| one_of(&PLAIN_CELLS[..count], text))
    }

    /// An order whose number is one of these.
    pub fn order(&mut self, allowed: &[u8]) -> Result<u8, Refused> {
        self.expect(|text| one_of(&ORDERS, text).filter(|order| allowed.contains(order)))
    }

    /// Whether another token is there.
    pub fn is_done(&self) -> bool {
        self.rest.is_empty()
    }

    /// There is no other token.
    pub fn finish(self) -> Result<(), Refused> {
        match self.rest.first() {
            Some(token) => Err(Refused(token.place)),
            None => Ok(()),
        }
    }
}

/// A decimal number up to 2^64 - 1 without leading zeros.
pub fn number(text: &[u8]) -> Option<u64> {
    if text.is_empty() || (text.len() > 1 && text[0] == b'0') {
        return None;
    }
    text.iter().try_fold(0_u64, |sum, &byte| {
        let digit = byte.is_ascii_digit().then(|| u64::from(byte - b'0'))?;
        sum.checked_mul(10)?.checked_add(digit)
    })
}

pub fn register(text: &[u8]) -> Option<u8> {
    one_of(&REGISTERS, text)
}

/// The place of a text among names.
pub fn one_of(names: &[&str], text: &[u8]) -> Option<u8> {
    names.iter().position(|name| name.as_bytes() == text).map(|place| place as u8)
}
