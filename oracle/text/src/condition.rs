//! The final condition.

use crate::cursor::{number, one_of, register, Cursor};
use crate::{Refused, SIGNS};

/// Bytes at most.
const LONGEST: usize = 1_024;
/// Groups in each other at most.
const DEEPEST: usize = 8;

/// The bytes of the condition that these tokens are.
pub fn condition(tokens: Cursor<'_>, threads: usize) -> Result<Vec<u8>, Refused> {
    let mut reader = Reader { tokens, threads, bytes: Vec::new() };
    reader.condition(DEEPEST)?;
    reader.tokens.finish()?;
    Ok(reader.bytes)
}

struct Reader<'a> {
    tokens: Cursor<'a>,
    threads: usize,
    bytes: Vec<u8>,
}

impl Reader<'_> {
    /// A comparison, or a group with at most so many groups in each other.
    fn condition(&mut self, deep: usize) -> Result<(), Refused> {
        match self.tokens.take()? {
            b"(" if deep == 0 => Err(self.tokens.refused()),
            b"(" => self.group(deep - 1),
            first => self.comparison(first),
        }
    }

    /// The bracket has been taken.
    fn group(&mut self, deep: usize) -> Result<(), Refused> {
        self.push(&[7])?;
        self.condition(deep)?;
        let mut joint = None;
        loop {
            let byte = self.tokens.expect(|text| match text {
                b")" => Some(8),
                b"and" if joint != Some(10) => Some(9),
                b"or" if joint != Some(9) => Some(10),
                _ => None,
            })?;
            self.push(&[byte])?;
            if byte == 8 {
                return Ok(());
            }
            joint = Some(byte);
            self.condition(deep)?;
        }
    }

    /// The thread and register have been taken.
    fn comparison(&mut self, first: &[u8]) -> Result<(), Refused> {
        let here = self.tokens.refused();
        let (thread, register) = self.place(first).ok_or(here)?;
        let sign = 1 + self.tokens.expect(|text| one_of(&SIGNS, text))?;
        let number = self.tokens.number()?;
        // Only a whole comparison can be too much, and is so at its first token.
        self.bytes.extend_from_slice(&[sign, thread, register]);
        self.bytes.extend_from_slice(&number.to_le_bytes());
        match self.bytes.len() > LONGEST {
            true => Err(here),
            false => Ok(()),
        }
    }

    /// `T.R`.
    fn place(&self, text: &[u8]) -> Option<(u8, u8)> {
        let dot = text.iter().position(|&byte| byte == b'.')?;
        let thread = number(&text[..dot]).filter(|&thread| thread < self.threads as u64)?;
        Some((thread as u8, register(&text[dot + 1..])?))
    }

    /// Adds the bytes that begin with the token taken last.
    fn push(&mut self, bytes: &[u8]) -> Result<(), Refused> {
        self.bytes.extend_from_slice(bytes);
        match self.bytes.len() > LONGEST {
            true => Err(self.tokens.refused()),
            false => Ok(()),
        }
    }
}
