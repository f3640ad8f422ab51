//! Reading a file of cases line by line, however long it is.

use crate::format::{is_comment, too_long, LONGEST_LINE};
use std::fmt;
use std::io::{BufRead, Read};

/// Why a file cannot be used; it shows as one line.
#[derive(Debug)]
pub struct Refused {
    file: String,
    line: Option<u64>,
    what: String,
}

impl Refused {
    /// The whole file is refused.
    pub fn file(file: &str, what: impl fmt::Display) -> Refused {
        Refused { file: file.to_string(), line: None, what: what.to_string() }
    }
}

impl fmt::Display for Refused {
    fn fmt(&self, f: &mut fmt::Formatter<'_>) -> fmt::Result {
        match self.line {
            Some(line) => write!(f, "{}: line {line}: {}", self.file, self.what),
            None => write!(f, "{}: {}", self.file, self.what),
        }
    }
}

/// The lines of a file that are no comments, each read by `parse`.
pub struct Lines<R, P> {
    file: String,
    reader: R,
    parse: P,
    number: u64,
}

impl<R: BufRead, T, P: Fn(&[u8]) -> Result<T, String>> Lines<R, P> {
    pub fn new(file: &str, reader: R, parse: P) -> Self {
        Lines { file: file.to_string(), reader, parse, number: 0 }
    }

    fn refuse(&self, what: impl fmt::Display) -> Refused {
        Refused { line: Some(self.number), ..Refused::file(&self.file, what) }
    }

    /// The next line without its end, or none. No more than a line's longest length is ever held.
    fn next_line(&mut self) -> Result<Option<Vec<u8>>, Refused> {
        let mut line = Vec::new();
        self.number += 1;
        let read = (&mut self.reader)
            .take(LONGEST_LINE as u64 + 1)
            .read_until(b'\n', &mut line)
            .map_err(|error| Refused::file(&self.file, error))?;
        if read == 0 {
            return Ok(None);
        }
        if line.last() == Some(&b'\n') {
            line.pop();
        } else if line.len() > LONGEST_LINE {
            return Err(self.refuse(too_long()));
        }
        Ok(Some(line))
    }
}

impl<R: BufRead, T, P: Fn(&[u8]) -> Result<T, String>> Iterator for Lines<R, P> {
    type Item = Result<T, Refused>;

    fn next(&mut self) -> Option<Self::Item> {
        loop {
            match self.next_line() {
                Err(refused) => return Some(Err(refused)),
                Ok(None) => return None,
                Ok(Some(line)) if is_comment(&line) => continue,
                Ok(Some(line)) => {
                    return Some((self.parse)(&line).map_err(|what| self.refuse(what)));
                }
            }
        }
    }
}
