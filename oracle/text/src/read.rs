//! The text: cells, plain cells, threads with their rows, and the condition.

use crate::cursor::Cursor;
use crate::row::{row, Room};
use crate::token::{lines, Line, Token};
use crate::{condition, Place, Program, Refused, HEADER};

/// Cells, plain cells, threads and rows of a thread that a text has at most.
pub const CELLS: usize = 4;
pub const PLAINS: usize = 4;
pub const THREADS: usize = 5;
pub const ROWS: usize = 64;

/// Reads a text.
pub fn read(text: &[u8]) -> Result<Program, Refused> {
    let (lines, end) = lines(text);
    let (cells, rest) = lines.split_first().ok_or(Refused(end))?;
    let cells = starts(cells, "cells", CELLS)?;
    let (plains, rest) = match rest.split_first() {
        Some((line, rest)) if line.begins(b"plain") => (starts(line, "plain", PLAINS)?, rest),
        _ => (Vec::new(), rest),
    };
    let last = rest.iter().position(|line| line.begins(b"finally")).unwrap_or(rest.len());
    let (program, claim) = rest.split_at(last);
    let threads = program.iter().filter(|line| line.begins(b"thread")).count();
    let room = Room { cells: cells.len(), plains: plains.len(), threads, rows: 0, own: 0 };
    let (counts, rows) = rows(program, room)?;
    if counts.is_empty() {
        return Err(Refused(claim.first().map_or(end, |line| line.tokens[0].place)));
    }
    let condition = match claim.is_empty() {
        true => Vec::new(),
        false => claimed(claim, end, threads)?,
    };
    Ok(Program { table: table(&cells, &plains, &counts, &rows), condition })
}

impl Line<'_> {
    fn begins(&self, word: &[u8]) -> bool {
        self.tokens[0].text == word
    }

    fn cursor(&self) -> Cursor<'_> {
        Cursor::new(&self.tokens, self.end)
    }
}

/// A line of start values behind this word, one at least.
fn starts(line: &Line<'_>, word: &str, most: usize) -> Result<Vec<u64>, Refused> {
    let mut tokens = line.cursor();
    tokens.word(word)?;
    let mut starts = vec![tokens.number()?];
    while starts.len() < most && !tokens.is_done() {
        starts.push(tokens.number()?);
    }
    tokens.finish()?;
    Ok(starts)
}

/// How many rows each thread has, and the bytes of all.
fn rows(lines: &[Line<'_>], mut room: Room) -> Result<(Vec<usize>, Vec<u8>), Refused> {
    let (mut counts, mut bytes) = (Vec::new(), Vec::new());
    for (at, line) in lines.iter().enumerate() {
        let first = Refused(line.tokens[0].place);
        if line.begins(b"thread") {
            if counts.len() == THREADS {
                return Err(first);
            }
            Cursor::new(&line.tokens[1..], line.end).finish()?;
            let rest = &lines[at + 1..];
            room.rows = rest.iter().position(|line| line.begins(b"thread")).unwrap_or(rest.len());
            counts.push(0);
            continue;
        }
        let count = counts.last_mut().ok_or(first)?;
        if *count == ROWS {
            return Err(first);
        }
        room.own = *count;
        *count += 1;
        bytes.extend(row(line.cursor(), &room)?);
    }
    Ok((counts, bytes))
}

/// The condition behind `finally`, over all lines that are left.
fn claimed(lines: &[Line<'_>], end: Place, threads: usize) -> Result<Vec<u8>, Refused> {
    let tokens: Vec<Token<'_>> = lines.iter().flat_map(|line| line.tokens.clone()).collect();
    condition::condition(Cursor::new(&tokens[1..], end), threads)
}

fn table(cells: &[u64], plains: &[u64], counts: &[usize], rows: &[u8]) -> Vec<u8> {
    let mut table = vec![counts.len() as u8, cells.len() as u8];
    table.extend(counts.iter().map(|&count| count as u8));
    table.resize(HEADER - 1, 0);
    table.push(plains.len() as u8);
    table.extend([cells, plains].concat().iter().flat_map(|start| start.to_le_bytes()));
    table.extend_from_slice(rows);
    table
}
