//! The forms of rows.

use crate::cursor::{number, one_of, register, Cursor};
use crate::{Refused, CHANGES, COMPARE_EXCHANGE, DECREMENT, ROW};

/// What a row may name.
pub struct Room {
    pub cells: usize,
    pub plains: usize,
    pub threads: usize,
    /// Rows of its thread.
    pub rows: usize,
    /// Its own number among them.
    pub own: usize,
}

/// The fields of a row in a table.
#[derive(Default)]
struct Row {
    opcode: u8,
    /// Cell, plain cell or thread.
    place: u8,
    order: u8,
    failure: u8,
    change: u8,
    register: u8,
    target: u16,
    a: u64,
    b: u64,
}

const READ: &[u8] = &[0, 2, 4];
const WRITE: &[u8] = &[0, 1, 4];
const FENCE: &[u8] = &[1, 2, 3, 4];
const ANY: &[u8] = &[0, 1, 2, 3, 4];

/// The bytes of the row that a line is.
pub fn row(mut tokens: Cursor<'_>, room: &Room) -> Result<[u8; ROW], Refused> {
    let t = &mut tokens;
    let first = t.take()?;
    let row = match first {
        b"store" => store(t, room)?,
        b"fence" => Row { opcode: 4, order: t.order(FENCE)?, ..Row::default() },
        b"yield" => Row { opcode: 7, ..Row::default() },
        b"join" => Row { opcode: 8, place: t.below(room.threads)?, ..Row::default() },
        b"jump" => Row { opcode: 9, target: elsewhere(t, room)?, ..Row::default() },
        b"if" => jump_if(t, room)?,
        b"check" => {
            let register = t.register()?;
            t.word("=")?;
            Row { opcode: 12, register, a: t.number()?, ..Row::default() }
        }
        b"critical" => Row { opcode: 13, ..Row::default() },
        b"explore_state" => Row { opcode: 14, ..Row::default() },
        b"skip_branch" => Row { opcode: 15, ..Row::default() },
        b"write" => {
            let a = t.number()?;
            t.word("to")?;
            Row { opcode: 18, a, place: t.plain(room.plains)?, ..Row::default() }
        }
        _ => {
            let register = register(first).ok_or(t.refused())?;
            t.word("=")?;
            Row { register, ..into_register(t, room)? }
        }
    };
    tokens.finish()?;
    Ok(row.bytes())
}

fn store(t: &mut Cursor<'_>, room: &Room) -> Result<Row, Refused> {
    let stored = t.expect(|text| {
        let a = number(text).map(|a| Row { opcode: 1, a, ..Row::default() });
        let from = |register| Row { opcode: 2, register, ..Row::default() };
        a.or_else(|| register(text).map(from))
    })?;
    t.word("to")?;
    Ok(Row { place: t.below(room.cells)?, order: t.order(WRITE)?, ..stored })
}

fn jump_if(t: &mut Cursor<'_>, room: &Room) -> Result<Row, Refused> {
    let register = t.register()?;
    let opcode = 10 + t.expect(|text| one_of(&["=", "!="], text))?;
    let a = t.number()?;
    t.word("jump")?;
    Ok(Row { opcode, register, a, target: target(t, room)?, ..Row::default() })
}

/// A row of the thread, or its end.
fn target(t: &mut Cursor<'_>, room: &Room) -> Result<u16, Refused> {
    // More rows than a table can have are refused where they stand.
    t.expect(|text| number(text).filter(|&row| row <= room.rows as u64).map(|row| row as u16))
}

/// The same, but not the row itself.
fn elsewhere(t: &mut Cursor<'_>, room: &Room) -> Result<u16, Refused> {
    match target(t, room)? {
        row if usize::from(row) == room.own => Err(t.refused()),
        row => Ok(row),
    }
}

/// What stands behind `R =`.
fn into_register(t: &mut Cursor<'_>, room: &Room) -> Result<Row, Refused> {
    let what = t.take()?;
    Ok(match what {
        b"load" => {
            let place = t.below(room.cells)?;
            Row { opcode: 0, place, order: t.order(READ)?, ..Row::default() }
        }
        b"unsync_load" => Row { opcode: 5, place: t.below(room.cells)?, ..Row::default() },
        b"branch_spurious" => Row { opcode: 16, ..Row::default() },
        b"read" => Row { opcode: 17, place: t.plain(room.plains)?, ..Row::default() },
        b"with_mut" => {
            let what = t.take()?;
            Row { opcode: 6, ..change(t, what, room)? }
        }
        _ => {
            let changed = change(t, what, room)?;
            let order = t.order(ANY)?;
            let failure = if changed.change >= COMPARE_EXCHANGE { t.order(READ)? } else { 0 };
            Row { opcode: 3, order, failure, ..changed }
        }
    })
}

/// A change of a cell, up to the cell; its name has just been taken.
fn change(t: &mut Cursor<'_>, name: &[u8], room: &Room) -> Result<Row, Refused> {
    let mut row = Row::default();
    match name {
        b"decrement" => row.change = DECREMENT,
        b"compare_exchange" => {
            row.change = COMPARE_EXCHANGE;
            row.a = t.number()?;
            row.b = t.number()?;
        }
        _ => {
            row.change = one_of(&CHANGES, name).ok_or(t.refused())?;
            row.a = t.number()?;
        }
    }
    t.word("on")?;
    row.place = t.below(room.cells)?;
    Ok(row)
}

impl Row {
    fn bytes(&self) -> [u8; ROW] {
        let mut bytes = [0; ROW];
        bytes[..6].copy_from_slice(&[
            self.opcode,
            self.place,
            self.order,
            self.failure,
            self.change,
            self.register,
        ]);
        bytes[6..8].copy_from_slice(&self.target.to_le_bytes());
        bytes[8..16].copy_from_slice(&self.a.to_le_bytes());
        bytes[16..].copy_from_slice(&self.b.to_le_bytes());
        bytes
    }
}
