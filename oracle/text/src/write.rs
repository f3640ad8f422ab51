//! The one text that is written for a table and a condition.

use crate::{
    read, Program, CHANGES, COMPARE_EXCHANGE, DECREMENT, HEADER, ORDERS, PLAIN_CELLS, REGISTERS,
    ROW, SIGNS,
};

/// Writes the text; none where the table is not accepted or the condition is none.
pub fn write(table: &[u8], condition: &[u8]) -> Option<Vec<u8>> {
    let text = spelled(table, condition)?.into_bytes();
    // Whatever the text does not say, a field that shall be zero for one, is found by reading it.
    let back = read(&text).ok()?;
    let Program { table: same_table, condition: same_condition } = back;
    (same_table == table && same_condition == condition).then_some(text)
}

fn spelled(table: &[u8], condition: &[u8]) -> Option<String> {
    let (header, rest) = table.split_first_chunk::<HEADER>()?;
    let (cells, rest) = rest.split_at_checked(8 * usize::from(header[1]))?;
    let (plains, mut rows) = rest.split_at_checked(8 * usize::from(header[7]))?;
    let mut text = starts("cells", cells);
    if !plains.is_empty() {
        text += &starts("plain", plains);
    }
    let counts = header.get(2..2 + usize::from(header[0]))?;
    for &count in counts {
        text += "thread\n";
        for _ in 0..count {
            let (first, rest) = rows.split_first_chunk()?;
            text += &format!("  {}\n", row(first)?);
            rows = rest;
        }
    }
    if !condition.is_empty() {
        text += &format!("finally {}\n", claim(condition)?);
    }
    Some(text)
}

/// A line of start values behind this word.
fn starts(word: &str, values: &[u8]) -> String {
    let mut line = word.to_string();
    for start in values.as_chunks().0 {
        line += &format!(" {}", u64::from_le_bytes(*start));
    }
    line + "\n"
}

fn row(bytes: &[u8; ROW]) -> Option<String> {
    let number = |at: usize| -> Option<u64> {
        Some(u64::from_le_bytes(bytes.get(at..at + 8)?.try_into().ok()?))
    };
    let (a, b) = (number(8)?, number(16)?);
    let target = u16::from_le_bytes([bytes[6], bytes[7]]);
    let [opcode, place, order, failure, change, register, ..] = *bytes;
    let register = REGISTERS.get(usize::from(register))?;
    let name = |order: u8| ORDERS.get(usize::from(order)).copied();
    let plain = || PLAIN_CELLS.get(usize::from(place)).copied();
    let change = match change {
        COMPARE_EXCHANGE => format!("compare_exchange {a} {b}"),
        DECREMENT => "decrement".to_string(),
        _ => format!("{} {a}", CHANGES.get(usize::from(change))?),
    };
    let may_fail = bytes[4] >= COMPARE_EXCHANGE;
    Some(match opcode {
        0 => format!("{register} = load {place} {}", name(order)?),
        1 => format!("store {a} to {place} {}", name(order)?),
        2 => format!("store {register} to {place} {}", name(order)?),
        3 if may_fail => {
            format!("{register} = {change} on {place} {} {}", name(order)?, name(failure)?)
        }
        3 => format!("{register} = {change} on {place} {}", name(order)?),
        4 => format!("fence {}", name(order)?),
        5 => format!("{register} = unsync_load {place}"),
        6 => format!("{register} = with_mut {change} on {place}"),
        7 => "yield".to_string(),
        8 => format!("join {place}"),
        9 => format!("jump {target}"),
        10 => format!("if {register} = {a} jump {target}"),
        11 => format!("if {register} != {a} jump {target}"),
        12 => format!("check {register} = {a}"),
        13 => "critical".to_string(),
        14 => "explore_state".to_string(),
        15 => "skip_branch".to_string(),
        16 => format!("{register} = branch_spurious"),
        17 => format!("{register} = read {}", plain()?),
        18 => format!("write {a} to {}", plain()?),
        _ => return None,
    })
}

fn claim(mut bytes: &[u8]) -> Option<String> {
    let mut text = String::new();
    while let Some((&first, rest)) = bytes.split_first() {
        bytes = rest;
        text += match first {
            7 => "(",
            8 => ")",
            9 => " and ",
            10 => " or ",
            _ => {
                let sign = SIGNS.get(usize::from(first).checked_sub(1)?)?;
                let (&[thread, register, number @ ..], rest) = rest.split_first_chunk::<10>()?;
                bytes = rest;
                let register = REGISTERS.get(usize::from(register))?;
                let number = u64::from_le_bytes(number);
                text += &format!("{thread}.{register} {sign} {number}");
                continue;
            }
        };
    }
    Some(text)
}
