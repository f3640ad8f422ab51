//! What an RMW or an exclusive change makes of a value. Document 01, "Changes".

use crate::table::Row;

/// The value to write, or none where the change fails; only kinds 11 and 12 may.
pub(crate) fn changed(row: &Row, value: u64) -> Option<u64> {
    let a = row.a;
    let (signed, signed_a) = (value as i64, a as i64);
    Some(match row.change {
        0 => a,
        1 => value.wrapping_add(a),
        2 => value.wrapping_sub(a),
        3 => value & a,
        4 => value | a,
        5 => value ^ a,
        6 => !(value & a),
        7 => value.max(a),
        8 => value.min(a),
        9 => signed.max(signed_a) as u64,
        10 => signed.min(signed_a) as u64,
        11 => return (value == a).then_some(row.b),
        12 => return value.checked_sub(1),
        other => unreachable!("change {other} was accepted"),
    })
}
