//! Refusals: every check of settings, buffers, list, header, length and each field of a row.

use super::{hand, Hand};
use crate::format::Case;
use crate::table::*;
use oracle::limits::MAX_ROWS;

pub(super) fn all() -> Vec<Hand> {
    let mut all = buffers();
    all.extend(check_order());
    all.extend(headers());
    all.extend(lengths());
    all.extend(first_bad());
    all.extend(unused());
    all.extend(ranges());
    all.extend(orders());
    all.extend(plain_cells());
    all.extend(own_jumps());
    all
}

fn sound() -> Program {
    Program::new(&[0, 5])
        .thread(&[store(0, RELEASE, 1), fence(SEQ_CST)])
        .thread(&[load(1, RELAXED, 0), jump(2)])
}

/// A sound case with something changed.
fn spoilt(name: &str, answer: u64, shows: &str, spoil: impl FnOnce(&mut Case)) -> Hand {
    let mut hand = hand(name, answer, sound()).shows(shows).limits(16, 8, 20);
    spoil(&mut hand.case);
    hand
}

fn buffers() -> Vec<Hand> {
    vec![
        spoilt("path-short", 3, "path buffer a byte short", |c| c.path -= 1),
        spoilt("path-long", 3, "path buffer a byte long", |c| c.path += 1),
        spoilt("path-record-less", 3, "path buffer a record short", |c| c.path -= 16),
        spoilt("path-none", 3, "no path buffer", |c| c.path = 0),
        spoilt("path-traces", 3, "the buffers changed over", |c| {
            std::mem::swap(&mut c.path, &mut c.trace)
        }),
        spoilt("trace-short", 4, "trace buffer a byte short", |c| c.trace -= 1),
        spoilt("trace-long", 4, "trace buffer a byte long", |c| c.trace += 1),
        spoilt("trace-none", 4, "no trace buffer", |c| c.trace = 0),
        spoilt("list-none", 4, "a list of no records", |c| c.list = Some(0)),
        spoilt("list-four", 4, "a list of four records", |c| c.list = Some(4)),
        spoilt("list-six", 4, "a list of six records", |c| c.list = Some(6)),
        spoilt("list-five", 0, "a list of five records", |c| c.list = Some(5)),
    ]
}

/// Checks run 2, 3, 4, 5.
fn check_order() -> Vec<Hand> {
    let spoil_all = |c: &mut Case| {
        c.trace += 1;
        c.list = Some(6);
        c.table[0] = 0;
    };
    vec![
        spoilt("order-2-first", 2, "everything wrong: the limits are named", |c| {
            spoil_all(c);
            c.path += 1;
            c.settings.executions = 0;
        }),
        spoilt("order-3-next", 3, "all but the limits wrong: the path buffer is named", |c| {
            spoil_all(c);
            c.path += 1;
        }),
        spoilt("order-4-next", 4, "trace, list and table wrong", spoil_all),
        spoilt("order-list", 4, "list and table wrong", |c| {
            spoil_all(c);
            c.trace -= 1;
        }),
        spoilt("order-5-last", 5, "the table alone is wrong; the list stays as it was", |c| {
            spoil_all(c);
            c.trace -= 1;
            c.list = Some(5);
        }),
    ]
}

/// One byte of the header changed, the rest as it was.
fn headers() -> Vec<Hand> {
    let many = MAX_ROWS as u8 + 1;
    let bytes: [(&str, usize, u8); 16] = [
        ("no threads", 0, 0),
        ("one thread of two", 0, 1),
        ("six threads", 0, 6),
        ("255 threads", 0, 255),
        ("no cells", 1, 0),
        ("five cells", 1, 5),
        ("255 cells", 1, 255),
        ("a row too many", 2, many),
        ("255 rows", 3, 255),
        ("rows past the thread count", 4, 1),
        ("rows at the fifth place", 6, 1),
        ("a plain cell that the bytes do not have", 7, 1),
        ("255 plain cells", 7, 255),
        ("a row fewer than the bytes have", 3, 1),
        ("five plain cells", 7, 5),
        ("four plain cells that the bytes do not have", 7, 4),
    ];
    let mut all = Vec::new();
    for (n, (shows, at, byte)) in bytes.into_iter().enumerate() {
        let name = format!("header-{n}");
        all.push(spoilt(&name, 5, shows, |c| c.table[at] = byte));
    }
    all
}

fn lengths() -> Vec<Hand> {
    let length = sound().table().len();
    let mut all = Vec::new();
    for cut in [0, 1, 7, 8, 9, 16, 24, length - 24, length - 1, length + 1, length + 24] {
        let name = format!("length-{cut}");
        let shows = format!("{cut} bytes where there should be {length}");
        all.push(spoilt(&name, 5, &shows, |c| c.table.resize(cut, 0)));
    }
    all
}

/// Which row is named.
fn first_bad() -> Vec<Hand> {
    let at = |thread: usize, row: usize| sound().row_at(thread, row);
    vec![
        spoilt("bad-two", 5, "of two bad rows the first in byte order: thread 0, row 1", |c| {
            c.table[at(0, 1)] = 19;
            c.table[at(1, 0)] = 19;
        }),
        spoilt("bad-second-thread", 5, "thread 1, row 0", |c| c.table[at(1, 0)] = 200),
        spoilt("bad-last", 5, "thread 1, row 1", |c| c.table[at(1, 1)] = 255),
        spoilt("bad-and-header", 5, "the header is judged before the rows", |c| {
            c.table[at(0, 0)] = 19;
            c.table[7] = 1;
        }),
        spoilt("bad-and-length", 5, "the length is judged before the rows", |c| {
            c.table[at(0, 0)] = 19;
            c.table.push(0);
        }),
    ]
}

/// A sound row of each opcode, and of each change kind that uses other fields, with its name.
fn examples() -> Vec<(&'static str, Row)> {
    let both = [ACQ_REL, ACQUIRE];
    vec![
        ("op0", load(0, ACQUIRE, 1)),
        ("op1", store(0, RELEASE, 1)),
        ("op2", store_register(0, RELEASE, 1)),
        ("op3", rmw(0, ACQ_REL, ADD, 1, 1)),
        ("op3-compare", compare(0, both, 1, 1, 1)),
        ("op3-decrement", decrement(0, both, 1)),
        ("op4", fence(SEQ_CST)),
        ("op5", unsync_load(0, 1)),
        ("op6", exclusive(0, ADD, 1, 1)),
        ("op6-compare", exclusive_compare(0, 1, 1, 1)),
        ("op6-decrement", exclusive(0, DECREMENT, 1, 0)),
        ("op7", yields()),
        ("op8", join(0)),
        ("op9", jump(2)),
        ("op10", jump_if(1, 1, 2)),
        ("op11", jump_if_not(1, 1, 2)),
        ("op12", check(0, 0)),
        ("op13", critical()),
        ("op14", explore_state()),
        ("op15", skip_branch()),
        ("op16", spurious(1)),
        ("op17", plain_read(0, 1)),
        ("op18", plain_write(0, 1)),
    ]
}

/// The row as thread 1's second of two, in a program of two threads and two cells, and of two plain ones
/// where it names one.
fn holding(name: &str, answer: u64, shows: &str, row: Row) -> Hand {
    let plains: &[u64] = if row.has_plain() { &[0, 0] } else { &[] };
    let program = Program::new(&[0, 0]).plain(plains);
    let program = program.thread(&[]).thread(&[fence(RELEASE), row]);
    hand(name, answer, program).shows(shows).limits(16, 8, 20)
}

/// The fields that a row of this kind does not use.
fn unused_fields(row: &Row) -> Vec<&'static str> {
    let compares = row.has_change() && row.change == COMPARE;
    let used = [
        ("place", row.has_cell() || row.has_plain() || row.opcode == 8),
        ("order", row.has_order()),
        ("failure", row.has_failure()),
        ("change", row.has_change()),
        ("register", row.has_register()),
        ("target", row.has_target()),
        ("a", row.has_a()),
        ("b", compares),
    ];
    let free = used.iter().filter(|(_, used)| !used);
    free.map(|(field, _)| *field).collect()
}

fn with_field(mut row: Row, field: &str, value: u64) -> Row {
    match field {
        "place" => row.place = value as u8,
        "order" => row.order = value as u8,
        "failure" => row.failure = value as u8,
        "change" => row.change = value as u8,
        "register" => row.register = value as u8,
        "target" => row.target = value as u16,
        "a" => row.a = value,
        _ => row.b = value,
    }
    row
}

/// Each opcode sound once, then with each field it does not use set.
fn unused() -> Vec<Hand> {
    let mut all = Vec::new();
    for (name, row) in examples() {
        let answer = if row.opcode == 14 { 16 } else { 0 };
        let shows = format!("{}, all fields as they should be", OPCODES[usize::from(row.opcode)]);
        all.push(holding(&format!("{name}-sound"), answer, &shows, row));
        for field in unused_fields(&row) {
            // The highest byte of a wide field alone, so that no byte of it goes unlooked at.
            let value = match field {
                "target" => 1 << 8,
                "a" | "b" => 1 << 56,
                _ => 1,
            };
            let shows = format!("{} does not use {field}", OPCODES[usize::from(row.opcode)]);
            all.push(holding(&format!("{name}-{field}"), 5, &shows, with_field(row, field, value)));
        }
    }
    for (name, row) in [("fence-low", fence(SEQ_CST)), ("decrement-low", decrement(0, [4, 4], 0))] {
        for field in ["a", "b"] {
            let shows = format!("operand {field} unused, its lowest byte set");
            all.push(holding(&format!("{name}-{field}"), 5, &shows, with_field(row, field, 1)));
        }
    }
    all
}

/// Used fields at the end of their range and one past it.
fn ranges() -> Vec<Hand> {
    let mut all = Vec::new();
    for (name, row) in examples() {
        let free = unused_fields(&row);
        let mut past = vec![("place", 2), ("register", 4), ("target", 3), ("target", 256)];
        past.extend([
            ("change", 13),
            ("order", 5),
            ("failure", 5),
            ("place", 255),
            ("register", 255),
        ]);
        past.retain(|(field, _)| !free.contains(field));
        for (field, value) in past {
            let shows = format!("{} with {field} {value}", OPCODES[usize::from(row.opcode)]);
            let case_name = format!("{name}-{field}-{value}");
            all.push(holding(&case_name, 5, &shows, with_field(row, field, value)));
        }
    }
    for opcode in [19, 20, 31, 32, 64, 127, 128, 254, 255] {
        let row = Row { opcode, ..Row::default() };
        let shows = format!("opcode {opcode} is none");
        all.push(holding(&format!("opcode-{opcode}"), 5, &shows, row));
    }
    all.push(holding("target-end", 0, "a jump to the row count is sound", jump(2)));
    all.push(holding("register-3", 0, "the last register", spurious(3)));
    all.push(holding("cell-last", 0, "the last cell", unsync_load(1, 3)));
    all.push(holding("plain-last", 0, "the last plain cell", plain_write(1, 3)));
    all.push(holding("join-last", 10, "the last thread, here the row's own", join(1)));
    all
}

/// Every order at every opcode that takes one, and every failure order.
fn orders() -> Vec<Hand> {
    let mut all = Vec::new();
    for order in 0..=4u8 {
        let word = ORDERS[usize::from(order)];
        let load_like = order != RELEASE && order != ACQ_REL;
        let store_like = order != ACQUIRE && order != ACQ_REL;
        let rows = [
            ("load", load(1, order, 0), load_like),
            ("store", store(1, order, 1), store_like),
            ("store-register", store_register(1, order, 0), store_like),
            ("rmw", rmw(1, order, XOR, 0, 6), true),
            ("fence", fence(order), order != RELAXED),
            ("failure-compare", compare(1, [RELAXED, order], 0, 3, 4), load_like),
            ("failure-decrement", decrement(1, [SEQ_CST, order], 0), load_like),
        ];
        for (name, row, allowed) in rows {
            let shows = format!("{name} {word}");
            let answer = if allowed { 0 } else { 5 };
            all.push(holding(&format!("order-{name}-{order}"), answer, &shows, row));
        }
    }
    all
}

/// Plain cells that are not there, and tables that have too many of them, or too few bytes for them.
fn plain_cells() -> Vec<Hand> {
    let over = |plains: &[u64], row: Row| {
        let program = Program::new(&[0, 0, 0]).plain(plains);
        program.thread(&[yields(), row]).thread(&[])
    };
    let judged = |name: &str, answer: u64, shows: &str, program: Program| {
        hand(name, answer, program).shows(shows).limits(16, 8, 20)
    };
    let mut all = vec![
        judged(
            "plain-none-read",
            5,
            "no plain cell is there to be read",
            over(&[], plain_read(0, 0)),
        ),
        judged("plain-none-write", 5, "nor to be written", over(&[], plain_write(0, 0))),
        judged("plain-not-atomic", 5, "atomic cells are none", over(&[0], plain_read(1, 0))),
        judged(
            "plain-past",
            5,
            "four plain cells, the fifth read",
            over(&[0; 4], plain_read(4, 0)),
        ),
        judged(
            "plain-fourth",
            0,
            "four plain cells, the fourth read",
            over(&[0; 4], plain_read(3, 0)),
        ),
        judged("atomic-not-plain", 5, "plain cells are no atomic ones", {
            over(&[0; 4], load(3, RELAXED, 0))
        }),
        judged("plain-five", 5, "five plain cells, with their bytes", over(&[0; 5], yields())),
        judged(
            "plain-five-named",
            5,
            "the header is judged first",
            over(&[0; 5], plain_read(4, 0)),
        ),
    ];
    let whole = over(&[1, 2], plain_write(1, 3)).table();
    for (cut, shows) in [
        (8 + 24, "the bytes end before the plain cells"),
        (8 + 24 + 15, "a byte of the last plain cell is missing"),
        (whole.len() - 8, "a start value is missing"),
        (whole.len() + 8, "a start value more than there are plain cells"),
    ] {
        let mut case = judged(&format!("plain-length-{cut}"), 5, shows, over(&[1, 2], yields()));
        case.case.table = whole.clone();
        case.case.table.resize(cut, 0);
        all.push(case);
    }
    all
}

/// Jumps to their own row: refused without a condition, and not with one, be it that it always holds.
fn own_jumps() -> Vec<Hand> {
    let mut all = refused_own_jumps();
    let after = |before: &[Row], row: Row| {
        Program::new(&[0]).thread(&[critical()]).thread(&[before, &[row]].concat())
    };
    for (own, before) in [(0, &[][..]), (1, &[yields()])] {
        let kinds = [
            ("if-held", 12, "jump if, which holds", jump_if(0, 0, own)),
            ("if-unheld", 0, "jump if, which does not hold", jump_if(0, 1, own)),
            ("if-not-held", 12, "jump if not, which holds", jump_if_not(0, 1, own)),
            ("if-not-unheld", 0, "jump if not, which does not hold", jump_if_not(0, 0, own)),
        ];
        for (name, answer, shows, row) in kinds {
            let shows = format!("thread 1, row {own}, to itself: {shows}");
            let program = after(before, row);
            let case = hand(&format!("own-{name}-{own}"), answer, program).shows(&shows);
            all.push(case.limits(8, 6, 4));
        }
    }
    let near = |row: Row| after(&[yields()], row);
    let ring = Program::new(&[0]).thread(&[jump(1), jump(0)]);
    let more = [
        ("own-ring", 12, "two rows that jump to each other are sound", ring),
        ("own-before", 12, "a jump to the row before is sound", near(jump(0))),
        ("own-after", 0, "a jump to the row after, here the end, is sound", near(jump(2))),
    ];
    for (name, answer, shows, program) in more {
        all.push(hand(name, answer, program).shows(shows).limits(8, 6, 4));
    }
    all
}

/// Which row is named, and by which number it is its own.
fn refused_own_jumps() -> Vec<Hand> {
    let of = |threads: &[&[Row]]| {
        threads.iter().fold(Program::new(&[0]), |program, rows| program.thread(rows))
    };
    let (ok, bad) = (yields(), check(4, 0));
    let mut full = [ok; MAX_ROWS];
    full[MAX_ROWS - 1] = jump(MAX_ROWS as u16 - 1);
    let programs: [(&str, &str, &[&[Row]]); 9] = [
        ("own-alone", "thread 0, row 0, its only one", &[&[jump(0)]]),
        ("own-first", "thread 0, row 0", &[&[jump(0), ok], &[ok]]),
        ("own-later", "thread 0, row 2", &[&[ok, ok, jump(2), ok]]),
        ("own-second-thread", "thread 1, row 0", &[&[ok], &[jump(0), ok]]),
        ("own-last-thread", "thread 4, row 1", &[&[], &[ok], &[], &[ok, ok], &[ok, jump(1)]]),
        ("own-last-row", "thread 0, the last row that there may be", &[&full]),
        ("own-two", "of two the first: thread 0, row 1", &[&[ok, jump(1)], &[jump(0)]]),
        ("own-and-bad", "a bad row comes before: thread 0, row 0", &[&[bad, jump(1)]]),
        ("own-not-bad", "a bad row comes after: thread 1, row 0", &[&[ok], &[jump(0), bad]]),
    ];
    let mut all = Vec::new();
    for (name, shows, threads) in programs {
        all.push(hand(name, 5, of(threads)).shows(shows).limits(8, 6, 4));
    }
    let counted: &[&[Row]] = &[&[ok, ok], &[jump(2), ok, ok]];
    let shows = "its number in the table, which is not its own in the thread";
    all.push(hand("own-counted", 0, of(counted)).shows(shows).limits(8, 6, 4));
    let mut header = hand("own-and-length", 5, of(&[&[jump(0)]])).limits(8, 6, 4);
    header.case.table.push(0);
    all.push(header.shows("the length is judged before the jump to itself"));
    all
}
