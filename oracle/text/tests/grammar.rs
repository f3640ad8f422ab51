//! Each rule of docs/GRAMMAR.md, in its order.

use text::{read, write, Place, Program, Refused, ROWS};

fn place(line: u64, column: u64) -> Place {
    Place { line, column }
}

fn refused(text: &str, line: u64, column: u64) {
    assert_eq!(read(text.as_bytes()), Err(Refused(place(line, column))), "{text:?}");
}

fn program(text: &str) -> Program {
    match read(text.as_bytes()) {
        Ok(program) => program,
        Err(refused) => panic!("{refused:?}: {text:?}"),
    }
}

/// The first place of a word in a text of one line.
fn column(text: &str, word: &str) -> u64 {
    text.find(word).expect(word) as u64 + 1
}

/// A program with this row as the second of three in thread 1 of two, over three cells and two plain ones.
fn around(row: &str) -> String {
    format!("cells 0 0 0\nplain 0 0\nthread\nthread\nyield\n{row}\nyield\n")
}

/// The line that it stands in.
const AROUND: u64 = 6;

/// The row's 24 bytes.
fn row(text: &str) -> Vec<u8> {
    let program = program(&around(text));
    assert_eq!(program.table.len(), 8 + 40 + 3 * 24);
    program.table[8 + 40 + 24..8 + 40 + 48].to_vec()
}

/// The row is refused at this word, or at its end.
fn refused_row(text: &str, word: &str) {
    let at = if word.is_empty() { text.len() as u64 + 1 } else { column(text, word) };
    refused(&around(text), AROUND, at);
}

/// The bytes of a condition over two threads.
fn claim(text: &str) -> Vec<u8> {
    program(&format!("cells 0\nthread\nthread\nfinally {text}\n")).condition
}

/// The condition is refused at the place that `^` stands before.
fn refused_claim(text: &str) {
    let at = text.find('^').expect("a mark") as u64 + 1;
    let text = text.replacen('^', "", 1);
    refused(&format!("cells 0\nthread\nthread\nfinally {text}\n"), 4, 8 + at);
}

fn compared(sign: u8, thread: u8, register: u8, number: u64) -> Vec<u8> {
    [&[sign, thread, register][..], &number.to_le_bytes()].concat()
}

const FIRST: &str = "
    # a tape buffer is handed over by a flag
    cells 0 0                    # cell 0 is the buffer, cell 1 the flag
    thread                       # thread 0
      store 7 to 0 relaxed       # row 0
      store 1 to 1 release       # row 1
    thread                       # thread 1
      r0 = load 1 acquire        # row 0
      if r0 != 1 jump 4          # row 1: past the last row, that is, to the end
      r1 = load 0 relaxed
      check r1 = 7
    finally (1.r0 = 0 or 1.r1 = 7)
";

#[test]
fn the_page_s_first_text() {
    let Program { table, condition } = program(FIRST);
    assert_eq!(table[..8], [2, 2, 2, 4, 0, 0, 0, 0]);
    assert_eq!(table[8..24], [0; 16]);
    let rows: Vec<[u8; 9]> =
        table[24..].chunks(24).map(|row| row[..9].try_into().expect("nine bytes")).collect();
    let wanted = [
        [1, 0, 0, 0, 0, 0, 0, 0, 7],
        [1, 1, 1, 0, 0, 0, 0, 0, 1],
        [0, 1, 2, 0, 0, 0, 0, 0, 0],
        [11, 0, 0, 0, 0, 0, 4, 0, 1],
        [0, 0, 0, 0, 0, 1, 0, 0, 0],
        [12, 0, 0, 0, 0, 1, 0, 0, 7],
    ];
    assert_eq!(rows, wanted);
    let both = [compared(1, 1, 0, 0), compared(1, 1, 1, 7)];
    assert_eq!(condition, [&[7][..], &both.join(&[10][..]), &[8]].concat());
    let written = "\
cells 0 0
thread
  store 7 to 0 relaxed
  store 1 to 1 release
thread
  r0 = load 1 acquire
  if r0 != 1 jump 4
  r1 = load 0 relaxed
  check r1 = 7
finally (1.r0 = 0 or 1.r1 = 7)
";
    let text = write(&table, &condition).expect("a text");
    assert_eq!(String::from_utf8(text).expect("letters"), written);
}

// Lines and tokens

#[test]
fn lines_end_in_three_ways() {
    let same = program("cells 0\nthread\nyield\n");
    for text in [
        "cells 0\r\nthread\r\nyield\r\n",
        "cells 0\nthread\r\nyield",
        "cells 0# one\nthread # two\r\nyield#three",
        "\n\n  \t\ncells 0\n\r\n# \u{e9}\n\t# \n\nthread\n \nyield\n\n \n#",
    ] {
        assert_eq!(program(text), same, "{text:?}");
    }
}

#[test]
fn a_carriage_return_elsewhere_is_a_token() {
    refused("cells 0\rthread\nyield\n", 1, 8);
    refused("cells 0\r", 1, 8);
    refused("cells 0\r\r\nthread\n", 1, 8);
    refused("\rcells 0\nthread\n", 1, 1);
    // In a comment nothing is.
    program("cells 0 #\r x\r\r\nthread\n");
}

#[test]
fn blanks_part_tokens_and_stand_anywhere_between() {
    let same = program("cells 3\nthread\n  r0 = load 0 relaxed\n");
    for text in [
        "cells\t3\nthread\nr0=load 0 relaxed\n",
        " \t cells 3 \t\n\tthread \nr0  =load\t\t0 relaxed \n",
    ] {
        assert_eq!(program(text), same, "{text:?}");
    }
    // No other byte is a blank.
    for byte in [0, 11, 12, 160_u8] {
        let text = [b"cells 0", &[byte][..], b"\nthread\n"].concat();
        assert_eq!(read(&text), Err(Refused(place(1, 8))), "{byte}");
    }
}

#[test]
fn words_and_signs_are_runs() {
    refused_row("r0=load0 relaxed", "load0");
    refused_row("check r1==1", "==");
    refused_row("check r1 =! 1", "=!");
    refused_row("check r1 = = 1", "= 1");
    refused_row("check r1 =1_000", "1_000");
    refused_row("check r1 = 1.", "1.");
    refused_row("check r1 = -1", "-1");
    refused_row("check r1 = +1", "+1");
    refused_row("check (r1 = 1)", "(r1");
    refused_row("yield;", ";");
    refused_row("yield\u{e9}", "\u{e9}");
}

#[test]
fn small_and_capital_letters_differ() {
    refused("Cells 0\nthread\n", 1, 1);
    refused("cells 0\nThread\n", 2, 1);
    refused_row("Yield", "Yield");
    refused_row("R0 = load 0 relaxed", "R0");
    refused_row("r0 = load 0 Relaxed", "Relaxed");
    refused_claim("^0.R0 = 1");
    refused_claim("(0.r0 = 1 ^AND 0.r0 = 1)");
}

#[test]
fn numbers() {
    let a = |text: &str| row(&format!("check r0 = {text}"))[8..16].to_vec();
    assert_eq!(a("0"), [0; 8]);
    assert_eq!(a("258"), 258_u64.to_le_bytes());
    assert_eq!(a("18446744073709551615"), [255; 8]);
    for wrong in [
        "18446744073709551616",
        "18446744073709551620",
        "99999999999999999999",
        "184467440737095516150",
        "00",
        "01",
        "000000000000000000000000",
        "0x1",
        "1e3",
        "r0",
        "one",
    ] {
        refused_row(&format!("check r1 = {wrong}"), wrong);
    }
}

#[test]
fn registers() {
    for register in 0..4 {
        assert_eq!(row(&format!("r{register} = branch_spurious"))[5], register);
    }
    for wrong in ["r4", "r", "r00", "r01", "r10", "0", "r_0", "r0.", "x0"] {
        refused_row(&format!("{wrong} = branch_spurious"), wrong);
        refused_row(&format!("if {wrong} != 1 jump 0"), wrong);
    }
}

#[test]
fn plain_cells() {
    let text = |plains: usize, row: &str| {
        format!("cells 0\nplain{}\nthread\n{row}\n", " 7".repeat(plains))
    };
    for plains in 1..=4 {
        for plain in 0..plains {
            let read = program(&text(plains, &format!("r2 = read p{plain}"))).table;
            assert_eq!(read[8 * (2 + plains)..][..2], [17, plain as u8]);
            let write = program(&text(plains, &format!("write 5 to p{plain}"))).table;
            assert_eq!(write[8 * (2 + plains)..][..2], [18, plain as u8]);
        }
        for plain in plains..12 {
            refused(&text(plains, &format!("r2 = read p{plain}")), 4, 11);
            refused(&text(plains, &format!("write 5 to p{plain}")), 4, 12);
        }
    }
    for wrong in ["p", "p00", "p01", "0", "p_0", "p0.", "P0", "r0", "p-1"] {
        refused(&around(&format!("r0 = read {wrong}")), AROUND, 11);
        refused(&around(&format!("write 1 to {wrong}")), AROUND, 12);
    }
    // Without any there is none to name.
    refused("cells 0\nthread\nr0 = read p0\n", 3, 11);
    refused("cells 0\nthread\nwrite 1 to p0\n", 3, 12);
}

// The text

#[test]
fn cells_come_first() {
    let starts = |text: &str| program(text).table[8..].to_vec();
    assert_eq!(starts("cells 5\nthread\n"), 5_u64.to_le_bytes());
    let four: Vec<u8> = (1..5_u64).flat_map(u64::to_le_bytes).collect();
    assert_eq!(starts("cells 1 2 3 4\nthread\n"), four);
    refused("cells 1 2 3 4 5\nthread\n", 1, 15);
    refused("cells 1 2 3 4 x\nthread\n", 1, 15);
    refused("cells\nthread\n", 1, 6);
    refused("cells # none\nthread\n", 1, 7);
    refused("cells \r\nthread\n", 1, 7);
    refused("cells", 1, 6);
    refused("cells 1 x\n", 1, 9);
    refused("cells 1,2\n", 1, 8);
    refused("cells 0\ncells 0\nthread\n", 2, 1);
    refused("cells 0\nthread\ncells 0\n", 3, 1);
}

#[test]
fn plain_cells_come_second() {
    let table = |text: &str| program(text).table;
    assert_eq!(table("cells 5\nplain 6\nthread\n")[..8], [1, 1, 0, 0, 0, 0, 0, 1]);
    let six: Vec<u8> = (1..7_u64).flat_map(u64::to_le_bytes).collect();
    let both = table("cells 1 2\nplain 3 4 5 6\nthread\n");
    assert_eq!(both, [&[1, 2, 0, 0, 0, 0, 0, 4][..], &six].concat());
    refused("cells 0\nplain 1 2 3 4 5\nthread\n", 2, 15);
    refused("cells 0\nplain 1 2 3 4 x\nthread\n", 2, 15);
    refused("cells 0\nplain\nthread\n", 2, 6);
    refused("cells 0\nplain # none\nthread\n", 2, 7);
    refused("cells 0\nplain \r\nthread\n", 2, 7);
    refused("cells 0\nplain", 2, 6);
    refused("cells 0\nplain x\nthread\n", 2, 7);
    refused("cells 0\nplain 1 x\n", 2, 9);
    refused("cells 0\nplain 1 thread\n", 2, 9);
    refused("cells 0 plain 1\nthread\n", 1, 9);
    refused("plain 1\ncells 0\nthread\n", 1, 1);
    refused("cells 0\nplain 1\n plain 1\nthread\n", 3, 2);
    refused("cells 0\nplain 1\nyield\nthread\n", 3, 1);
    refused("cells 0\nplain 1\ncells 0\nthread\n", 3, 1);
    refused("cells 0\nthread\nplain 1\n", 3, 1);
    refused("cells 0\nthread\nplain 1\nthread\n", 3, 1);
    refused("cells 0\nplain 1", 2, 8);
    refused("cells 0\nplain 1\n", 3, 1);
    refused("cells 0\nplain 1\nfinally 0.r0 = 0\n", 3, 1);
    refused("cells 0\nthread\nfinally 0.r0 = 0\nplain 1\n", 4, 1);
    // In a thread it counts as a row, until it is come to.
    refused("cells 0\nthread\njump 2\nplain 1\n", 4, 1);
    refused("cells 0\nthread\njump 3\nplain 1\n", 3, 6);
}

#[test]
fn without_cells_or_a_thread() {
    refused("", 1, 1);
    refused("\n\n", 3, 1);
    refused("  ", 1, 3);
    refused("# nothing\n \n", 3, 1);
    refused("\n  thread\n", 2, 3);
    refused("finally 0.r0 = 0\n", 1, 1);
    refused("yield\n", 1, 1);
    refused("cells 0", 1, 8);
    refused("cells 0\n", 2, 1);
    refused("cells 0\n\n  ", 3, 3);
    refused("cells 0\n  yield\nthread\n", 2, 3);
    refused("cells 0\n  finally 0.r0 = 0\n", 2, 3);
    refused("cells 0\nfinally 0.r0 = 0\nthread\n", 2, 1);
}

#[test]
fn threads_and_their_rows() {
    let five = "thread\n".repeat(5);
    assert_eq!(program(&format!("cells 0\n{five}")).table[..8], [5, 1, 0, 0, 0, 0, 0, 0]);
    refused(&format!("cells 0\n{five} thread\n"), 7, 2);
    refused(&format!("cells 0\n{five}yield\nthread\n"), 8, 1);
    let rows = "yield\n".repeat(ROWS);
    let table = program(&format!("cells 0\nthread\n{rows}thread\n{rows}")).table;
    assert_eq!(table[..8], [2, 1, ROWS as u8, ROWS as u8, 0, 0, 0, 0]);
    refused(&format!("cells 0\nthread\n{rows} \tyield\n"), ROWS as u64 + 3, 3);
    refused(&format!("cells 0\nthread\n{rows}x = y\n"), ROWS as u64 + 3, 1);
    refused("cells 0\nthread 0\n", 2, 8);
    refused("cells 0\nthread yield\n", 2, 8);
    refused("cells 0\nthread\nyield yield\n", 3, 7);
}

#[test]
fn the_condition_comes_last_and_once() {
    let text = |end: &str| format!("cells 0\nthread\nfinally 0.r0 = 1{end}");
    assert_eq!(program(&text("")).condition, compared(1, 0, 0, 1));
    program(&text("\n\n# end\n"));
    refused(&text("\nthread\n"), 4, 1);
    refused(&text("\nyield\n"), 4, 1);
    refused(&text("\nfinally 0.r0 = 1\n"), 4, 1);
    refused(&text(" finally\n"), 3, 18);
    refused(&text("\n\n )\n"), 5, 2);
}

#[test]
fn the_condition_may_run_over_several_lines() {
    let one = program("cells 0\nthread\nfinally (0.r0 = 1 and 0.r1 != 2)\n");
    let many = "cells 0\nthread\nfinally # here\n(\n0.r0\r\n=\n1\n\n and 0.r1 # x\n != 2\n)";
    assert_eq!(program(many), one);
    // Whatever its lines begin with.
    refused("cells 0\nthread\nfinally (0.r0 = 1\nthread\n)\n", 4, 1);
    refused("cells 0\nthread\nfinally\nthread\n", 4, 1);
    // What is missing is missing at the text's end.
    refused("cells 0\nthread\nfinally\n", 4, 1);
    refused("cells 0\nthread\nfinally", 3, 8);
    refused("cells 0\nthread\nfinally (0.r0 =\n\n", 5, 1);
    refused("cells 0\nthread\nfinally (0.r0 = 1 \n ", 4, 2);
}

// Rows

#[test]
fn every_form() {
    let forms: [(&str, [u8; 6], u16, u64, u64); 51] = [
        ("r3 = load 2 relaxed", [0, 2, 0, 0, 0, 3], 0, 0, 0),
        ("r3 = load 2 acquire", [0, 2, 2, 0, 0, 3], 0, 0, 0),
        ("r3 = load 0 seqcst", [0, 0, 4, 0, 0, 3], 0, 0, 0),
        ("store 9 to 2 relaxed", [1, 2, 0, 0, 0, 0], 0, 9, 0),
        ("store 0 to 0 release", [1, 0, 1, 0, 0, 0], 0, 0, 0),
        ("store 9 to 1 seqcst", [1, 1, 4, 0, 0, 0], 0, 9, 0),
        ("store r2 to 2 relaxed", [2, 2, 0, 0, 0, 2], 0, 0, 0),
        ("store r0 to 0 release", [2, 0, 1, 0, 0, 0], 0, 0, 0),
        ("store r3 to 1 seqcst", [2, 1, 4, 0, 0, 3], 0, 0, 0),
        ("r1 = swap 7 on 2 relaxed", [3, 2, 0, 0, 0, 1], 0, 7, 0),
        ("r1 = add 7 on 2 release", [3, 2, 1, 0, 1, 1], 0, 7, 0),
        ("r1 = sub 7 on 2 acquire", [3, 2, 2, 0, 2, 1], 0, 7, 0),
        ("r1 = and 7 on 2 acqrel", [3, 2, 3, 0, 3, 1], 0, 7, 0),
        ("r1 = or 7 on 2 seqcst", [3, 2, 4, 0, 4, 1], 0, 7, 0),
        ("r1 = xor 7 on 2 relaxed", [3, 2, 0, 0, 5, 1], 0, 7, 0),
        ("r1 = nand 7 on 2 relaxed", [3, 2, 0, 0, 6, 1], 0, 7, 0),
        ("r1 = max 7 on 2 relaxed", [3, 2, 0, 0, 7, 1], 0, 7, 0),
        ("r1 = min 7 on 2 relaxed", [3, 2, 0, 0, 8, 1], 0, 7, 0),
        ("r1 = signed_max 7 on 2 relaxed", [3, 2, 0, 0, 9, 1], 0, 7, 0),
        ("r1 = signed_min 7 on 2 relaxed", [3, 2, 0, 0, 10, 1], 0, 7, 0),
        ("r1 = compare_exchange 7 8 on 2 acqrel relaxed", [3, 2, 3, 0, 11, 1], 0, 7, 8),
        ("r1 = compare_exchange 0 8 on 2 relaxed acquire", [3, 2, 0, 2, 11, 1], 0, 0, 8),
        ("r1 = decrement on 1 release seqcst", [3, 1, 1, 4, 12, 1], 0, 0, 0),
        ("fence release", [4, 0, 1, 0, 0, 0], 0, 0, 0),
        ("fence acquire", [4, 0, 2, 0, 0, 0], 0, 0, 0),
        ("fence acqrel", [4, 0, 3, 0, 0, 0], 0, 0, 0),
        ("fence seqcst", [4, 0, 4, 0, 0, 0], 0, 0, 0),
        ("r2 = unsync_load 1", [5, 1, 0, 0, 0, 2], 0, 0, 0),
        ("r0 = with_mut swap 7 on 2", [6, 2, 0, 0, 0, 0], 0, 7, 0),
        ("r0 = with_mut signed_min 7 on 2", [6, 2, 0, 0, 10, 0], 0, 7, 0),
        ("r0 = with_mut compare_exchange 7 8 on 2", [6, 2, 0, 0, 11, 0], 0, 7, 8),
        ("r0 = with_mut decrement on 2", [6, 2, 0, 0, 12, 0], 0, 0, 0),
        ("yield", [7, 0, 0, 0, 0, 0], 0, 0, 0),
        ("join 0", [8, 0, 0, 0, 0, 0], 0, 0, 0),
        ("join 1", [8, 1, 0, 0, 0, 0], 0, 0, 0),
        ("jump 0", [9, 0, 0, 0, 0, 0], 0, 0, 0),
        ("jump 3", [9, 0, 0, 0, 0, 0], 3, 0, 0),
        ("if r1 = 5 jump 3", [10, 0, 0, 0, 0, 1], 3, 5, 0),
        ("if r1 != 5 jump 2", [11, 0, 0, 0, 0, 1], 2, 5, 0),
        ("if r3=0 jump 0", [10, 0, 0, 0, 0, 3], 0, 0, 0),
        ("check r2 = 5", [12, 0, 0, 0, 0, 2], 0, 5, 0),
        ("check r0=18446744073709551615", [12, 0, 0, 0, 0, 0], 0, u64::MAX, 0),
        ("critical", [13, 0, 0, 0, 0, 0], 0, 0, 0),
        ("explore_state", [14, 0, 0, 0, 0, 0], 0, 0, 0),
        ("skip_branch", [15, 0, 0, 0, 0, 0], 0, 0, 0),
        ("r3 = branch_spurious", [16, 0, 0, 0, 0, 3], 0, 0, 0),
        ("r0 = branch_spurious", [16, 0, 0, 0, 0, 0], 0, 0, 0),
        ("r0 = read p1", [17, 1, 0, 0, 0, 0], 0, 0, 0),
        ("r3 = read p0", [17, 0, 0, 0, 0, 3], 0, 0, 0),
        ("write 9 to p1", [18, 1, 0, 0, 0, 0], 0, 9, 0),
        ("write 0 to p0", [18, 0, 0, 0, 0, 0], 0, 0, 0),
    ];
    for (text, fields, target, a, b) in forms {
        let wanted =
            [&fields[..], &target.to_le_bytes(), &a.to_le_bytes(), &b.to_le_bytes()].concat();
        assert_eq!(row(text), wanted, "{text}");
        // Each of its tokens is needed, and none may follow.
        let words: Vec<&str> = text.split(' ').collect();
        for count in 1..words.len() {
            if !text.starts_with("if r3=0") {
                refused_row(&words[..count].join(" "), "");
            }
        }
        for more in ["0", "relaxed", "=", ")"] {
            refused(&around(&format!("{text} {more}")), AROUND, text.len() as u64 + 2);
        }
    }
}

#[test]
fn orders_by_form() {
    let all = ["relaxed", "release", "acquire", "acqrel", "seqcst"];
    let forms: [(&str, &[&str]); 10] = [
        ("r0 = load 0 O", &["relaxed", "acquire", "seqcst"]),
        ("store 1 to 0 O", &["relaxed", "release", "seqcst"]),
        ("store r1 to 0 O", &["relaxed", "release", "seqcst"]),
        ("r0 = add 1 on 0 O", &all),
        ("r0 = compare_exchange 1 2 on 0 O relaxed", &all),
        ("r0 = compare_exchange 1 2 on 0 relaxed O", &["relaxed", "acquire", "seqcst"]),
        ("r0 = decrement on 0 O relaxed", &all),
        ("r0 = decrement on 0 seqcst O", &["relaxed", "acquire", "seqcst"]),
        ("fence O", &["release", "acquire", "acqrel", "seqcst"]),
        ("r0 = unsync_load O", &[]),
    ];
    for (form, allowed) in forms {
        let at = column(form, "O");
        for order in all {
            let text = around(&form.replace('O', order));
            match allowed.contains(&order) {
                true => drop(program(&text)),
                false => refused(&text, AROUND, at),
            }
        }
        for wrong in ["sequential", "seq_cst", "acq_rel", "0", "r0", "consume"] {
            if form != "r0 = unsync_load O" || wrong != "0" {
                refused(&around(&form.replace('O', wrong)), AROUND, at);
            }
        }
    }
}

#[test]
fn a_line_of_no_form_is_refused_at_the_first_token_that_no_form_has_there() {
    refused_row("r0 = lod 1 relaxed", "lod");
    refused_row("r0 = load 1 release", "release");
    refused_row("load 1 relaxed", "load");
    refused_row("nop", "nop");
    refused_row("7", "7");
    refused_row("= 7", "=");
    refused_row("r0", "");
    refused_row("r0 != load 1 relaxed", "!=");
    refused_row("r0 = store 1 to 0 relaxed", "store");
    refused_row("r0 = fence seqcst", "fence");
    refused_row("r0 = r1", "r1");
    refused_row("r0 = 7", "7");
    refused_row("store relaxed to 0 relaxed", "relaxed");
    refused_row("store 1 in 0 relaxed", "in");
    refused_row("store 1 to r0 relaxed", "r0");
    refused_row("r0 = add r1 on 0 relaxed", "r1");
    refused_row("r0 = add 1 to 0 relaxed", "to");
    refused_row("r0 = add on 0 relaxed", "on");
    refused_row("r0 = decrement 1 on 0 relaxed relaxed", "1");
    refused_row("r0 = compare_exchange 1 on 0 relaxed relaxed", "on");
    refused_row("r0 = add 1 on 0 relaxed acquire", "acquire");
    refused_row("r0 = with_mut load 0", "load");
    refused_row("r0 = with_mut add 1 on 0 relaxed", "relaxed");
    refused_row("r0 = with_mut with_mut add 1 on 0", "with_mut add");
    refused_row("if r0 jump 0", "jump");
    refused_row("if r0 < 1 jump 0", "<");
    refused_row("if r0 = 1 goto 0", "goto");
    refused_row("if 1 = r0 jump 0", "1");
    refused_row("check r0 != 1", "!=");
    refused_row("check r0 = r1", "r1");
    refused_row("fence relaxed", "relaxed");
    refused_row("read p0", "read");
    refused_row("r1 = read 0", "0");
    refused_row("r0 = read r1", "r1");
    refused_row("r0 = read p0 relaxed", "relaxed");
    refused_row("r0 = write 1 to p0", "write");
    refused_row("write r0 to p0", "r0");
    refused_row("write 1 on p0", "on");
    refused_row("write 1 to 0", "0");
    refused_row("write 1 to p0 release", "release");
    refused_row("store 1 to p0 relaxed", "p0");
    refused_row("r0 = load p0 relaxed", "p0");
    refused_row("p0 = read p0", "p0");
    refused_row("plain 0", "plain");
    // The first of two.
    refused_row("r0 = load 9 release", "9");
    refused_row("jump 9 9", "9");
}

/// Where one is missing, it is the line's end: a feed, a return before one, a comment.
#[test]
fn the_place_of_a_missing_token() {
    refused("cells 0\nthread\nr0 = load\n", 3, 10);
    refused("cells 0\nthread\nr0 = load\r\n", 3, 10);
    refused("cells 0\nthread\nr0 = load  \n", 3, 12);
    refused("cells 0\nthread\nr0 = load  # 0 relaxed\n", 3, 12);
    refused("cells 0\nthread\nr0 = load#\r\n", 3, 10);
    refused("cells 0\nthread\nr0 = load", 3, 10);
    refused("cells 0\nthread\n\tr0 = load\t# 0", 3, 12);
    refused("cells 0\nthread\nr0 = load\n0 relaxed\n", 3, 10);
}

#[test]
fn what_is_not_there_is_refused_at_its_number() {
    for (form, most) in [
        ("r0 = load N relaxed", 2),
        ("store 1 to N relaxed", 2),
        ("store r0 to N relaxed", 2),
        ("r0 = swap 1 on N relaxed", 2),
        ("r0 = decrement on N relaxed relaxed", 2),
        ("r0 = unsync_load N", 2),
        ("r0 = with_mut add 1 on N", 2),
        ("join N", 1),
        ("jump N", 3),
        ("if r0 = 1 jump N", 3),
    ] {
        let with = |number: &str| around(&form.replace('N', number));
        program(&with(&most.to_string()));
        for wrong in [&(most + 1).to_string(), "255", "256", "65536", "18446744073709551615", "00"]
        {
            refused(&with(wrong), AROUND, column(form, "N"));
        }
    }
}

/// A jump without a condition is refused at its number if that is its own row's. With one it is not.
#[test]
fn a_jump_to_its_own_row() {
    refused_row("jump 1", "1");
    refused_row("jump 1 1", "1");
    for other in ["jump 0", "jump 2", "jump 3", "if r0 = 0 jump 1", "if r0 != 0 jump 1"] {
        program(&around(other));
    }
    refused("cells 0\nthread\njump 0\n", 3, 6);
    refused("cells 0\nthread\njump 0", 3, 6);
    refused("cells 0\nthread\n\tjump\t 0 # here\r\n", 3, 8);
    program("cells 0\nthread\njump 1\njump 0\n");
    // Rows are counted anew in each thread, and lines that are no rows are not.
    program("cells 0\nthread\nyield\nyield\nthread\njump 2\nyield\n");
    refused("cells 0\nthread\nyield\nyield\nthread\n\n# no row\njump 0\nyield\n", 8, 6);
    refused("cells 0\nthread\nthread\nyield\n\njump 1\nyield\njump 3\n", 6, 6);
    let last = format!("cells 0\nthread\n{}", "yield\n".repeat(ROWS - 1));
    refused(&format!("{last}jump {}\n", ROWS - 1), ROWS as u64 + 2, 6);
    program(&format!("{last}jump {ROWS}\n"));
    program(&format!("{last}if r1 = 2 jump {}\n", ROWS - 1));
}

/// No text is written for it.
#[test]
fn a_jump_to_its_own_row_is_not_written() {
    let other = program(&around("jump 2")).table;
    assert!(write(&other, &[]).is_some());
    let mut own = other;
    own[8 + 40 + 24 + 6] = 1;
    assert_eq!(write(&own, &[]), None);
    own[8 + 40 + 24] = 10;
    assert!(write(&own, &[]).is_some());
}

/// Threads are counted by the lines that begin so, up to `finally`; rows up to the next such line.
#[test]
fn how_threads_and_rows_are_counted() {
    program("cells 0\nthread\njoin 2\nthread\nthread\n");
    refused("cells 0\nthread\njoin 3\nthread\nthread\n", 3, 6);
    refused("cells 0\nthread\njoin 1\nfinally 0.r0 = 0\nthread\n", 3, 6);
    // A sixth one counts until it is come to.
    refused("cells 0\nthread\njoin 5\nthread\nthread\nthread\nthread\nthread\n", 8, 1);
    refused("cells 0\nthread\njoin 1\nthread more\n", 4, 8);
    program("cells 0\nthread\njump 2\n\n# no row\nyield\nthread\nyield\nyield\n");
    refused("cells 0\nthread\njump 3\nyield\nthread\nyield\nyield\n", 3, 6);
    program("cells 0\nthread\njump 1\nfinally\n0.r0\n=\n0\n");
    refused("cells 0\nthread\njump 2\nfinally\n0.r0\n=\n0\n", 3, 6);
    // A line that is no row counts too.
    refused("cells 0\nthread\njump 2\nno row\n", 4, 1);
    let more = ROWS + 8;
    let rows = "yield\n".repeat(more);
    refused(&format!("cells 0\nthread\njump {}\n{rows}", more + 1), ROWS as u64 + 3, 1);
    refused(&format!("cells 0\nthread\njump {}\n{rows}", more + 2), 3, 6);
}

// The final condition

#[test]
fn comparisons() {
    for (sign, byte) in [("=", 1), ("!=", 2), ("<", 3), ("<=", 4), (">", 5), (">=", 6)] {
        assert_eq!(claim(&format!("1.r3 {sign} 258")), compared(byte, 1, 3, 258));
        assert_eq!(claim(&format!("0.r0{sign}0")), compared(byte, 0, 0, 0));
    }
    for wrong in ["==", "=<", "=>", "<>", "!", "<<", "><="] {
        refused_claim(&format!("0.r0 ^{wrong} 1"));
    }
    for wrong in [
        "2.r0",
        "5.r0",
        "256.r0",
        "01.r0",
        "0.r4",
        "0.r",
        "0.0",
        "0.",
        ".r0",
        "r0",
        "0",
        "0.r0.",
        "0.r0.r1",
        "0..r0",
        "0_r0",
        "18446744073709551616.r0",
        "x.r0",
        "and",
        "finally",
        ")",
        "!",
    ] {
        refused_claim(&format!("^{wrong} = 1"));
    }
    refused_claim("^0 .r0 = 1");
    refused_claim("^0. r0 = 1");
    refused_claim("0.r0 ^1");
    refused_claim("0.r0 = ^01");
    refused_claim("0.r0 = ^18446744073709551616");
    refused_claim("0.r0 = ^0.r1");
    refused_claim("0.r0 = ^= 1");
}

fn group(joint: u8, members: &[Vec<u8>]) -> Vec<u8> {
    [&[7][..], &members.join(&[joint][..]), &[8]].concat()
}

#[test]
fn groups() {
    let one = || compared(1, 0, 0, 1);
    assert_eq!(claim("(0.r0 = 1)"), group(9, &[one()]));
    assert_eq!(claim("( 0.r0=1 and\t0.r0=1 and 0.r0=1 )"), group(9, &[one(), one(), one()]));
    assert_eq!(claim("(0.r0 = 1 or(0.r0 = 1)or 0.r0 = 1)"), {
        group(10, &[one(), group(9, &[one()]), one()])
    });
    let inner = [group(9, &[one(), one()]), one()];
    assert_eq!(claim("((0.r0 = 1 and 0.r0 = 1) or 0.r0 = 1)"), group(10, &inner));
    refused_claim("0.r0 = 1 ^and 1.r0 = 1");
    refused_claim("(0.r0 = 1) ^or (0.r0 = 1)");
    refused_claim("(^)");
    refused_claim("(^and 0.r0 = 1)");
    refused_claim("(0.r0 = 1 and ^)");
    refused_claim("(0.r0 = 1 and ^and 0.r0 = 1)");
    refused_claim("(0.r0 = 1 ^0.r0 = 1)");
    refused_claim("(0.r0 = 1 ^(0.r0 = 1))");
    refused_claim("(0.r0 = 1 ^, 0.r0 = 1)");
    refused_claim("(0.r0 = 1 ^xor 0.r0 = 1)");
    refused_claim("(0.r0 = 1)^)");
    refused_claim("^[0.r0 = 1]");
}

#[test]
fn one_kind_of_joint_in_a_group() {
    refused_claim("(0.r0 = 1 and 0.r0 = 1 ^or 0.r0 = 1)");
    refused_claim("(0.r0 = 1 or 0.r0 = 1 or 0.r0 = 1 ^and 0.r0 = 1)");
    refused_claim("((0.r0 = 1 or 0.r0 = 1) and 0.r0 = 1 ^or 0.r0 = 1)");
    // An inner group's is its own.
    claim("((0.r0 = 1 or 0.r0 = 1) and (0.r0 = 1 or 0.r0 = 1))");
}

#[test]
fn eight_deep() {
    let deep = |n: usize| format!("{}0.r0 = 1{}", "(".repeat(n), ")".repeat(n));
    assert_eq!(claim(&deep(8)).len(), 11 + 16);
    refused_claim(&deep(9).replacen("((((((((", "((((((((^", 1));
    refused_claim("((((((((^(");
    let beside = format!("({} and {})", deep(7), deep(7));
    assert_eq!(claim(&beside).len(), 2 + 25 + 1 + 25);
    let text = format!("({} and ((((((((0.r0 = 1", deep(7));
    let at = text.rfind('(').expect("a bracket");
    refused_claim(&format!("{}^{}", &text[..at], &text[at..]));
}

/// What would make the bytes more than 1,024 is refused at its first token.
#[test]
fn at_most_1024_bytes() {
    let many = |n: usize| vec!["0.r0 = 1"; n].join(" and ");
    assert_eq!(claim(&format!("(({}))", many(85))).len(), 1_023);
    // The third bracket that closes would be byte 1,025.
    refused_claim(&format!("((({}))^)", many(85)));
    // 1,021 bytes up to the joint, and eleven more.
    refused_claim(&format!("({} and ^0.r0 = 1)", many(85)));
    // One that breaks off is refused where it does.
    refused_claim(&format!("({} and 0.r0 ^== 1)", many(85)));
    // 1,024 bytes before it, so that the joint has no room.
    let four = "((((0.r0 = 1))))";
    refused_claim(&format!("((((({})))) and {four} ^and 0.r0 = 1)", many(83)));
    // One bracket fewer, and it has; then what follows has not, be it one byte.
    refused_claim(&format!("((((({}))) and {four} and ^(0.r0 = 1)))", many(83)));
}

// The text that is written

#[test]
fn tables_that_are_not_accepted_are_not_written() {
    let Program { table, condition } = program(FIRST);
    assert!(write(&table, &[]).is_some());
    for at in 0..table.len() {
        let mut other = table.clone();
        other[at] = 255;
        let text = write(&other, &condition);
        // Start values and operands may be any, and so may nothing else.
        let in_row = (at.max(24) - 24) % 24;
        let opcode = other[24 + (at.max(24) - 24) / 24 * 24];
        let operand = at >= 24 && (8..16).contains(&in_row) && [1, 11, 12].contains(&opcode);
        assert_eq!(text.is_some(), (8..24).contains(&at) || operand, "byte {at}");
    }
    for length in 0..table.len() {
        assert_eq!(write(&table[..length], &condition), None);
    }
    assert_eq!(write(&[&table[..], &[0]].concat(), &condition), None);
    for length in 1..condition.len() {
        assert_eq!(write(&table, &condition[..length]), None);
    }
    assert_eq!(write(&table, &compared(1, 2, 0, 0)), None);
    assert_eq!(write(&table, &compared(1, 1, 4, 0)), None);
    assert_eq!(write(&table, &compared(7, 1, 0, 0)), None);
}

#[test]
fn the_text_that_is_written() {
    let text = "# x\ncells 18446744073709551615 0\nthread\nr0=with_mut decrement on 1\n\n\
                thread\nfinally ( (0.r0<=1 or ( 1.r2 != 0 ) )and 0.r3>7)";
    let written = "cells 18446744073709551615 0\nthread\n  r0 = with_mut decrement on 1\nthread\n\
                   finally ((0.r0 <= 1 or (1.r2 != 0)) and 0.r3 > 7)\n";
    let Program { table, condition } = program(text);
    assert_eq!(write(&table, &condition).as_deref(), Some(written.as_bytes()));
    let text = " cells 0\n\n\tplain  7 18446744073709551615#\nthread\nr1=read p1\nwrite 3   to p0";
    let written =
        "cells 0\nplain 7 18446744073709551615\nthread\n  r1 = read p1\n  write 3 to p0\n";
    let Program { table, .. } = program(text);
    assert_eq!(write(&table, &[]).as_deref(), Some(written.as_bytes()));
    // A plain cell that is not there, and a table with more of them than there may be.
    let mut other = table.clone();
    other[8 + 24 + 1] = 2;
    assert_eq!(write(&other, &[]), None);
    let five = [&[1, 1, 0, 0, 0, 0, 0, 5][..], &[0; 48]].concat();
    assert_eq!(write(&five, &[]), None);
    assert!(write(&[&[1, 1, 0, 0, 0, 0, 0, 4][..], &[0; 40]].concat(), &[]).is_some());
}
