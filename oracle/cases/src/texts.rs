//! Texts for the readers: those that the writer writes for generated programs, the same with blanks,
//! comments and line ends of all kinds, and damaged ones.

mod large;

use crate::claims;
use crate::condition::{self, Word};
use crate::generate;
use crate::random::Random;
use oracle::limits::MAX_ROWS;

pub use large::large;

/// The text of this seed and index, the same on every machine.
pub fn text(seed: u64, index: u64) -> Vec<u8> {
    // Apart from the streams that cases are drawn from.
    let r = &mut Random::new(seed ^ 0x7465_7874, index);
    let mut pieces = pieces(&written(r));
    match r.below(12) {
        0 => tight(&pieces),
        1..=4 => loose(r, &pieces),
        5..=8 => {
            for _ in 0..r.pick(&[1, 1, 1, 2, 3]) {
                spoil(r, &mut pieces);
            }
            match r.chance(1, 2) {
                true => loose(r, &pieces),
                false => tight(&pieces),
            }
        }
        9 => {
            let text = loose(r, &pieces);
            spoilt_bytes(r, text)
        }
        10 => {
            let text = tight(&pieces);
            spoilt_bytes(r, text)
        }
        _ => soup(r, &pieces),
    }
}

/// The text that is written for a generated program, sometimes with a condition.
fn written(r: &mut Random) -> Vec<u8> {
    let program = generate::program(r);
    let condition = match r.below(4) {
        0 => Vec::new(),
        _ => condition::bytes(&claims::sound(r, &program)),
    };
    text::write(&program.table(), &condition).expect("a sound program is written")
}

/// A token, and whether it begins a line.
#[derive(Clone, Debug)]
struct Piece {
    text: String,
    first: bool,
}

/// The tokens of a text that was written.
fn pieces(text: &[u8]) -> Vec<Piece> {
    let text = String::from_utf8_lossy(text);
    let mut pieces = Vec::new();
    for line in text.lines() {
        let apart = line.replace('(', " ( ").replace(')', " ) ");
        for (place, word) in apart.split_whitespace().enumerate() {
            pieces.push(Piece { text: word.to_string(), first: place == 0 });
        }
    }
    pieces
}

/// One line a line, one blank between tokens.
fn tight(pieces: &[Piece]) -> Vec<u8> {
    let mut text = String::new();
    for (place, piece) in pieces.iter().enumerate() {
        text += match (place, piece.first) {
            (0, _) => "",
            (_, true) => "\n",
            (_, false) => " ",
        };
        text += &piece.text;
    }
    (text + "\n").into_bytes()
}

/// Blanks, comments, empty lines and line ends of all kinds. Behind `finally` a line may end anywhere.
fn loose(r: &mut Random, pieces: &[Piece]) -> Vec<u8> {
    let (ends, blanks, comments) = (r.below(3), r.below(3), r.below(4));
    let mut text = Vec::new();
    let mut free = false;
    for (place, piece) in pieces.iter().enumerate() {
        let before = place.checked_sub(1).map(|before| pieces[before].text.as_bytes());
        if piece.first || (free && r.chance(1, 8)) {
            if place > 0 {
                end_line(r, &mut text, ends, comments);
            }
            while r.chance(1, 8) {
                blank(r, &mut text, blanks);
                end_line(r, &mut text, ends, comments);
            }
            blank(r, &mut text, blanks);
        } else if before.is_some_and(|before| runs_on(before, piece.text.as_bytes())) {
            text.push(r.pick(b"  \t"));
            blank(r, &mut text, blanks);
        } else if r.chance(1, 2) {
            blank(r, &mut text, blanks);
        }
        text.extend_from_slice(piece.text.as_bytes());
        free |= piece.text == "finally";
    }
    blank(r, &mut text, blanks);
    if !r.chance(1, 4) {
        end_line(r, &mut text, ends, comments);
    } else if r.chance(1, 3) {
        text.extend_from_slice(b"# the end");
    }
    text
}

fn blank(r: &mut Random, text: &mut Vec<u8>, blanks: u64) {
    for _ in 0..r.below(blanks * 2 + 1) {
        text.push(r.pick(b" \t "));
    }
}

/// A line feed, sometimes with a carriage return before it, sometimes with a comment before that.
fn end_line(r: &mut Random, text: &mut Vec<u8>, ends: u64, comments: u64) {
    if r.chance(comments, 6) {
        blank(r, text, 1);
        let comment: &[u8] = match r.below(6) {
            0 => b"#",
            1 => b"## yield",
            2 => b"# finally (0.r0 = 1)",
            3 => b"#\t\rthread",
            4 => "# \u{e9}\u{0}".as_bytes(),
            _ => b"# a line's end",
        };
        text.extend_from_slice(comment);
    }
    if ends == 1 || (ends == 2 && r.chance(1, 2)) {
        text.push(b'\r');
    }
    text.push(b'\n');
}

/// Whether two tokens side by side would be one.
fn runs_on(left: &[u8], right: &[u8]) -> bool {
    let kind = |byte: Option<&u8>| match byte {
        Some(b'=' | b'!' | b'<' | b'>') => 1,
        Some(byte) if byte.is_ascii_alphanumeric() || *byte == b'_' || *byte == b'.' => 2,
        _ => 0,
    };
    let (left, right) = (kind(left.last()), kind(right.first()));
    left == right && left != 0
}

/// Words that a text may have somewhere, and some that it may not.
const WORDS: [&str; 71] = [
    "cells",
    "thread",
    "finally",
    "load",
    "store",
    "to",
    "on",
    "fence",
    "unsync_load",
    "with_mut",
    "yield",
    "join",
    "jump",
    "if",
    "check",
    "critical",
    "explore_state",
    "skip_branch",
    "branch_spurious",
    "plain",
    "read",
    "write",
    "swap",
    "add",
    "sub",
    "and",
    "or",
    "xor",
    "nand",
    "max",
    "min",
    "signed_max",
    "signed_min",
    "compare_exchange",
    "decrement",
    "relaxed",
    "release",
    "acquire",
    "acqrel",
    "seqcst",
    "r0",
    "r1",
    "r2",
    "r3",
    "r4",
    "p0",
    "p1",
    "p3",
    "p4",
    "0",
    "1",
    "2",
    "4",
    "5",
    "65",
    "=",
    "!=",
    "<",
    "<=",
    ">",
    ">=",
    "==",
    "(",
    ")",
    "0.r0",
    "1.r3",
    "4.r1",
    "5.r0",
    "0.r4",
    "Load",
    ",",
];

/// Numbers at the edges, and what is nearly one.
const NUMBERS: [&str; 16] = [
    "0",
    "00",
    "01",
    "007",
    "18446744073709551615",
    "18446744073709551616",
    "18446744073709551625",
    "28446744073709551615",
    "99999999999999999999",
    "100000000000000000000",
    "65536",
    "256",
    "-1",
    "1_0",
    "1.",
    "0x1",
];

/// One change of the tokens.
fn spoil(r: &mut Random, pieces: &mut Vec<Piece>) {
    if pieces.is_empty() {
        return;
    }
    let at = r.position(pieces.len());
    match r.below(19) {
        0..=1 => pieces[at].text = r.pick(&WORDS).to_string(),
        2 => drop(pieces.remove(at)),
        3 => pieces.insert(at, Piece { text: r.pick(&WORDS).to_string(), first: false }),
        4 => pieces.insert(at, Piece { first: false, ..pieces[at].clone() }),
        5 if at > 0 => {
            let [left, right] = [at - 1, at].map(|at| pieces[at].text.clone());
            (pieces[at - 1].text, pieces[at].text) = (right, left);
        }
        6..=7 => renumber(r, pieces),
        8 => pieces[at].first ^= true,
        9 => remove_line(r, pieces),
        10 => repeat_line(r, pieces, 1),
        11 => {
            let times = r.pick(&[4, 5, 6, MAX_ROWS - 1, MAX_ROWS, MAX_ROWS + 1]);
            repeat_line(r, pieces, times);
        }
        12..=13 => reclaim(r, pieces),
        14 => pieces.truncate(at),
        15 => insert_plain(r, pieces),
        16 => replain(r, pieces),
        17 => rejump(r, pieces),
        _ => {
            let other = r.position(pieces.len());
            pieces[at].text = pieces[other].text.clone();
        }
    }
}

/// Respells a number.
fn renumber(r: &mut Random, pieces: &mut [Piece]) {
    let is_number = |piece: &Piece| piece.text.bytes().all(|byte| byte.is_ascii_digit());
    let numbers: Vec<usize> = (0..pieces.len()).filter(|&at| is_number(&pieces[at])).collect();
    if numbers.is_empty() {
        return;
    }
    let text = &mut pieces[r.pick(&numbers)].text;
    match r.below(3) {
        0 => text.insert(0, '0'),
        1 => text.push(r.pick(&['0', '1', '5'])),
        _ => *text = r.pick(&NUMBERS).to_string(),
    }
}

/// Puts a line of plain cells in, with up to five numbers.
fn insert_plain(r: &mut Random, pieces: &mut Vec<Piece>) {
    let (from, to) = some_line(r, pieces);
    let at = r.pick(&[from, to, 0]);
    let mut line = vec![Piece { text: "plain".to_string(), first: true }];
    for _ in 0..r.pick(&[0, 1, 2, 4, 5]) {
        line.push(Piece { text: r.below(3).to_string(), first: false });
    }
    pieces.splice(at..at, line);
}

/// Respells a plain cell.
fn replain(r: &mut Random, pieces: &mut [Piece]) {
    let is_plain = |piece: &Piece| piece.text.len() == 2 && piece.text.starts_with('p');
    let plains: Vec<usize> = (0..pieces.len()).filter(|&at| is_plain(&pieces[at])).collect();
    if !plains.is_empty() {
        let names = ["p0", "p1", "p2", "p3", "p4", "p9", "p00", "p", "P0", "0", "r0", "p0.", "pp"];
        pieces[r.pick(&plains)].text = r.pick(&names).to_string();
    }
}

/// Lets a row jump to itself, or to a row beside it, with or without a condition.
fn rejump(r: &mut Random, pieces: &mut Vec<Piece>) {
    let (from, to) = some_line(r, pieces);
    let words = ["cells", "plain", "thread", "finally"];
    let firsts = pieces[..from].iter().rev().filter(|piece| piece.first);
    let before = firsts.take_while(|piece| !words.contains(&piece.text.as_str())).count();
    let target = match r.below(8) {
        0 => before + 1,
        1 => before.saturating_sub(1),
        _ => before,
    };
    let line = match r.below(4) {
        0..=1 => format!("jump {target}"),
        2 => format!("if r{} = {} jump {target}", r.below(4), r.below(2)),
        _ => format!("if r{} != {} jump {target}", r.below(4), r.below(2)),
    };
    // In the row's place or in front of it: either way it has the row's number.
    let to = if r.chance(1, 2) { from } else { to };
    pieces.splice(from..to, self::pieces(line.as_bytes()));
}

/// Where a line begins, and where it ends.
fn some_line(r: &mut Random, pieces: &[Piece]) -> (usize, usize) {
    let mut starts: Vec<usize> = (0..pieces.len()).filter(|&at| pieces[at].first).collect();
    starts.push(pieces.len());
    if starts.len() < 2 {
        return (0, pieces.len());
    }
    let line = r.position(starts.len() - 1);
    (starts[line], starts[line + 1])
}

fn remove_line(r: &mut Random, pieces: &mut Vec<Piece>) {
    let (from, to) = some_line(r, pieces);
    pieces.drain(from..to);
}

fn repeat_line(r: &mut Random, pieces: &mut Vec<Piece>, times: usize) {
    let (from, to) = some_line(r, pieces);
    let line = pieces[from..to].to_vec();
    for _ in 0..times {
        pieces.splice(to..to, line.clone());
    }
}

/// Puts another condition at the end: one that is too deep or too long, or one with a word changed.
fn reclaim(r: &mut Random, pieces: &mut Vec<Piece>) {
    if let Some(at) = pieces.iter().position(|piece| piece.text == "finally") {
        pieces.truncate(at);
    }
    let one = |number: u64| condition::equals(0, 0, number);
    let words: Vec<Word> = match r.below(5) {
        0 => (0..r.between(8, 9)).fold(one(1), |words, _| condition::and(&[words])),
        1..=2 => {
            let many = vec![one(1); r.pick(&[83, 84, 85, 86, 90])];
            let groups = r.below(4);
            (0..groups).fold(condition::or(&many), |words, _| condition::or(&[words]))
        }
        3 => [vec![Word::Open], one(1), vec![Word::And], one(2), vec![Word::Or], one(3)].concat(),
        _ => condition::or(&[condition::and(&[one(1), one(2)]), one(3)]),
    };
    pieces.push(Piece { text: "finally".to_string(), first: true });
    let spelled = words.iter().flat_map(spelled);
    pieces.extend(spelled.map(|text| Piece { text, first: false }));
    if r.chance(1, 2) {
        let at = pieces.len() - 1 - r.position(pieces.len().min(6));
        pieces[at].text = r.pick(&WORDS).to_string();
    }
}

fn spelled(word: &Word) -> Vec<String> {
    let alone = |text: &str| vec![text.to_string()];
    match *word {
        Word::Compare { sign, thread, register, number } => vec![
            format!("{thread}.r{register}"),
            condition::SIGNS[usize::from(sign) - 1].to_string(),
            number.to_string(),
        ],
        Word::Open => alone("("),
        Word::Close => alone(")"),
        Word::And => alone("and"),
        Word::Or => alone("or"),
    }
}

/// A few bytes changed, removed, put in, or the rest cut off.
fn spoilt_bytes(r: &mut Random, mut text: Vec<u8>) -> Vec<u8> {
    for _ in 0..r.pick(&[1, 1, 1, 2, 3]) {
        if text.is_empty() {
            break;
        }
        let at = r.position(text.len());
        let byte = match r.below(4) {
            0 => r.number() as u8,
            _ => r.pick(b"0123456789rabcdefghijklmnopqrstuvwxyzR_.=!<>()#, \t\r\n\r\n\n"),
        };
        match r.below(8) {
            0..=2 => text[at] = byte,
            3..=4 => drop(text.remove(at)),
            5..=6 => text.insert(at, byte),
            _ => text.truncate(at),
        }
    }
    text
}

/// Words without sense, behind the beginning of a text.
fn soup(r: &mut Random, pieces: &[Piece]) -> Vec<u8> {
    let from = r.position(pieces.len());
    let mut pieces = pieces[..from].to_vec();
    for _ in 0..r.below(30) {
        pieces.push(Piece { text: r.pick(&WORDS).to_string(), first: r.chance(1, 4) });
    }
    match r.chance(1, 4) {
        true => (0..r.below(60)).map(|_| r.number() as u8).collect(),
        false => loose(r, &pieces),
    }
}
