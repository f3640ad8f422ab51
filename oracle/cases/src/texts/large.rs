//! Texts at the limits, on either side: as many cells of both sorts, threads and rows as there may be, or one more, and
//! conditions of about as many bytes and as deep as they may be.

use super::{loose, pieces, spoil, tight, Piece};
use crate::condition::{self, Word, Words, DEEPEST, LONGEST};
use crate::draw::{any_rows, value, Room};
use crate::random::Random;
use crate::table::Program;
use text::{CELLS, PLAINS, ROWS, THREADS};

/// The text of this seed and index, the same on every machine.
pub fn large(seed: u64, index: u64) -> Vec<u8> {
    // Apart from the other streams.
    let r = &mut Random::new(seed ^ 0x6c61_7267_65, index);
    let (program, words) = (program(r), condition(r));
    let rows = text::write(&program.table(), &[]).expect("a sound program is written");
    let mut pieces = pieces(&rows);
    if r.chance(1, 4) {
        one_more(r, &mut pieces);
    }
    if !r.chance(1, 4) {
        claim(r, &mut pieces, &words);
    }
    if r.chance(1, 4) {
        spoil(r, &mut pieces);
    }
    match r.chance(1, 2) {
        true => loose(r, &pieces),
        false => tight(&pieces),
    }
}

/// Most threads have all their rows, or nearly.
fn program(r: &mut Random) -> Program {
    let cells = r.pick(&[1, CELLS, CELLS]);
    let plains = r.pick(&[0, 1, PLAINS, PLAINS]);
    let threads = r.pick(&[1, 2, THREADS, THREADS]);
    let starts: Vec<u64> = (0..cells).map(|_| value(r)).collect();
    let plain_starts: Vec<u64> = (0..plains).map(|_| value(r)).collect();
    let mut program = Program::new(&starts).plain(&plain_starts);
    for _ in 0..threads {
        let rows = r.pick(&[0, 1, ROWS - 1, ROWS, ROWS, ROWS]);
        let room = Room {
            cells: cells as u8,
            plains: plains as u8,
            threads: threads as u8,
            rows: rows as u16,
        };
        program = program.thread(&any_rows(r, room));
    }
    program
}

/// A start value, a line of plain cells, a thread or a row more than there were.
fn one_more(r: &mut Random, pieces: &mut Vec<Piece>) {
    let piece = |text: &str, first: bool| Piece { text: text.to_string(), first };
    let lines: Vec<usize> = (1..pieces.len()).filter(|&at| pieces[at].first).collect();
    let threads = lines.iter().position(|&at| pieces[at].text == "thread").unwrap_or(0);
    match r.below(6) {
        0 => pieces.insert(r.between(1, lines[0] as u64) as usize, piece("7", false)),
        1 => pieces.insert(r.pick(&lines), piece("thread", true)),
        2 => pieces.push(piece("thread", true)),
        // At the end of the line before the first `thread`, be it that of the plain cells or not.
        3 => pieces.insert(lines[threads], piece("7", false)),
        4 => {
            let at = lines[threads];
            pieces.splice(at..at, [piece("plain", true), piece("7", false)]);
        }
        // Behind the first `thread` a row may stand anywhere.
        _ => {
            let rows = &lines[threads + 1..];
            pieces.insert(r.pick(&[rows, &[pieces.len()]].concat()), piece("yield", true));
        }
    }
}

/// `finally` and these words, sometimes cut off.
fn claim(r: &mut Random, pieces: &mut Vec<Piece>, words: &[Word]) {
    let mut spelled: Vec<String> = words.iter().flat_map(super::spelled).collect();
    if r.chance(1, 8) {
        spelled.truncate(spelled.len() - r.position(6));
    }
    pieces.push(Piece { text: "finally".to_string(), first: true });
    pieces.extend(spelled.into_iter().map(|text| Piece { text, first: false }));
}

/// A group of comparisons, each in groups of its own, which fill the condition's bytes up to the most, or up
/// to a little less or more; one member may be as deep as can be, or one deeper.
fn condition(r: &mut Random) -> Words {
    let comparisons = r.pick(&[1, 20, 60, 80, 83, 84, 85, 86]);
    let whole = LONGEST as i64 + r.between(0, 6) as i64 - 4;
    // Twelve bytes for each comparison with its joint, less one joint, and two for each group.
    let mut groups = (whole + 1 - 12 * comparisons as i64) / 2 - 1;
    let mut depths = vec![0; comparisons];
    if r.chance(1, 4) {
        depths[r.position(comparisons)] = DEEPEST - 1 + r.position(2);
        groups -= DEEPEST as i64;
    }
    for _ in 0..groups.max(0) {
        let depth = &mut depths[r.position(comparisons)];
        if *depth < DEEPEST - 1 {
            *depth += 1;
        }
    }
    let joint = r.pick(&[Word::And, Word::Or]);
    let members: Vec<Words> = depths
        .iter()
        .map(|&depth| {
            let (sign, register) = (r.between(1, 6) as u8, r.below(4) as u8);
            let one = condition::compared(sign, 0, register, value(r));
            (0..depth).fold(one, |words, _| condition::or(&[words]))
        })
        .collect();
    condition::group(joint, &members)
}
