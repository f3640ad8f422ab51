//! Final conditions for generated cases. Most programs get none. The others are claimed something that
//! is true at the end of some executions and false at the end of others as often as can be had.

use crate::condition::*;
use crate::random::Random;
use crate::table::*;

/// The bytes of a condition for this program.
pub fn draw(r: &mut Random, program: &Program) -> Vec<u8> {
    match r.below(16) {
        0..=3 => bytes(&sound(r, program)),
        4 => spoilt(r, program),
        _ => Vec::new(),
    }
}

/// A condition that is accepted.
pub fn sound(r: &mut Random, program: &Program) -> Words {
    let places = places(program);
    let words = match r.below(20) {
        0..=9 => other_outcome(r, &places),
        10..=11 => one_of_outcomes(r, &places),
        12..=13 => any_comparison(r, &places),
        14..=17 => any_tree(r, &places, 3),
        18 => deep(r, &places, DEEPEST),
        _ => {
            let depth = r.between(4, DEEPEST as u64) as usize;
            deep(r, &places, depth)
        }
    };
    match r.chance(1, 100) {
        true => {
            let groups = r.position(2);
            long(r, &places, MANY, groups)
        }
        false => words,
    }
}

/// A register that may be compared, with the values that it is likely to hold in the end.
struct Place {
    thread: u8,
    register: u8,
    values: Vec<u64>,
}

/// The registers that rows write, and one at least.
fn places(program: &Program) -> Vec<Place> {
    let mut places: Vec<Place> = Vec::new();
    for (thread, rows) in program.threads.iter().enumerate() {
        let thread = thread as u8;
        for row in rows.iter().filter(|row| matches!(row.opcode, 0 | 3 | 5 | 6 | 16 | 17)) {
            let values = match row.opcode {
                16 => vec![0, 1],
                17 => plain_values(program, row.place),
                _ => values(program, row.place),
            };
            let same =
                |place: &&mut Place| (place.thread, place.register) == (thread, row.register);
            match places.iter_mut().find(same) {
                Some(place) => place.values.extend(values),
                None => places.push(Place { thread, register: row.register, values }),
            }
        }
    }
    if places.is_empty() {
        places.push(Place { thread: 0, register: 0, values: vec![0, 1] });
    }
    places
}

/// What the cell may hold: its start, what is stored in it, and what small changes make of that.
fn values(program: &Program, cell: u8) -> Vec<u64> {
    let start = program.starts.get(usize::from(cell)).copied().unwrap_or(0);
    let mut values = vec![start];
    for row in program.threads.iter().flatten().filter(|row| row.has_cell() && row.place == cell) {
        match (row.opcode, row.change) {
            (1, _) | (3 | 6, SWAP) => values.push(row.a),
            (3 | 6, COMPARE) => values.push(row.b),
            (3 | 6, ADD) => values.push(start.wrapping_add(row.a)),
            (3 | 6, DECREMENT) => values.push(start.saturating_sub(1)),
            (2, _) => values.push(0),
            _ => {}
        }
    }
    values
}

/// What the plain cell may hold: its start, and what is written to it.
fn plain_values(program: &Program, plain: u8) -> Vec<u64> {
    let start = program.plains.get(usize::from(plain)).copied().unwrap_or(0);
    let rows = program.threads.iter().flatten();
    let written = rows.filter(|row| row.opcode == 18 && row.place == plain).map(|row| row.a);
    [start].into_iter().chain(written).collect()
}

fn place<'a>(r: &mut Random, places: &'a [Place]) -> &'a Place {
    &places[r.position(places.len())]
}

/// A value that the register is likely to hold, now and then one beside it or another.
fn value(r: &mut Random, place: &Place) -> u64 {
    let value = r.pick(&place.values);
    match r.below(24) {
        0 => value.wrapping_add(1),
        1 => value.wrapping_sub(1),
        2 => r.pick(&[0, u64::MAX, 1 << 63, (1 << 63) - 1]),
        _ => value,
    }
}

/// That one outcome does not come up: true in most executions. The first execution reads what the
/// cells start with, so most outcomes have another value.
fn other_outcome(r: &mut Random, places: &[Place]) -> Words {
    let members: Vec<Words> = (0..r.pick(&[1, 1, 2, 2, 3]))
        .map(|_| {
            let place = place(r, places);
            let mut number = value(r, place);
            for _ in 0..r.below(4) {
                if number == place.values[0] {
                    number = value(r, place);
                }
            }
            differs(place.thread, place.register, number)
        })
        .collect();
    match members.len() {
        1 if r.chance(1, 2) => members.concat(),
        _ => or(&members),
    }
}

/// That one of a few outcomes comes up.
fn one_of_outcomes(r: &mut Random, places: &[Place]) -> Words {
    let members: Vec<Words> = (0..r.between(2, 5))
        .map(|_| {
            let compared: Vec<Words> = (0..r.between(1, 2))
                .map(|_| {
                    let place = place(r, places);
                    equals(place.thread, place.register, value(r, place))
                })
                .collect();
            and(&compared)
        })
        .collect();
    or(&members)
}

fn any_comparison(r: &mut Random, places: &[Place]) -> Words {
    let place = place(r, places);
    let sign = r.between(1, 6) as u8;
    // A register that no row writes may be named too.
    let register = if r.chance(1, 12) { r.below(4) as u8 } else { place.register };
    compared(sign, place.thread, register, value(r, place))
}

/// Comparisons and groups with no plan, at most so deep.
fn any_tree(r: &mut Random, places: &[Place], deep: usize) -> Words {
    if deep == 0 || r.chance(1, 3) {
        return any_comparison(r, places);
    }
    let joint = r.pick(&[Word::And, Word::Or, Word::Or]);
    // The deeper it may go, the narrower it is, so that its bytes stay few.
    let most = if deep > 4 { 2 } else { 3 };
    let members: Vec<Words> =
        (0..r.between(1, most)).map(|_| any_tree(r, places, deep - 1)).collect();
    group(joint, &members)
}

/// Groups in each other, exactly so deep.
fn deep(r: &mut Random, places: &[Place], depth: usize) -> Words {
    let mut words = any_comparison(r, places);
    for _ in 0..depth {
        let mut members = vec![words];
        if r.chance(1, 3) {
            let at = r.position(2);
            members.insert(at, any_comparison(r, places));
        }
        words = group(r.pick(&[Word::And, Word::Or]), &members);
    }
    words
}

/// Comparisons that a condition has room for: with one group it has 12 bytes for each, and one more.
const MANY: usize = 85;

/// A group of so many comparisons, most of them true, in so many groups more.
fn long(r: &mut Random, places: &[Place], count: usize, groups: usize) -> Words {
    let members: Vec<Words> = (0..count)
        .map(|_| match r.chance(1, 40) {
            true => any_comparison(r, places),
            false => compared(AT_LEAST, 0, r.below(4) as u8, 0),
        })
        .collect();
    (0..groups).fold(and(&members), |words, _| and(&[words]))
}

/// A condition that is to be refused; now and then what comes out is sound after all.
fn spoilt(r: &mut Random, program: &Program) -> Vec<u8> {
    let places = places(program);
    let mut words = match r.chance(1, 4) {
        true => any_tree(r, &places, 3),
        false => one_of_outcomes(r, &places),
    };
    let threads = program.threads.len() as u8;
    match r.below(14) {
        0 => respell(r, &mut words, |r, thread, _| *thread = r.pick(&[threads, 5, 255])),
        1 => respell(r, &mut words, |r, _, register| *register = r.pick(&[4, 5, 255])),
        2 => words = deep(r, &places, DEEPEST + 1),
        3 => words = mixed(r, &places),
        4 => {
            let (count, groups) = r.pick(&[(MANY, 2), (MANY + 1, 0), (100, 0), (340, 0)]);
            words = long(r, &places, count, groups);
        }
        5 => {
            let joint = r.pick(&[Word::And, Word::Or]);
            words = [words, any_comparison(r, &places)].join(&joint);
        }
        6 => drop(words.remove(r.position(words.len()))),
        7 => words.insert(r.position(words.len() + 1), any_word(r, &places)),
        8 => {
            let at = r.position(words.len());
            words[at] = any_word(r, &places);
        }
        9 => return (0..r.between(1, 40)).map(|_| r.number() as u8).collect(),
        10 => words = (0..r.between(1, 9)).map(|_| any_word(r, &places)).collect(),
        _ => return spoilt_bytes(r, bytes(&words)),
    }
    bytes(&words)
}

/// Changes thread or register of one comparison.
fn respell(r: &mut Random, words: &mut Words, change: impl Fn(&mut Random, &mut u8, &mut u8)) {
    let compared: Vec<&mut Word> =
        words.iter_mut().filter(|word| matches!(word, Word::Compare { .. })).collect();
    let at = r.position(compared.len());
    if let Some(Word::Compare { thread, register, .. }) = compared.into_iter().nth(at) {
        change(r, thread, register);
    }
}

/// A group with both joints.
fn mixed(r: &mut Random, places: &[Place]) -> Words {
    let mut words = vec![Word::Open];
    words.extend(any_comparison(r, places));
    for joint in r.pick(&[[Word::And, Word::Or], [Word::Or, Word::And]]) {
        words.push(joint);
        words.extend(any_tree(r, places, 1));
    }
    words.push(Word::Close);
    words
}

fn any_word(r: &mut Random, places: &[Place]) -> Word {
    match r.below(6) {
        0 => Word::Open,
        1 => Word::Close,
        2 => Word::And,
        3 => Word::Or,
        _ => any_comparison(r, places)[0],
    }
}

/// A byte changed, cut off, put in, taken out or set behind.
fn spoilt_bytes(r: &mut Random, mut bytes: Vec<u8>) -> Vec<u8> {
    let at = r.position(bytes.len());
    let byte = match r.chance(1, 2) {
        true => r.below(12) as u8,
        false => r.number() as u8,
    };
    match r.below(6) {
        0 | 1 => bytes[at] = byte,
        2 => bytes.truncate(at),
        3 => bytes.insert(at, byte),
        4 => drop(bytes.remove(at)),
        _ => bytes.push(byte),
    }
    bytes
}
