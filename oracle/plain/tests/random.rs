//! Nothing panics, whatever the bytes, the settings and the lengths.

mod common;
use common::*;
use terms::Settings;

/// A small generator of numbers (xorshift).
struct Numbers(u64);

impl Numbers {
    fn next(&mut self) -> u64 {
        self.0 ^= self.0 << 13;
        self.0 ^= self.0 >> 7;
        self.0 ^= self.0 << 17;
        self.0
    }

    fn below(&mut self, end: u64) -> u64 {
        (self.next() >> 11) % end
    }

    fn pick<T: Copy>(&mut self, from: &[T]) -> T {
        from[self.below(from.len() as u64) as usize]
    }
}

/// A row that is accepted in a program of `cells`, as many plain ones, and `threads`, as row `own` in a thread of
/// `rows`.
fn row(n: &mut Numbers, cells: u64, threads: u64, [own, rows]: [u64; 2]) -> Row {
    let register = n.below(2) as u8;
    let a = n.below(3);
    let target = n.below(rows + 1) as u16;
    match n.below(27) {
        0..=14 => access(n, cells, register, a),
        15..=16 => yield_now(),
        17 => join(n.below(threads) as u8),
        18 if u64::from(target) != own => jump(target),
        18 | 19 => jump_if(register, a, target),
        20 => jump_unless(register, a, target),
        21 => check(register, a),
        22 => bare(13 + n.below(3) as u8),
        23..=24 => plain_read(n.below(cells) as u8, register),
        25 => plain_write(n.below(cells) as u8, a),
        _ => spurious(register),
    }
}

/// A row of one of the opcodes 0 to 6.
fn access(n: &mut Numbers, cells: u64, register: u8, a: u64) -> Row {
    let place = n.below(cells) as u8;
    let change = n.below(11) as u8;
    match n.below(15) {
        0..=4 => load(place, n.pick(&[RELAXED, ACQUIRE, SEQ_CST]), register),
        5..=8 => store(place, n.pick(&[RELAXED, RELEASE, SEQ_CST]), a),
        9 => store_register(place, n.pick(&[RELAXED, RELEASE, SEQ_CST]), register),
        10..=11 => rmw(place, n.below(5) as u8, change, register, a),
        12 => may_fail(n, place, register, a),
        13 => fence(1 + n.below(4) as u8),
        _ => n.pick(&[
            unsync_load(place, register),
            with_mut(place, change, register, a),
        ]),
    }
}

fn may_fail(n: &mut Numbers, place: u8, register: u8, a: u64) -> Row {
    let fields = Fields {
        opcode: 3,
        place,
        order: n.below(5) as u8,
        failure: n.pick(&[RELAXED, ACQUIRE, SEQ_CST]),
        change: 12,
        register,
        ..Fields::default()
    };
    let exchange = Fields {
        change: 11,
        a,
        b: 2,
        ..fields
    };
    n.pick(&[fields, exchange]).row()
}

fn program(n: &mut Numbers) -> Vec<u8> {
    let cells = 1 + n.below(2);
    let threads = 1 + n.below(4);
    let rows: Vec<Vec<Row>> = (0..threads)
        .map(|_| {
            let count = n.below(7);
            let mut one = |own| row(n, cells, threads, [own, count]);
            (0..count).map(&mut one).collect()
        })
        .collect();
    let rows: Vec<&[Row]> = rows.iter().map(Vec::as_slice).collect();
    table_with(&[0, 1][..cells as usize], &[2, 0][..cells as usize], &rows)
}

fn limits(n: &mut Numbers) -> Settings {
    let any = n.next();
    Settings {
        branches: n.pick(&[MAX_BRANCHES, 1_024, 1_024, 60, 12, 5, 1]),
        operations: n.pick(&[MAX_OPERATIONS, 300, 300, 40, 12, 1]),
        executions: n.pick(&[60, 60, 300, 7, 1]),
        bound: n.pick(&[None, None, None, Some(0), Some(1), Some(2), Some(any as u8)]),
        exploring: n.below(8) != 0,
    }
}

#[test]
fn accepted_programs() {
    let mut n = Numbers(0x9E37_79B9_7F4A_7C15);
    let (mut answers, mut kinds) = ([0; 18], [0; 13]);
    for _ in 0..6_000 {
        let report = run(&program(&mut n), &limits(&mut n)).report;
        answers[report.answer as usize] += 1;
        kinds[report.kind as usize] += 1;
    }
    for answer in [0, 1, 10, 11, 12, 14, 15, 16] {
        assert!(answers[answer] > 50, "{answers:?}");
    }
    assert!(kinds[10..].iter().all(|&kind| kind > 20), "{kinds:?}");
    assert_eq!(answers[2..=5], [0; 4]);
}

#[test]
fn damaged_programs() {
    let mut n = Numbers(0x0123_4567_89AB_CDEF);
    let (mut refused, mut accepted) = (0, 0);
    for _ in 0..20_000 {
        let mut table = program(&mut n);
        for _ in 0..1 + n.below(3) {
            let at = n.below(table.len() as u64) as usize;
            table[at] = n.pick(&[0, 1, 2, 4, 17, 18, 19, 255]);
        }
        let settings = Settings {
            executions: 20,
            operations: 200,
            branches: 200,
            ..limits(&mut n)
        };
        match run(&table, &settings).report.answer {
            5 => refused += 1,
            _ => accepted += 1,
        }
    }
    assert!(refused > 1_000 && accepted > 1_000);
}

#[test]
fn any_bytes_settings_and_lengths() {
    let mut n = Numbers(0xDEAD_BEEF_0BAD_CAFE);
    for _ in 0..20_000 {
        let mut bytes: Vec<u8> = (0..n.below(100)).map(|_| n.next() as u8).collect();
        if n.below(2) == 0 {
            bytes = bytes.iter().map(|byte| byte % 4).collect();
        }
        let number = |n: &mut Numbers| {
            let any = n.next();
            n.pick(&[0, 1, 2, 3, MAX_BRANCHES, MAX_OPERATIONS, MAX_EXECUTIONS, any, u64::MAX])
        };
        let settings = Settings {
            branches: number(&mut n),
            operations: number(&mut n),
            executions: number(&mut n),
            bound: Some(n.next() as u8).filter(|bound| *bound > 99),
            exploring: n.below(2) == 0,
        };
        let length = |n: &mut Numbers| n.pick(&[0, 1, 16, 32, 48, 47, 16 * MAX_BRANCHES as usize, 16 * MAX_OPERATIONS as usize]);
        let (path, trace) = (length(&mut n), length(&mut n));
        run_in(&bytes, &settings, path, trace, n.pick(&[5, 5, 5, 0, 4, 6]));
    }
}
