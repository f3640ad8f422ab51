//! Random tables: what must hold of every run, whatever its answer.

mod common;
use common::*;
use terms::Settings;

/// A small generator of numbers (xorshift); the seed is the case.
struct Random(u64);

impl Random {
    fn below(&mut self, n: u64) -> u64 {
        self.0 ^= self.0 << 13;
        self.0 ^= self.0 >> 7;
        self.0 ^= self.0 << 17;
        (self.0 >> 11) % n
    }

    fn pick(&mut self, from: &[u8]) -> u8 {
        from[self.below(from.len() as u64) as usize]
    }
}

/// A row that is accepted; atomic rows are the most frequent.
fn row(random: &mut Random, threads: u64, [cells, plains]: [u64; 2], [own, rows]: [u64; 2]) -> Row {
    let place = random.below(cells) as u8;
    let register = random.below(4) as u8;
    let a = random.below(3);
    let target = random.below(rows + 1) as u16;
    match random.below(if plains == 0 { 40 } else { 52 }) {
        40..=45 => plain_read(random.below(plains) as u8, register),
        46.. => plain_write(random.below(plains) as u8, a),

        0..=8 => load(place, random.pick(&[0, 2, 4]), register),
        9..=15 => store(place, random.pick(&[0, 1, 4]), a),
        16 => store_register(place, random.pick(&[0, 1, 4]), register),
        17..=21 => random_rmw(random, place, register, a),
        22..=24 => fence(1 + random.below(4) as u8),
        25 => unsync_load(place, register),
        26 => exclusive(place, random.below(11) as u8, register, a),
        27..=29 => yields(),
        30 => join(random.below(threads) as u8),
        31 if u64::from(target) != own => jump(target),
        31 | 32 => jump_if(register, a, target),
        33 => jump_unless(register, a, target),
        34 => check(register, a),
        35 => critical(),
        36 => explore_state(),
        37 => skip_branch(),
        _ => spurious(register),
    }
}

fn random_rmw(random: &mut Random, place: u8, register: u8, a: u64) -> Row {
    let orders = (random.below(5) as u8, random.pick(&[0, 2, 4]));
    match random.below(5) {
        0 => compare(place, orders, register, a, random.below(3)),
        1 => decrement(place, orders, register),
        _ => rmw(place, orders.0, random.below(11) as u8, register, a),
    }
}

fn random_table(random: &mut Random) -> Vec<u8> {
    let (threads, cells) = (1 + random.below(4), 1 + random.below(2));
    let plains = random.below(6).saturating_sub(2);
    let thread = |random: &mut Random| -> Vec<Row> {
        let rows = random.below(6);
        (0..rows)
            .map(|own| row(random, threads, [cells, plains], [own, rows]))
            .collect()
    };
    let rows: Vec<Vec<Row>> = (0..threads).map(|_| thread(random)).collect();
    let rows: Vec<&[Row]> = rows.iter().map(Vec::as_slice).collect();
    let starts: Vec<u64> = (0..cells).map(|_| random.below(3)).collect();
    let plain_starts: Vec<u64> = (0..plains).map(|_| random.below(3)).collect();
    table_with(&starts, &plain_starts, &rows)
}

fn random_settings(random: &mut Random) -> Settings {
    Settings {
        branches: 1 + random.below(48),
        operations: 1 + random.below(32),
        executions: 1 + random.below(60),
        bound: (random.below(3) == 0).then(|| random.below(4) as u8),
        exploring: random.below(8) != 0,
    }
}

/// Where a record's choice stands, so that two can be compared: more is later.
fn choice(record: &[u8]) -> usize {
    match record[0] {
        1 => record[2..7].iter().filter(|&&state| state == 5).count(),
        2 => usize::from(record[9]),
        _ => usize::from(record[2]),
    }
}

/// Executions go through the tree depth first: two that follow each other agree up to a record
/// whose choice is the next one.
fn depth_first(ran: &Ran) {
    for pair in ran.history.windows(2) {
        let (before, after) = (pair[0].0.chunks(16), pair[1].0.chunks(16));
        let mut both = before.zip(after);
        let turn = both.find(|(one, two)| choice(one) != choice(two));
        let (one, two) = turn.expect("no two executions are the same");
        assert_eq!(choice(one) + 1, choice(two));
        assert_eq!((one[0], one[1]), (two[0], 1));
    }
}

/// Offers rise strictly and are in the trace's mask; every entry's fields are in range.
fn well_formed(ran: &Ran) {
    for (path, trace) in &ran.history {
        let loads = path.chunks(16).filter(|record| record[0] == 2);
        let masks = loads.map(|record| {
            let offers = &record[2..2 + usize::from(record[10])];
            assert!(offers.is_sorted_by(|a, b| a < b), "{record:?}");
            offers.iter().fold(0, |mask, slot| mask | 1 << slot)
        });
        let trace = entries(trace);
        let reads = trace.iter().filter(|entry| matches!(entry.opcode, 0 | 3));
        for (read, mask) in reads.zip(masks) {
            assert_eq!(read.mask, mask);
            assert_ne!(read.mask & 1 << read.slot, 0);
        }
        let others = trace.iter().filter(|e| !matches!(e.opcode, 0 | 3));
        for other in others {
            assert_eq!(other.mask, 0);
            let slotted = matches!(other.opcode, 1 | 2 | 5 | 6);
            assert_eq!(other.slot < 7, slotted);
        }
    }
}

/// Nobody is yielded but the thread that runs: a choice wakes all others.
fn only_the_current_one_is_yielded(ran: &Ran) {
    let threads = ran.report.threads.iter().zip(0..);
    for (_, thread) in threads.filter(|(summary, _)| summary.state == 3) {
        assert_eq!(thread, ran.report.thread);
    }
}

#[test]
fn random_tables() {
    let mut answers = [0; 18];
    let mut kinds = [0; 13];
    for case in 1..=20_000u64 {
        let mut random = Random(case.wrapping_mul(0x9e37_79b9_7f4a_7c15));
        let table = random_table(&mut random);
        let settings = random_settings(&mut random);
        // The ledger and more is checked in here.
        let ran = run(&table, &settings);
        depth_first(&ran);
        well_formed(&ran);
        only_the_current_one_is_yielded(&ran);
        answers[ran.report.answer as usize] += 1;
        kinds[ran.report.kind as usize] += 1;
    }
    // The generator reaches every answer but the rare 13 and 17, and the refusals.
    for answer in [0, 1, 10, 11, 12, 14, 15, 16] {
        assert!(answers[answer] > 100, "{answers:?}");
    }
    assert!(kinds[10..].iter().all(|&kind| kind > 100), "{kinds:?}");
}

/// A run leaves nothing behind: run again, alone or inside another's history or on other machine
/// threads, it answers the same.
#[test]
fn runs_do_not_disturb_each_other() {
    let mut random = Random(77);
    for _ in 0..200 {
        let table = random_table(&mut random);
        let settings = random_settings(&mut random);
        let ran = run(&table, &settings);
        let (mut path, mut trace) = (
            vec![1; 16 * settings.branches as usize],
            vec![1; 16 * settings.operations as usize],
        );
        let mut at = 0;
        let report = oracle::explore(
            &table,
            &[],
            &settings,
            &mut path,
            &mut trace,
            None,
            &mut |path, trace| {
                assert_eq!((path, trace), (&*ran.history[at].0, &*ran.history[at].1));
                at += 1;
                if at < 4 {
                    assert_eq!(run(&table, &settings).report, ran.report);
                }
            },
        );
        assert_eq!(report, ran.report);
        let other = std::thread::scope(|scope| {
            let handle = scope.spawn(|| run(&table, &settings).report);
            assert_eq!(run(&table, &settings).report, ran.report);
            handle.join().unwrap()
        });
        assert_eq!(other, ran.report);
    }
}
