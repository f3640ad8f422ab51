//! Which choices are opened and in which order they are taken: spurious branches, yields, joins,
//! exploring and skipping, the bound.

mod common;
use common::*;
use terms::Settings;

fn spurious_record(bit: u8) -> [u8; 16] {
    let mut record = [0; 16];
    record[..3].copy_from_slice(&[3, 1, bit]);
    record
}

#[test]
fn spurious_branches() {
    let ran = run(&table(&[0], &[&[spurious(3)]]), &settings(2, 1, 9));
    assert_eq!(ran.counts(), [0, 2, 1, 0]);
    assert_eq!(ran.values(0, 0), [0, 1]);
    assert_eq!(ran.history[0].0[..16], spurious_record(0));
    assert_eq!(ran.history[1].0[..16], spurious_record(1));
    let entry = entry_of(ran.last_trace(), 0, 0);
    assert_eq!((entry.opcode, entry.slot, entry.mask), (16, 255, 0));
    // Two of them: unset before set, the later one first.
    let ran = run(
        &table(&[0], &[&[spurious(0), spurious(1)]]),
        &settings(4, 4, 9),
    );
    assert_eq!(ran.counts(), [0, 4, 3, 0]);
    assert_eq!(ran.values(0, 0), [0, 0, 1, 1]);
    assert_eq!(ran.values(0, 1), [0, 1, 0, 1]);
}

/// The bit goes into the register, and registers are 0 again in each execution.
#[test]
fn spurious_registers() {
    let rows = [
        check(2, 0),
        spurious(2),
        jump_if(2, 0, 4),
        check(2, 1),
        store_register(0, RELAXED, 2),
    ];
    let ran = run(&table(&[9], &[&rows]), &settings(8, 8, 9));
    assert_eq!(ran.counts(), [0, 2, 1, 0]);
    assert_eq!(ran.values(0, 4), [0, 1]);
    // The jump is taken in the first execution only, and has an entry in both.
    assert_eq!(entries(&ran.history[0].1).len(), 4);
    assert_eq!(entries(&ran.history[1].1).len(), 5);
}

/// Without exploring, one execution; records say so.
#[test]
fn not_exploring() {
    let rows: [&[Row]; 2] = [&[store(0, RELAXED, 1)], &[load(0, RELAXED, 0), spurious(0)]];
    let settings = Settings {
        exploring: false,
        ..settings(16, 8, 9)
    };
    let ran = run(&table(&[0], &rows), &settings);
    assert_eq!(ran.counts(), [0, 1, 0, 0]);
    let records: Vec<_> = ran.last_path().chunks(16).map(|r| (r[0], r[1])).collect();
    assert_eq!(records, [(1, 0), (1, 0), (1, 0), (2, 0), (3, 0), (1, 0)]);
    // The offers are still there, and the first is taken.
    let entry = entry_of(ran.last_trace(), 1, 0);
    assert_eq!((entry.slot, entry.mask), (0, 0b11));
    // Skipping from the first row on is the same.
    let skipping: [&[Row]; 2] = [
        &[skip_branch(), store(0, RELAXED, 1)],
        &[load(0, RELAXED, 0), spurious(0)],
    ];
    let ran = run(
        &table(&[0], &skipping),
        &Settings {
            exploring: true,
            ..settings
        },
    );
    assert_eq!(ran.counts(), [0, 1, 0, 0]);
}

/// A mark goes to the nearest exploring schedule at or below the access: thread 0's store to cell 0
/// is not exploring, the one before it is.
#[test]
fn a_mark_walks_down_to_an_exploring_record() {
    let rows: [&[Row]; 2] = [
        &[store(1, RELAXED, 1), critical(), store(0, RELAXED, 1)],
        &[load(0, RELAXED, 0)],
    ];
    let ran = run(&table(&[0, 0], &rows), &settings(16, 8, 1));
    assert_eq!(ran.counts(), [1, 1, 1, 1]);
    let path = ran.last_path();
    assert_eq!(path[..16], schedule_record([4, 3, 0, 0, 0], 0, 0, 65535));
    assert_eq!(path[16..23], [1, 0, 4, 1, 0, 0, 0]);
}

/// With a bound a second mark is made, at the very first schedule if nothing lies between.
#[test]
fn the_second_backtrack() {
    let rows: [&[Row]; 2] = [
        &[store(1, RELAXED, 1), store(0, RELAXED, 1)],
        &[load(0, RELAXED, 0)],
    ];
    let with = |bound| {
        let settings = Settings {
            bound,
            ..settings(16, 8, 1)
        };
        run(&table(&[0, 0], &rows), &settings)
    };
    // The load's other value, and one mark at the store, or two, or none.
    assert_eq!(with(None).counts(), [1, 1, 2, 2]);
    assert_eq!(with(None).last_path()[2..4], [4, 1]);
    for bound in [1, 255] {
        assert_eq!(with(Some(bound)).counts(), [1, 1, 3, 3]);
        assert_eq!(with(Some(bound)).last_path()[2..4], [4, 3]);
    }
    assert_eq!(with(Some(0)).counts(), [1, 1, 1, 1]);
}

/// The second mark goes to the last switch before the access, not to the first schedule: thread 0
/// yields to thread 1, whose second store is the access.
#[test]
fn the_second_backtrack_stops_at_a_switch() {
    let rows: [&[Row]; 3] = [
        &[store(1, RELAXED, 1), yields()],
        &[store(1, RELAXED, 2), store(0, RELAXED, 1)],
        &[load(0, RELAXED, 0)],
    ];
    let settings = Settings {
        bound: Some(3),
        ..settings(32, 8, 1)
    };
    let ran = run(&table(&[0, 0], &rows), &settings);
    let states = |record: usize| &ran.last_path()[16 * record + 2..16 * record + 5];
    // 0: store of thread 0; thread 1's store to cell 1 marks it there.
    assert_eq!(states(0), [4, 3, 1]);
    // 1: the yield, where thread 1 takes over. It is the switch: thread 2 is marked.
    assert_eq!(states(1), [2, 4, 3]);
    // 2 and 3: the stores of thread 1; the access is at 3.
    assert_eq!(states(2), [1, 4, 1]);
    assert_eq!(states(3), [1, 4, 3]);
}

/// A yield alone: the first Yield becomes Active.
#[test]
fn a_lone_yield() {
    let ran = run(&table(&[0], &[&[yields(), yields()]]), &settings(4, 4, 4));
    assert_eq!(ran.counts(), [0, 1, 0, 0]);
    let path = [
        schedule_record([4, 0, 0, 0, 0], 0, 0, 65535),
        schedule_record([4, 0, 0, 0, 0], 0, 0, 0),
        schedule_record([0; 5], 0, 255, 1),
    ];
    assert_eq!(ran.last_path(), path.concat());
    assert_eq!(ran.report.threads[0].yields, 2);
    assert_eq!(ran.report.threads[0].version, 2);
}

/// The states of the first two threads when the run stops.
fn states(threads: &[&[Row]], settings: &Settings) -> [u64; 2] {
    let report = run(&table(&[0], threads), settings).report;
    [report.threads[0].state, report.threads[1].state]
}

/// Nobody else can run, so the yielder is picked, and stays yielded whatever it meets.
#[test]
fn a_picked_yielder_stays_yielded() {
    let wide = settings(9, 9, 9);
    let write = store(0, RELAXED, 1);
    let fails = check(0, 1);
    assert_eq!(states(&[&[yields(), fails]], &wide), [3, 0]);
    assert_eq!(states(&[&[yields(), explore_state()]], &wide), [3, 0]);
    assert_eq!(states(&[&[yields(), fails]], &settings(9, 1, 9)), [3, 0]);
    // At the store's scheduling, and after it has picked the thread again.
    assert_eq!(states(&[&[yields(), write]], &settings(1, 9, 9)), [3, 0]);
    assert_eq!(states(&[&[yields(), write, fails]], &wide), [3, 0]);
    // The first yield gives way to thread 1, which ends.
    let twice = [yields(), yields(), unsync_load(0, 0)];
    assert_eq!(states(&[&twice, &[write]], &wide), [3, 4]);
    // A join that goes through changes nothing.
    let through = [yields(), yields(), join(1), fails];
    assert_eq!(states(&[&through, &[]], &wide), [3, 4]);
}

/// A yielder that gives way is runnable; one that blocks or ends is blocked or ended, and who is
/// woken is runnable.
#[test]
fn a_yielder_that_is_not_picked_does_not() {
    let wide = settings(9, 9, 9);
    let fails = check(0, 1);
    assert_eq!(states(&[&[yields()], &[fails]], &wide), [1, 1]);
    assert_eq!(states(&[&[yields()], &[yields(), fails]], &wide), [4, 1]);
    assert_eq!(states(&[&[yields(), join(0)]], &wide), [2, 0]);
    assert_eq!(states(&[&[join(1), fails], &[yields()]], &wide), [1, 4]);
    let next = [join(1), yields(), fails];
    assert_eq!(states(&[&next, &[yields()]], &wide), [3, 4]);
}

/// A thread that has yielded at a branch is not explored there. Worked out by hand: in execution 9
/// thread 1's load waits at record 1 while thread 0 stores; thread 0 yields at record 2, where the
/// load is chosen; thread 0's second store conflicts with it, and its Yield there stays.
#[test]
fn a_yielded_target_is_not_explored() {
    let threads: [&[Row]; 2] = [
        &[store(0, RELAXED, 1), yields(), store(0, RELAXED, 2)],
        &[load(0, RELAXED, 0)],
    ];
    let ran = run(&table(&[0], &threads), &settings(16, 8, 99));
    assert_eq!(ran.counts(), [0, 10, 9, 0]);
    assert_eq!(ran.values(1, 0), [0, 1, 0, 1, 2, 0, 1, 0, 0, 1]);
    let path = [
        schedule_record([5, 4, 0, 0, 0], 0, 0, 65535),
        schedule_record([4, 5, 0, 0, 0], 1, 1, 0),
        schedule_record([2, 4, 0, 0, 0], 2, 255, 1),
        load_record(&[0, 1], 0),
        schedule_record([4, 0, 0, 0, 0], 2, 255, 2),
        schedule_record([4, 0, 0, 0, 0], 2, 0, 4),
        schedule_record([0; 5], 2, 255, 5),
    ];
    assert_eq!(ran.history[8].0, path.concat());
}

/// Of the runnable ones the fewest yields, the lowest number on a tie.
#[test]
fn yields_choose_the_next_thread() {
    let threads: [&[Row]; 3] = [
        &[yields(), yields(), yields()],
        &[yields(), check(0, 0)],
        &[check(0, 0), yields(), check(0, 0)],
    ];
    let ran = run(&table(&[0], &threads), &settings(16, 16, 4));
    // 0 yields (1), 1 yields (1), 2 checks and yields (1): 0 on the tie. 0 yields (2): 1 ends, then
    // 2 ends, and 0 goes on.
    let order = entries(ran.last_trace());
    let order: Vec<_> = order.iter().map(|e| (e.thread, e.row)).collect();
    let expected = [
        (0, 0),
        (1, 0),
        (2, 0),
        (2, 1),
        (0, 1),
        (1, 1),
        (2, 2),
        (0, 2),
    ];
    assert_eq!(order, expected);
    assert_eq!(ran.counts(), [0, 1, 0, 0]);
    let second = &ran.last_path()[16..32];
    assert_eq!(second, schedule_record([1, 2, 4, 0, 0], 0, 255, 0));
}

/// A thread whose last row is a yield ends only when it is chosen again; a join blocks until then.
#[test]
fn a_last_yield_and_a_join() {
    let threads: [&[Row]; 2] = [&[yields()], &[join(0), check(0, 0)]];
    let ran = run(&table(&[0], &threads), &settings(8, 8, 4));
    let path = [
        // The yield; thread 1 runs, and its join blocks; thread 0 ends; thread 1 goes on and ends.
        schedule_record([2, 4, 0, 0, 0], 0, 1, 65535),
        schedule_record([4, 0, 0, 0, 0], 0, 255, 0),
        schedule_record([0, 4, 0, 0, 0], 0, 255, 1),
        schedule_record([0; 5], 0, 255, 2),
    ];
    assert_eq!(ran.last_path(), path.concat());
    assert_eq!(ran.report.rows, 3);
    // Joining raises thread 1's version from 1 to 2.
    assert_eq!(ran.report.threads[1].version, 2);
}

/// A join on a thread that has ended makes no scheduling.
#[test]
fn a_join_that_goes_through_at_once() {
    let threads: [&[Row]; 2] = [&[yields(), join(1)], &[]];
    let ran = run(&table(&[0], &threads), &settings(8, 8, 4));
    // The yield, thread 1's end, thread 0's end.
    assert_eq!(ran.last_path().len(), 3 * 16);
    assert_eq!(ran.report.threads[0].version, 3);
    assert_eq!(ran.report.threads[0].rows, 2);
}

/// A mark for a thread that is Disabled explores every Skip instead, here thread 1. While thread 0
/// waits in its join and thread 1 has yielded, thread 2 loads; thread 0's store then conflicts.
#[test]
fn a_disabled_target_explores_all() {
    let threads: [&[Row]; 3] = [
        &[join(1), store(0, RELAXED, 1)],
        &[yields()],
        &[load(0, RELAXED, 0)],
    ];
    let first = run(&table(&[0], &threads), &settings(16, 8, 1));
    assert_eq!(first.counts(), [1, 1, 1, 1]);
    let path = [
        schedule_record([0, 4, 1, 0, 0], 0, 1, 65535),
        schedule_record([0, 2, 4, 0, 0], 0, 255, 0),
        schedule_record([0, 3, 4, 0, 0], 0, 2, 1),
        load_record(&[0], 0),
        schedule_record([0, 4, 0, 0, 0], 0, 255, 2),
        schedule_record([4, 0, 0, 0, 0], 0, 255, 4),
        schedule_record([4, 0, 0, 0, 0], 0, 0, 5),
        schedule_record([0; 5], 0, 255, 6),
    ];
    assert_eq!(first.last_path(), path.concat());
    // Second: thread 1 goes first, so thread 0's store comes before the load, which then has two
    // values and is marked at the store. Third: the other value. Fourth: the load before the store.
    let all = run(&table(&[0], &threads), &settings(16, 8, 9));
    assert_eq!(all.counts(), [0, 4, 3, 0]);
    assert_eq!(all.values(2, 0), [0, 0, 1, 0]);
}

/// The states in a schedule record of the first execution, which thread 2's own marks need not
/// concern: it is what a wrong mark would fall on.
fn first_states(threads: [&[Row]; 3], record: usize) -> Vec<u8> {
    let ran = run(&table(&[0, 0], &threads), &settings(16, 16, 1));
    ran.last_path()[16 * record + 2..16 * record + 5].to_vec()
}

/// A join carries the schedule vector too: what the target did is no conflict for the joiner, which
/// is Disabled there, so that a conflict would explore thread 2.
#[test]
fn a_join_is_no_conflict() {
    let write = store(0, RELAXED, 1);
    let threads: [&[Row]; 3] = [&[join(1), write], &[write], &[]];
    // 0: the join. 1: thread 1's store.
    assert_eq!(first_states(threads, 1), [0, 4, 1]);
    let ran = run(&table(&[0], &threads), &settings(16, 8, 9));
    assert_eq!(ran.counts(), [0, 1, 0, 0]);
}

/// A thread that has ended, or waits in a join, has no pending operation: thread 1's store is no
/// conflict with the load that thread 0 has done.
#[test]
fn no_operation_is_pending_after_the_act() {
    let (read, write) = (load(0, RELAXED, 0), store(0, RELAXED, 1));
    let ended: [&[Row]; 3] = [&[read], &[write], &[]];
    let blocked: [&[Row]; 3] = [&[read, join(1)], &[write], &[]];
    for threads in [ended, blocked] {
        // 0 and 1: thread 0's load; thread 1 is marked, for its store comes after.
        assert_eq!(first_states(threads, 0), [4, 3, 1]);
        // 2: the end or the join. 3: thread 1's store.
        assert_eq!(first_states(threads, 3), [0, 4, 1]);
    }
}

/// A chosen operation takes over the vector of the access it depends on: thread 2 reads cell 1 after
/// thread 1's store to it, so that thread 1's earlier store to cell 0 is no conflict any more.
#[test]
fn accesses_carry_the_schedule_vector() {
    let threads: [&[Row]; 3] = [
        &[store(0, RELAXED, 1)],
        &[store(0, RELAXED, 2), store(1, RELAXED, 1)],
        &[load(1, RELAXED, 0), load(0, RELAXED, 0)],
    ];
    let states = |record| first_states(threads, record);
    assert_eq!(states(0), [4, 3, 1]);
    // 1: thread 0's end. 2: the store to cell 0. 3: the one to cell 1.
    assert_eq!(states(2), [0, 4, 1]);
    assert_eq!(states(3), [0, 4, 3]);
}

/// Two loads do not depend on each other; a failing RMW counts as a store.
#[test]
fn which_operations_depend() {
    let read = load(0, RELAXED, 0);
    let failing = compare(0, (RELAXED, RELAXED), 0, 7, 8);
    let count = |one: Row, two: Row| {
        let rows: [&[Row]; 2] = [&[one], &[two]];
        run(&table(&[0, 0], &rows), &settings(16, 8, 99)).counts()
    };
    assert_eq!(count(read, read), [0, 1, 0, 0]);
    // Thread 1 first at record 0 (opened 1), then thread 0 first at record 1 (opened 2).
    assert_eq!(count(failing, read), [0, 3, 2, 0]);
    assert_eq!(count(read, failing), [0, 3, 2, 0]);
    // Other cells, no conflict.
    assert_eq!(
        count(store(1, RELAXED, 1), store(0, RELAXED, 1)),
        [0, 1, 0, 0]
    );
    // Unsynchronised loads and exclusive changes are never scheduled.
    let apart = [exclusive(1, 0, 0, 1), unsync_load(1, 0)];
    let ran = run(&table(&[0, 0], &[&apart, &apart[..0]]), &settings(2, 8, 9));
    assert_eq!(ran.counts(), [0, 1, 0, 0]);
}

/// Threads without rows end the first time they run, with one scheduling each.
#[test]
fn threads_without_rows() {
    let ran = run(&table(&[0], &[&[], &[], &[], &[], &[]]), &settings(5, 1, 9));
    assert_eq!(ran.counts(), [0, 1, 0, 0]);
    assert_eq!(ran.report.rows, 0);
    let path = [
        schedule_record([0, 4, 1, 1, 1], 0, 1, 65535),
        schedule_record([0, 0, 4, 1, 1], 0, 255, 0),
        schedule_record([0, 0, 0, 4, 1], 0, 255, 1),
        schedule_record([0, 0, 0, 0, 4], 0, 255, 2),
        schedule_record([0, 0, 0, 0, 0], 0, 255, 3),
    ];
    assert_eq!(ran.last_path(), path.concat());
    let versions = ran.report.threads.map(|thread| thread.version);
    assert_eq!(versions, [2, 1, 1, 1, 1]);
    assert!(ran.report.threads.iter().all(|thread| thread.state == 4));
}
