//! Long executions: loops, spins, and limits met.

use super::{timed, Timed};
use cases::table::*;

pub(super) fn all() -> Vec<Timed> {
    vec![
        timed("spin", "a flag awaited by loads and yields", spin())
            .limits(256, 256, 1_000)
            .runs(1_000),
        timed("count-alone", "a loop of 500 additions, one execution", count(1, 500))
            .limits(1_024, 4_096, 1)
            .runs(100),
        timed("count-together", "two threads of 40 additions each", count(2, 40))
            .limits(512, 512, 1_000),
        timed("jumps", "4,096 jumps: a row and its entry, nothing else", jumps())
            .limits(1, 4_096, 1)
            .runs(250),
        timed("swaps", "two threads that swap: a switch at every row", swaps())
            .limits(1_024, 4_096, 1_000)
            .runs(3),
        timed("load-loop", "512 loads until the path is full", load_loop())
            .limits(1_024, 4_096, 1)
            .runs(200),
        timed("wakes", "spurious wakes: a tree of 4,096 leaves", wakes())
            .limits(64, 64, 4_096)
            .runs(10),
        timed("change-loop", "a loop of exclusive changes, no scheduling", change_loop(false))
            .limits(64, 4_096, 1)
            .runs(200),
        timed("fence-loop", "the same with a SeqCst fence each time round", change_loop(true))
            .limits(64, 4_096, 1)
            .runs(100),
        timed("wait-for-all", "three workers, and a waiter that loads and yields", wait_for_all())
            .limits(1_024, 2_048, 6_000),
    ]
}

fn spin() -> Program {
    let mut setter: Vec<Row> = (1..9).map(|value| store(0, RELAXED, value)).collect();
    setter.push(store(1, RELEASE, 1));
    let waiter = [load(1, ACQUIRE, 0), jump_if(0, 1, 4), yields(), jump(0), load(0, RELAXED, 1)];
    Program::new(&[0, 0]).thread(&waiter).thread(&setter)
}

/// Threads that add 1 so many times; each counts its rounds in a cell of its own.
fn count(threads: u8, rounds: u64) -> Program {
    let mut program = Program::new(&vec![0; 1 + usize::from(threads)]);
    for own in 1..=threads {
        let rows =
            [rmw(0, ACQ_REL, ADD, 1, 1), exclusive(own, ADD, 0, 1), jump_if_not(0, rounds - 1, 0)];
        program = program.thread(&rows);
    }
    program
}

fn jumps() -> Program {
    Program::new(&[0]).thread(&[jump_if(0, 1, 0), jump_if_not(0, 1, 0)])
}

/// Each goes on until it reads its own number back.
fn swaps() -> Program {
    let thread = |own: u64| [rmw(0, ACQ_REL, SWAP, 0, own), jump_if_not(0, own, 0), skip_branch()];
    Program::new(&[0]).thread(&thread(1)).thread(&thread(2))
}

fn load_loop() -> Program {
    Program::new(&[0]).thread(&[load(0, ACQUIRE, 0), jump(0)])
}

fn wakes() -> Program {
    Program::new(&[0]).thread(&[spurious(0); 12])
}

/// A thread alone that counts by exclusive changes.
fn change_loop(fenced: bool) -> Program {
    let mut rows = vec![exclusive(0, ADD, 0, 1)];
    if fenced {
        rows.push(fence(SEQ_CST));
    }
    rows.push(jump_if_not(0, 1_200, 0));
    Program::new(&[0, 0, 0, 0]).thread(&rows)
}

fn wait_for_all() -> Program {
    let waiter = [load(0, ACQUIRE, 0), jump_if(0, 9, 4), yields(), jump(0), unsync_load(0, 1)];
    let worker = [
        rmw(0, RELEASE, ADD, 0, 1),
        rmw(0, RELEASE, ADD, 0, 1),
        yields(),
        rmw(0, RELEASE, ADD, 0, 1),
    ];
    Program::new(&[0]).thread(&waiter).thread(&worker).thread(&worker).thread(&worker)
}
