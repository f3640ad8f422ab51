//! The seeded generator: a case is a function of a seed and an index alone.

use crate::format::Case;
use crate::random::Random;
use crate::recipes::Recipe;
use crate::table::{critical, explore_state, skip_branch, Program};
use crate::{claims, damage, edit, recipes};
use oracle::limits::{MAX_BRANCHES, MAX_OPERATIONS};
use terms::Settings;

/// The case of this seed and index, the same on every machine.
pub fn case(seed: u64, index: u64) -> Case {
    // Those with plain cells are drawn apart: the others are what they were before there were any.
    let mut apart = Random::new(seed ^ 0x70_6c61_696e, index);
    let plain = apart.chance(1, 4);
    let r = &mut if plain { apart } else { Random::new(seed, index) };
    let (program, settings) = match r.below(1_500) {
        _ if plain => edited(r, recipes::plain_program),
        0 => (recipes::ping_pong(r), far_settings(r)),
        1..=120 => edited(r, recipes::left_alone),
        _ => edited(r, recipes::program),
    };
    let mut case = Case {
        name: format!("g{seed}.{index}"),
        settings,
        path: 16 * settings.branches as usize,
        trace: 16 * settings.operations as usize,
        list: r.chance(1, 3).then_some(5),
        table: program.table(),
        condition: Vec::new(),
    };
    if r.chance(1, 6) {
        damage::spoil(r, &mut case, &program);
        // Twice spoilt, the order of the checks shows.
        if r.chance(1, 8) && case.table == program.table() {
            damage::spoil(r, &mut case, &program);
        }
    }
    // Drawn apart too: where none is put in, a case is what it was before they were refused.
    let mut apart = Random::new(seed ^ 0x6f_776e, index);
    if apart.chance(1, 32) {
        damage::jump_to_itself(&mut apart, &mut case, &program);
    }
    // Drawn last: without its condition a case is what it was before there were any.
    case.condition = claims::draw(r, &program);
    case
}

/// A program by one of the recipes, with a few changes.
pub fn program(r: &mut Random) -> Program {
    let recipe = if r.chance(1, 3) { recipes::plain_program } else { recipes::program };
    edited(r, recipe).0
}

/// A program of the recipe with a few changes, and settings for it.
fn edited(r: &mut Random, recipe: Recipe) -> (Program, Settings) {
    let mut program = recipe(r);
    for _ in 0..r.pick(&[0, 0, 0, 1, 1, 2, 3]) {
        edit::once(r, &mut program);
    }
    let settings = settings(r);
    if !settings.exploring {
        switch_on(r, &mut program);
    }
    (program, settings)
}

/// Limits far enough for more preemptions than a byte counts, or nearly.
fn far_settings(r: &mut Random) -> Settings {
    Settings {
        branches: r.pick(&[MAX_BRANCHES, 1_024, 800, 500]),
        operations: r.pick(&[MAX_OPERATIONS, MAX_OPERATIONS, 2_000, 500]),
        executions: r.between(250, 400),
        bound: r.pick(&[None, None, Some(255), Some(254)]),
        exploring: true,
    }
}

/// Limits that most runs stay within and a fair part meets. Large ones are rare: they cost time,
/// and what they show is seen with small ones.
fn settings(r: &mut Random) -> Settings {
    let branches = match r.below(16) {
        0 => r.between(1, 6),
        1 => r.between(7, 20),
        2 => r.between(65, 200),
        _ => r.between(24, 64),
    };
    let operations = match r.below(16) {
        0 => r.between(1, 6),
        1 => r.between(7, 16),
        2 => r.between(65, 160),
        _ => r.between(24, 64),
    };
    let executions = match r.below(16) {
        0 => 1,
        1..=3 => r.between(2, 10),
        4..=10 => r.between(11, 80),
        11..=14 => r.between(81, 200),
        _ => r.between(201, 600),
    };
    let bound = match r.below(20) {
        0..=9 => None,
        10..=18 => Some(r.below(4) as u8),
        _ => Some(r.between(4, 255) as u8),
    };
    Settings { branches, operations, executions, bound, exploring: !r.chance(1, 8) }
}

/// Where exploring is off at the start, a program without rows 13 to 15 has one execution only. So
/// most get such rows.
fn switch_on(r: &mut Random, program: &mut Program) {
    for row in [explore_state(), critical(), explore_state(), skip_branch()] {
        if r.chance(1, 4) {
            break;
        }
        let thread = r.position(program.threads.len());
        edit::insert_somewhere(r, program, thread, row);
    }
}
