//! Helpful moves by hand, of tables in words: on the proved engine and on the reference, by `plan` and
//! by `campaign`.

use crate::common::words::{
    adds, at_least, at_most, becomes, deletes, falls, grows, needs, plus, plus_times, sum_at_least,
    task, Entry,
};
use campaign::answer::Answer;
use campaign::engine::{Engine, REFERENCE};
use campaign::generate::{m1, Task};
use campaign::harness::{campaigned, planned, Planned};
use campaign::meaning::check_meaning;
use campaign::proved::PROVED;

/// What both engines answer to both calls.
fn answered(task: &Task) -> Planned {
    let normal = task.normal();
    let engines: [&dyn Engine; 2] = [&REFERENCE, &PROVED];
    let plans = engines.map(|engine| planned(engine, &normal.table, &normal.state));
    let campaigns = engines.map(|engine| campaigned(engine, &task.table, &task.state));
    let [one, others @ ..] = plans.each_ref();
    assert!(
        others
            .into_iter()
            .chain(&campaigns)
            .all(|other| other == one),
        "{task}: {plans:?}, {campaigns:?}"
    );
    check_meaning(&normal, one.clone()).expect("an accepted task")
}

/// The helpful moves, and the moves of the records.
fn moves_of(task: &Task) -> (Vec<u64>, Vec<u64>) {
    let planned = answered(task);
    let taken = planned.records.iter().map(|(mv, _)| *mv);
    (planned.plan.helpful().collect(), taken.collect())
}

/// The helpful moves of a table in words.
fn helpful(propositions: &[u8], values: &[i32], moves: &[&[Entry]], goal: &[Entry]) -> Vec<u64> {
    moves_of(&task(propositions, values, moves, goal)).0
}

#[test]
fn m1_has_one_helpful_move() {
    assert_eq!(moves_of(&m1()), (vec![0], vec![0, 1, 2]));
}

/// The example of docs/DECISIONS.md 6.3: move 1 needs p1, which is not true at the start, and nothing wants p1.
#[test]
fn a_move_has_to_be_usable_in_layer_0() {
    let moves: [&[Entry]; 3] = [&[adds(0)], &[needs(1), adds(0)], &[adds(1)]];
    let example = task(&[0, 0], &[], &moves, &[needs(0)]);
    assert_eq!(moves_of(&example), (vec![0], vec![0]));
    assert_eq!(helpful(&[0, 1], &[], &moves, &[needs(0)]), [0, 1]);
}

#[test]
fn every_move_that_adds_what_is_wanted_helps() {
    let moves: [&[Entry]; 4] = [
        &[adds(0)],
        &[adds(1)],
        &[adds(1), adds(0)],
        &[deletes(1), adds(0)],
    ];
    let both = task(&[0, 0], &[], &moves, &[needs(0)]);
    assert_eq!(moves_of(&both), (vec![0, 2, 3], vec![0]));
    assert_eq!(helpful(&[0, 0], &[], &moves, &[needs(1)]), [1, 2]);
    assert_eq!(
        helpful(&[0, 0], &[], &moves, &[needs(0), needs(1)]),
        [0, 1, 2, 3]
    );
}

#[test]
fn a_proposition_of_layer_0_is_had_already() {
    let moves: [&[Entry]; 2] = [&[adds(0)], &[adds(1)]];
    let goal = [needs(0), needs(1)];
    assert_eq!(helpful(&[1, 0], &[], &moves, &goal), [1]);
    assert_eq!(helpful(&[0, 1], &[], &moves, &goal), [0]);
    assert_eq!(helpful(&[0, 0], &[], &moves, &goal), [0, 1]);
}

/// From 0 to 4 or more: what rises by 0 or falls does not help, and neither does 3 as a value. The
/// variable grows without bound, so its target is what the goal says.
#[test]
fn increases_have_to_be_above_0_and_values_at_the_target() {
    let moves: [&[Entry]; 8] = [
        &[grows(0, 0)],
        &[grows(0, -1)],
        &[grows(0, 1)],
        &[grows(0, 2)],
        &[falls(0, -5)],
        &[becomes(0, 3)],
        &[becomes(0, 4)],
        &[becomes(0, 5)],
    ];
    let all = task(&[], &[0], &moves, &[at_least(0, 4)]);
    assert_eq!(moves_of(&all), (vec![2, 3, 4, 6, 7], vec![2]));
    assert_eq!(helpful(&[], &[0], &moves, &[at_most(0, -1)]), [1]);
}

/// Without growth the target is the value of layer 1, the largest that a move sets.
#[test]
fn the_target_of_a_finite_variable_is_its_value_in_the_layer() {
    let moves: [&[Entry]; 4] = [
        &[becomes(0, 4)],
        &[becomes(0, 6)],
        &[becomes(0, 5)],
        &[becomes(0, 6), adds(0)],
    ];
    let finite = task(&[0], &[0], &moves, &[at_least(0, 4)]);
    assert_eq!(moves_of(&finite), (vec![1, 3], vec![1]));
}

/// The goal wants v0 >= 5, which 5 and 7 meet at the start, and p0.
#[test]
fn a_target_that_layer_0_reaches_needs_no_help() {
    let moves: [&[Entry]; 3] = [&[grows(0, 1)], &[becomes(0, 9)], &[adds(0)]];
    let goal = [at_least(0, 5), needs(0)];
    assert_eq!(helpful(&[0], &[7], &moves, &goal), [2]);
    assert_eq!(helpful(&[0], &[5], &moves, &goal), [2]);
    assert_eq!(helpful(&[0], &[4], &moves, &goal), [0, 1, 2]);
}

/// v1 grows by v0 or becomes v0 + 2, and v0 becomes 1 at the same time: in layer 0 it is still 0.
#[test]
fn effects_have_their_values_of_layer_0() {
    let moves: [&[Entry]; 4] = [
        &[becomes(0, 1)],
        &[plus(0, grows(1, 0))],
        &[plus(0, becomes(1, 2))],
        &[grows(1, 1)],
    ];
    assert_eq!(helpful(&[], &[0, 0], &moves, &[at_least(1, 3)]), [3]);
    assert_eq!(helpful(&[], &[0, 0], &moves, &[at_least(1, 2)]), [2, 3]);
    assert_eq!(helpful(&[], &[1, 0], &moves, &[at_least(1, 3)]), [1, 2, 3]);
}

/// p0 and p2 come in layer 1, and p1 in layer 2. The goal's p0 is handed down to layer 1, where move 1
/// wants p2 as well.
#[test]
fn what_is_handed_down_to_layer_1_is_wanted_there() {
    let moves: [&[Entry]; 6] = [
        &[adds(0)],
        &[needs(2), adds(1)],
        &[adds(2)],
        &[adds(0)],
        &[needs(2), adds(0)],
        &[needs(0), adds(2)],
    ];
    let deep = task(&[0, 0, 0], &[], &moves, &[needs(0), needs(1)]);
    assert_eq!(moves_of(&deep), (vec![0, 2, 3], vec![0, 2, 1]));
}

/// Both moves 1 and 2 add p2 in layer 1; the plan takes move 1, so p0 is wanted and p1 is not.
#[test]
fn only_what_the_plan_takes_has_wants() {
    let moves: [&[Entry]; 5] = [
        &[adds(1)],
        &[needs(0), adds(2)],
        &[needs(1), adds(2)],
        &[adds(0)],
        &[adds(0), adds(1)],
    ];
    let rivals = task(&[0, 0, 0], &[], &moves, &[needs(2)]);
    assert_eq!(moves_of(&rivals), (vec![3, 4], vec![3, 1]));
}

/// From layer 1 on v0 grows, so the goal's target is 4 there, below the 7 that v0 has in layer 1.
#[test]
fn a_target_may_be_below_the_value_of_layer_1() {
    let moves: [&[Entry]; 5] = [
        &[becomes(0, 5)],
        &[becomes(0, 7)],
        &[adds(0)],
        &[needs(0), grows(0, 1), adds(1)],
        &[becomes(0, 3)],
    ];
    let late = task(&[0, 0], &[0], &moves, &[at_least(0, 4), needs(1)]);
    assert_eq!(moves_of(&late), (vec![0, 1, 2], vec![0, 2, 3]));
}

/// v0 is wanted twice at layer 1: 2 by the goal, 6 by move 1. The larger one is the target.
#[test]
fn the_larger_target_counts() {
    let moves: [&[Entry]; 4] = [
        &[grows(0, 1)],
        &[at_least(0, 6), adds(0)],
        &[becomes(0, 5)],
        &[becomes(0, 6)],
    ];
    let larger = task(&[0], &[0], &moves, &[at_least(0, 2), needs(0)]);
    assert_eq!(moves_of(&larger), (vec![0, 3], vec![0, 1]));
    assert_eq!(
        helpful(&[0], &[6], &moves, &[at_least(0, 2), needs(0)]),
        [1]
    );
}

/// v0 + v1 >= 9 where both grow: the lower one has the target, 9 less the other's value at the start.
#[test]
fn the_lowest_variable_that_grows_has_the_target() {
    let moves: [&[Entry]; 5] = [
        &[grows(1, 1)],
        &[grows(0, 1)],
        &[becomes(0, 6)],
        &[becomes(0, 7)],
        &[becomes(1, 100)],
    ];
    let goal = [plus(0, plus(1, sum_at_least(9)))];
    assert_eq!(helpful(&[], &[0, 2], &moves, &goal), [1, 3]);
}

/// Move 0 is taken at layer 1 for v1 and wants v0 to be 1 there.
#[test]
fn what_an_effect_reads_is_wanted() {
    let moves: [&[Entry]; 4] = [
        &[plus(0, grows(1, 0))],
        &[becomes(0, 3)],
        &[grows(0, 1)],
        &[becomes(0, 1)],
    ];
    let reads = task(&[], &[0, 0], &moves, &[at_least(1, 8)]);
    assert_eq!(moves_of(&reads), (vec![1, 2, 3], vec![1, 0]));
}

/// Sums of 3,000,000,000 and of its negative, which change their sign in 32 bits.
#[test]
fn values_of_effects_may_be_large() {
    let sum = |weight, effect| (0..3).fold(effect, |sum, i| plus_times(weight, 2 - i, sum));
    let moves: [&[Entry]; 4] = [
        &[sum(-1_000, grows(3, 0))],
        &[sum(1_000, grows(3, 0))],
        &[sum(1_000, becomes(3, 0))],
        &[sum(-1_000, becomes(3, 0))],
    ];
    let values = [1_000_000, 1_000_000, 1_000_000, 0];
    let large = task(&[], &values, &moves, &[at_least(3, 5)]);
    assert_eq!(moves_of(&large), (vec![1, 2], vec![1]));
    let other = task(&[], &values, &moves, &[at_most(3, -5)]);
    assert_eq!(moves_of(&other), (vec![0, 3], vec![0]));
}

#[test]
fn one_effect_of_several_is_enough() {
    let several: &[Entry] = &[adds(1), becomes(0, 9), grows(1, 0), grows(2, 1), adds(2)];
    let moves = [several];
    assert_eq!(
        helpful(&[0, 0, 0], &[0, 0, 0], &moves, &[at_least(2, 3)]),
        [0]
    );
    assert_eq!(helpful(&[0, 0, 0], &[0, 0, 0], &moves, &[needs(2)]), [0]);
    let others: [&[Entry]; 2] = [several, &[adds(0)]];
    assert_eq!(helpful(&[0, 0, 0], &[0, 0, 0], &others, &[needs(0)]), [1]);
}

#[test]
fn the_set_has_a_bit_for_each_of_64_moves() {
    let adder: &[Entry] = &[adds(0)];
    let all = helpful(&[0], &[], &[adder; 64], &[needs(0)]);
    assert_eq!(all, (0..64).collect::<Vec<u64>>());
    let other: &[Entry] = &[adds(1)];
    for b in [0, 31, 32, 33, 63] {
        let mut moves = [other; 64];
        moves[b] = adder;
        assert_eq!(helpful(&[0, 0], &[], &moves, &[needs(0)]), [b as u64]);
    }
}

#[test]
fn nothing_helps_at_answer_layer_0() {
    let moves: [&[Entry]; 3] = [&[adds(0)], &[grows(0, 1)], &[becomes(0, 9)]];
    let met = task(&[1], &[5], &moves, &[needs(0), at_least(0, 5)]);
    assert_eq!(answered(&met).plan.answer, Answer::Layer(0));
    assert_eq!(moves_of(&met), (vec![], vec![]));
    assert_eq!(moves_of(&task(&[0], &[0], &moves, &[])), (vec![], vec![]));
}

#[test]
fn nothing_helps_without_a_plan() {
    let moves: [&[Entry]; 3] = [&[adds(0)], &[grows(0, 1)], &[needs(1), adds(1)]];
    let none = task(&[0, 0], &[0], &moves, &[needs(0), at_least(0, 5), needs(1)]);
    assert_eq!(answered(&none).plan.answer, Answer::NoPlan);
    assert_eq!(moves_of(&none), (vec![], vec![]));
}
