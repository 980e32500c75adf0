//! The proved engine's decide, over its C function.

use crate::common::tasks;
use campaign::answer::{Answer, Reason};
use campaign::call::CallKind;
use campaign::engine::{Calls, Engine};
use campaign::generate::{m1, single_byte_changes, truncations, wrong_state, Rng, Sizes, Task};
use campaign::guarded::Guarded;
use campaign::harness::check_lines;
use campaign::proved;
use campaign::reference::semantics::saturate;
use campaign::tally::Tally;

const ENGINE: &dyn Engine = &Calls {
    decide: proved::decide,
    ..Calls::NONE
};

#[test]
fn recorded_decisions() {
    check_lines(ENGINE, CallKind::Decide);
}

/// Decides with memories of lengths around the end of each layer.
fn check_memories(tally: &mut Tally, rng: &mut Rng, task: &Task) {
    for numbers in Sizes::of(task).memories(rng) {
        tally.check(&task.decide(numbers));
    }
}

/// "No plan" exactly where the goal fails at a bound of all that moves can reach; then the
/// last layer is that bound. Answers the number of layers.
fn check_meaning(task: &Task) -> u64 {
    let mut memory = Guarded::filled(Sizes::of(task).memory(), |i| i as i64);
    let answer = ENGINE.decide(&task.table, &task.state, memory.lend());
    memory.check("memory").expect("all canaries are whole");
    let bound = saturate(&task.table, &task.state).expect("the task is accepted");
    match answer {
        Ok(decision) => {
            assert_eq!(decision.answer == Answer::NoPlan, !bound.goal, "{task}");
            let last = &memory.lent()[memory.lent().len() - bound.values.len()..];
            let value = |v: &i64| (*v != i64::MAX).then_some(i128::from(*v));
            let values: Vec<Option<i128>> = last.iter().map(value).collect();
            assert!(bound.goal || values == bound.values, "{task}");
            decision.layers
        }
        Err(refusal) => {
            assert_eq!(refusal.reason, Reason::ValueRange, "{task}");
            refusal.place
        }
    }
}

#[test]
fn memories_of_lengths_around_each_layer() {
    let mut rng = Rng::new(301);
    let mut tally = Tally::new(ENGINE, 302);
    for task in tasks::normal_tasks(303, 11_000) {
        check_memories(&mut tally, &mut rng, &task);
        check_meaning(&task);
    }
    tally.expect(100_000, &[0, 14]);
}

#[test]
fn memories_of_every_length() {
    let mut rng = Rng::new(304);
    let mut tally = Tally::new(ENGINE, 305);
    let short = |task: &Task| Sizes::of(task).memory() < 100;
    for task in tasks::normal_tasks(306, 1_500).filter(short) {
        for numbers in 0..Sizes::of(&task).memory() + 3 {
            tally.check(&task.decide(numbers));
        }
        let state = wrong_state(&mut rng, &task.state);
        tally.check(&Task { state, ..task }.decide(100));
    }
    tally.expect(30_000, &[0, 8, 9, 14]);
}

#[test]
fn tasks_at_the_edges() {
    let mut rng = Rng::new(307);
    let mut tally = Tally::new(ENGINE, 308);
    for task in tasks::edge_tasks(&mut rng) {
        check_memories(&mut tally, &mut rng, &task);
        check_meaning(&task);
    }
    tally.expect(15_000, &[0, 14, 15]);
}

#[test]
fn hundreds_of_layers() {
    let mut rng = Rng::new(309);
    let mut tally = Tally::new(ENGINE, 310);
    let mut most = 0;
    for task in tasks::wave_tasks(&mut rng) {
        check_memories(&mut tally, &mut rng, &task);
        most = most.max(check_meaning(&task));
    }
    tally.expect(400, &[0, 14]);
    assert_eq!(most, 32 * 63);
}

#[test]
fn damaged_tables() {
    let mut rng = Rng::new(313);
    let mut tally = Tally::new(ENGINE, 314);
    let Task { table, state } = m1().normal();
    for table in single_byte_changes(&table).chain(truncations(&table)) {
        let state = state.clone();
        let numbers = rng.below(24);
        tally.check(&Task { table, state }.decide(numbers));
    }
    for task in tasks::spoilt_tasks(&mut rng, 8_000) {
        tally.check(&task.decide(40));
    }
    tally.expect(25_000, &[0, 2, 3, 4, 5, 6, 7, 8, 14, 16]);
}

#[test]
fn lengths_at_the_limits() {
    let mut rng = Rng::new(315);
    let mut tally = Tally::new(ENGINE, 316);
    for task in tasks::long_tasks(&mut rng) {
        check_memories(&mut tally, &mut rng, &task);
    }
    tally.expect(100, &[0, 1, 3, 14]);
}
