//! The proved engine's goal part that blocks, over its C function.

mod cases;

use crate::common::tasks;
use campaign::call::CallKind;
use campaign::engine::{Calls, Engine};
use campaign::fenced::Fenced;
use campaign::generate::{
    blocked, blocking_call, damage, long_goal, m1, single_byte_changes, task_of, truncations,
    wrong_state, Rng, Sizes, Task,
};
use campaign::harness::check_lines;
use campaign::proved;
use campaign::reference::table::Kind;
use campaign::tally::Tally;

const CALLS: Calls = Calls {
    blocking: proved::blocking,
    ..Calls::NONE
};

const ENGINE: &dyn Engine = &CALLS;

#[test]
fn recorded_answers() {
    check_lines(ENGINE, CallKind::Blocking);
}

/// With memories of lengths around the end of each layer.
fn check_memories(tally: &mut Tally, rng: &mut Rng, task: &Task) {
    for numbers in Sizes::of(task).memories(rng) {
        tally.check(&task.blocking(numbers));
    }
}

/// With just enough memory, with more, and with less.
fn check_some_memories(tally: &mut Tally, rng: &mut Rng, task: &Task) {
    let enough = Sizes::of(task).memory();
    let less = match rng.chance(1, 2) {
        true => enough.saturating_sub(1),
        false => rng.below(enough + 1),
    };
    for numbers in [enough, enough + 1 + rng.below(9), less] {
        tally.check(&task.blocking(numbers));
    }
}

/// Tasks of all sizes, two of three with many variables.
fn some_tasks(seed: u64, count: usize) -> impl Iterator<Item = Task> {
    let mut rng = Rng::new(seed);
    let mut others = tasks::normal_tasks(seed + 1, count);
    (0..count).map(move |i| match i % 3 {
        0 => others.next().expect("as many tasks"),
        _ => {
            let counts = [rng.below(9), 8 + 2 * rng.below(13), 1 + rng.below(12)];
            task_of(&mut rng, Kind::Normal, counts)
        }
    })
}

/// Several goals of each table, most of them out of reach.
#[test]
fn goals_out_of_reach() {
    let mut rng = Rng::new(701);
    let mut tally = Tally::new(ENGINE, 702);
    for task in some_tasks(703, 4_400) {
        check_some_memories(&mut tally, &mut rng, &task);
        for _ in 0..7 {
            let task = blocked(&mut rng, &task);
            check_some_memories(&mut tally, &mut rng, &task);
        }
    }
    tally.expect(100_000, &[0, 14, 15]);
    let shares = tally.blocking();
    shares.expect_terms(400);
    shares.expect(&[
        ("blocks", 35_000),
        ("nothing", 15_000),
        ("14 at a later layer", 12_000),
        ("just enough memory", 15_000),
        ("layers", 25_000),
        ("a proposition", 4_000),
        ("both kinds of part", 18_000),
        ("behind a met part", 18_000),
        ("before a met part", 25_000),
        ("before an unmet part", 20_000),
        ("behind a part that layer 0 does not meet", 9_000),
        ("behind a part that only the last layer meets", 3_000),
        ("behind an unbounded sum", 7_000),
        ("behind a sum that would wrap", 4_000),
    ]);
}

#[test]
fn memories_of_lengths_around_each_layer() {
    let mut rng = Rng::new(704);
    let mut tally = Tally::new(ENGINE, 705);
    for task in some_tasks(706, 1_500) {
        let task = blocked(&mut rng, &task);
        check_memories(&mut tally, &mut rng, &task);
    }
    tally.expect(15_000, &[0, 14]);
    let shares = tally.blocking();
    shares.expect(&[("blocks", 3_000), ("14 at a later layer", 5_000)]);
}

#[test]
fn tasks_at_the_edges() {
    let mut rng = Rng::new(707);
    let mut tally = Tally::new(ENGINE, 708);
    let mut tasks = tasks::edge_tasks(&mut rng);
    let others: Vec<Task> = tasks.iter().map(|task| blocked(&mut rng, task)).collect();
    tasks.extend(others);
    for task in tasks {
        check_some_memories(&mut tally, &mut rng, &task);
    }
    tally.expect(3_000, &[0, 14, 15]);
    tally.blocking().expect(&[("blocks", 500), ("15", 300)]);
}

#[test]
fn hundreds_of_layers() {
    let mut rng = Rng::new(709);
    let mut tally = Tally::new(ENGINE, 710);
    for task in tasks::wave_tasks(&mut rng) {
        check_some_memories(&mut tally, &mut rng, &task);
        let task = blocked(&mut rng, &task);
        check_some_memories(&mut tally, &mut rng, &task);
    }
    tally.expect(80, &[0, 14]);
    tally.blocking().expect(&[("blocks", 25), ("nothing", 10)]);
}

#[test]
fn damaged_tables_and_states() {
    let mut rng = Rng::new(711);
    let engine = Fenced(CALLS);
    let mut tally = Tally::new(&engine, 712);
    let m1 = m1().normal();
    for table in single_byte_changes(&m1.table).chain(truncations(&m1.table)) {
        let state = m1.state.clone();
        let numbers = rng.below(24);
        tally.check(&Task { table, state }.blocking(numbers));
    }
    for task in tasks::spoilt_tasks(&mut rng, 4_000) {
        tally.check(&task.blocking(40));
    }
    for task in tasks::normal_tasks(713, 1_000) {
        let state = wrong_state(&mut rng, &task.state);
        tally.check(&Task { state, ..task }.blocking(200));
    }
    for _ in 0..4_000 {
        let mut call = blocking_call(&mut rng);
        tally.check(&call);
        damage(&mut rng, &mut call);
        tally.check(&call);
    }
    tally.expect(30_000, &[0, 2, 3, 4, 5, 6, 7, 8, 9, 14, 15, 16]);
    tally.blocking().expect(&[("blocks", 800)]);
}

#[test]
fn lengths_at_the_limits() {
    let mut rng = Rng::new(714);
    let mut tally = Tally::new(ENGINE, 715);
    for task in tasks::long_tasks(&mut rng) {
        check_some_memories(&mut tally, &mut rng, &task);
    }
    for length in [63_999, 64_000, 64_001] {
        let task = long_goal(&mut rng, length);
        assert_eq!(task.table.len(), length);
        check_some_memories(&mut tally, &mut rng, &task);
    }
    tally.expect(50, &[0, 1, 3, 14]);
    let shares = tally.blocking();
    shares.expect(&[("blocks", 4), ("before an unmet part", 4)]);
    shares.expect(&[("behind a part that layer 0 does not meet", 4)]);
    shares.expect(&[("behind a sum that would wrap", 4)]);
}
