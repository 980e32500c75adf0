//! The proved engine's plan, over its C function.

mod before;
mod helpful;

use crate::common::tasks;
use campaign::answer::Answer;
use campaign::call::CallKind;
use campaign::engine::{Calls, Engine};
use campaign::generate::{
    damage, helpful, m1, many_records, plan_call, single_byte_changes, truncations, wrong_state,
    Rng, Sizes, Task,
};
use campaign::harness::{check_lines, planned};
use campaign::meaning::{check_meaning, solves};
use campaign::proved;
use campaign::tally::{Shares, Tally};

const ENGINE: &dyn Engine = &Calls {
    read: proved::read,
    plan: proved::plan,
    ..Calls::NONE
};

#[test]
fn recorded_plans() {
    check_lines(ENGINE, CallKind::Plan);
}

/// Plans with memories of lengths around the end of each layer, and with outputs of lengths
/// around those of the records.
fn check_sizes(tally: &mut Tally, rng: &mut Rng, task: &Task) {
    for (numbers, room) in Sizes::of(task).plans(rng) {
        tally.check(&task.plan(numbers, room));
    }
}

#[test]
fn memories_and_outputs_around_what_is_needed() {
    let mut rng = Rng::new(401);
    let mut tally = Tally::new(ENGINE, 402);
    let (mut plans, mut none, mut needed_counts) = (0, 0, 0);
    let tasks = tasks::normal_tasks(403, 2_800).chain(tasks::helpful_tasks(408, 3_600));
    for task in tasks {
        check_sizes(&mut tally, &mut rng, &task);
        let Some(planned) = check_meaning(&task, planned(ENGINE, &task.table, &task.state)) else {
            continue;
        };
        match planned.plan.answer {
            Answer::NoPlan => none += 1,
            Answer::Layer(0) => assert!(planned.records.is_empty(), "{task}"),
            Answer::Layer(_) => {
                plans += 1;
                let once: Vec<_> = planned.records.iter().map(|(mv, _)| (*mv, 1)).collect();
                needed_counts += usize::from(!solves(&task, &once));
            }
        }
    }
    tally.expect(100_000, &[0, 13, 14]);
    expect_shares(tally.planning());
    let found = [plans, none, needed_counts];
    assert!(found.iter().all(|count| *count > 500), "{found:?}");
}

/// Answers, and each fault in the set, by the calls that show them: about 70 % of what is found.
fn expect_shares(shares: &Shares) {
    shares.expect_faults(420);
    shares.expect(&[
        ("no plan", 4_600),
        ("answer layer 0", 6_000),
        ("answer layer 1", 6_500),
        ("a later answer layer", 8_100),
        ("the moves that the plan takes", 6_700),
        ("the set has 32 bits", 2_600),
        ("a move need not be usable", 9_700),
        ("a move may be usable in a later layer", 4_500),
        ("a proposition that layer 0 has counts", 1_700),
        ("a target that layer 0 reaches counts", 2_100),
        ("a target that layer 0 just reaches counts", 750),
        ("propositions only", 9_800),
        ("targets only", 7_900),
        ("effects have their values of layer 1", 2_900),
        ("effects have values of 32 bits", 620),
        ("+= 0 reaches a target", 950),
        ("every += reaches a target", 3_500),
        ("+= has to give as much as the target", 4_500),
        (":= has to be above 0 only", 3_100),
        (":= has to exceed its target", 4_000),
        ("the wants are the goal's", 6_400),
        ("what is handed down to layer 1 is not wanted there", 3_000),
        ("a target is the value of layer 1", 420),
        ("whatever a move brings counts", 7_100),
        ("only the first effect of a move counts", 5_800),
        ("only the first addition of a move counts", 960),
        ("a set at answer layer 0", 1_500),
    ]);
}

#[test]
fn tasks_at_the_edges() {
    let mut rng = Rng::new(404);
    let mut tally = Tally::new(ENGINE, 405);
    let mut counts = Vec::new();
    for (i, task) in tasks::edge_tasks(&mut rng).into_iter().enumerate() {
        let task = match i % 2 {
            0 => task,
            _ => helpful(&mut rng, &task),
        };
        check_sizes(&mut tally, &mut rng, &task);
        let planned = check_meaning(&task, planned(ENGINE, &task.table, &task.state));
        counts.extend(planned.iter().flat_map(|p| &p.records).map(|(_, c)| *c));
    }
    tally.expect(15_000, &[0, 13, 14, 15]);
    let shares = tally.planning();
    shares.expect(&[("a later answer layer", 740), ("the set has 32 bits", 78)]);
    shares.expect(&[("the moves that the plan takes", 220)]);
    let large = counts.iter().filter(|count| **count > 10_000_000_000);
    assert!(large.count() > 20, "large counts are needed");
}

#[test]
fn hundreds_of_layers() {
    let mut rng = Rng::new(406);
    let mut tally = Tally::new(ENGINE, 407);
    let mut most = 0;
    for task in tasks::wave_tasks(&mut rng) {
        check_sizes(&mut tally, &mut rng, &task);
        let planned = check_meaning(&task, planned(ENGINE, &task.table, &task.state))
            .expect("all values are small");
        most = most.max(planned.records.len());
    }
    tally.expect(400, &[0, 13, 14]);
    assert!(most > 1_000, "{most} records");
}

/// The engine keeps up to 64 records while it counts them, and goes down the layers again for more.
#[test]
fn records_around_those_that_are_kept() {
    let mut rng = Rng::new(414);
    let mut tally = Tally::new(ENGINE, 415);
    for (adders, twice) in [(61, 1), (62, 1), (63, 1), (62, 2)] {
        let task = many_records(adders, twice);
        check_sizes(&mut tally, &mut rng, &task);
        let planned = check_meaning(&task, planned(ENGINE, &task.table, &task.state))
            .expect("all values are small");
        assert_eq!(planned.records.len(), adders + 2 * twice);
    }
    tally.expect(40, &[0, 13, 14]);
}

#[test]
fn damaged_tables_and_states() {
    let mut rng = Rng::new(409);
    let mut tally = Tally::new(ENGINE, 410);
    let Task { table, state } = m1().normal();
    for table in single_byte_changes(&table).chain(truncations(&table)) {
        let state = state.clone();
        let (numbers, room) = (rng.below(24), rng.below(40));
        tally.check(&Task { table, state }.plan(numbers, room));
    }
    for task in tasks::spoilt_tasks(&mut rng, 3_000) {
        tally.check(&task.plan(40, 40));
    }
    for _ in 0..1_500 {
        let mut call = plan_call(&mut rng);
        tally.check(&call);
        damage(&mut rng, &mut call);
        tally.check(&call);
    }
    for task in tasks::normal_tasks(411, 2_000) {
        let state = wrong_state(&mut rng, &task.state);
        tally.check(&Task { state, ..task }.plan(200, 100));
    }
    tally.expect(20_000, &[0, 2, 3, 4, 5, 6, 7, 8, 9, 13, 14, 16]);
    tally
        .planning()
        .expect(&[("the moves that the plan takes", 110)]);
}

#[test]
fn lengths_at_the_limits() {
    let mut rng = Rng::new(412);
    let mut tally = Tally::new(ENGINE, 413);
    for task in tasks::long_tasks(&mut rng) {
        check_sizes(&mut tally, &mut rng, &task);
    }
    tally.expect(100, &[0, 1, 3, 13, 14]);
}
