//! The proved engine's campaign and the listing made with it, over the C function.

use campaign::answer::Answer;
use campaign::call::{Call, CallKind};
use campaign::engine::{Calls, Engine};
use campaign::fenced::Fenced;
use campaign::generate::{
    at_value_limit, campaign_call, damage, dense, full_length, grid, helpful, m1, m1_grid,
    normal_length, single_byte_changes, task, task_of, truncations, waves, wrong_state, Rng, Sizes,
    Task,
};
use campaign::harness::{campaigned, check_lines};
use campaign::meaning::check_meaning;
use campaign::proved::{self, PROVED};
use campaign::reference::table::Kind;
use campaign::tally::Tally;

const CALLS: Calls = Calls {
    read: proved::read,
    campaign: PROVED.campaign,
    ..Calls::NONE
};

const ENGINE: &dyn Engine = &CALLS;

#[test]
fn recorded_campaigns() {
    check_lines(ENGINE, CallKind::Campaign);
}

#[test]
fn recorded_listings() {
    check_lines(ENGINE, CallKind::Listing);
}

/// Campaigns with normal forms, memories and outputs of lengths around what they need.
fn check_sizes(tally: &mut Tally, rng: &mut Rng, task: &Task) {
    let normal = normal_length(&task.table);
    let plans = Sizes::of(&task.normal()).plans(rng);
    for length in [0, 1, normal - 1, normal, normal + 1 + rng.below(30)] {
        let (numbers, room) = *rng.pick(&plans);
        tally.check(&task.campaign(length, numbers, room));
    }
    for (numbers, room) in plans {
        tally.check(&task.campaign(normal + rng.below(2), numbers, room));
    }
}

/// Written tasks of all sizes, with many layers, with values at 10^12 and past it, and with moves that
/// help with what is wanted at layer 1 or nearly do.
fn written_tasks(seed: u64, count: usize) -> impl Iterator<Item = Task> {
    let mut rng = Rng::new(seed);
    (0..count).map(move |i| match i % 16 {
        0 => at_value_limit(&mut rng),
        1 => {
            let (variables, gates) = (2 + rng.below(14), 1 + rng.below(20));
            waves(&mut rng, Kind::Written, variables, gates)
        }
        2 => {
            let counts = [120, 16, 64].map(|limit| limit * rng.below(2));
            task_of(&mut rng, Kind::Written, counts)
        }
        3..=8 => {
            let task = task(&mut rng, Kind::Written);
            helpful(&mut rng, &task)
        }
        _ => task(&mut rng, Kind::Written),
    })
}

#[test]
fn memories_around_what_is_needed() {
    let mut rng = Rng::new(601);
    let mut tally = Tally::new(ENGINE, 602);
    let (mut plans, mut none) = (0, 0);
    for task in written_tasks(603, 1_200) {
        check_sizes(&mut tally, &mut rng, &task);
        let campaigned = campaigned(ENGINE, &task.table, &task.state);
        match check_meaning(&task.normal(), campaigned).map(|planned| planned.plan.answer) {
            None => {}
            Some(Answer::NoPlan) => none += 1,
            Some(Answer::Layer(_)) => plans += 1,
        }
    }
    tally.expect(25_000, &[0, 13, 14, 15]);
    tally.expect_zero_terms(8_000);
    tally.planning().expect_faults(34);
    let shares = [("the moves that the plan takes", 1_000)];
    tally.planning().expect(&shares);
    assert!(
        plans > 500 && none > 100,
        "{plans} plans, {none} times none"
    );
}

/// Every length of each memory of M1, with lengths around what the other two need; as a grid it
/// needs the same.
#[test]
fn memories_of_every_length() {
    let mut tally = Tally::new(ENGINE, 604);
    for task in [m1(), m1_grid()] {
        for normal in 0..88 {
            for numbers in [0, 7, 15, 16] {
                tally.check(&task.campaign(normal, numbers, 30));
            }
        }
        for normal in [84, 85, 86] {
            for numbers in 0..19 {
                for room in 0..33 {
                    tally.check(&task.campaign(normal, numbers, room));
                }
            }
        }
    }
    tally.expect(4_000, &[0, 13, 14]);
    tally.expect_zero_terms(2_000);
}

#[test]
fn damaged_tables_and_states() {
    let mut rng = Rng::new(605);
    let engine = Fenced(CALLS);
    let mut tally = Tally::new(&engine, 606);
    let Task { table, state } = m1();
    for table in single_byte_changes(&table).chain(truncations(&table)) {
        let state = state.clone();
        let (normal, numbers, room) = (80 + rng.below(20), rng.below(24), rng.below(40));
        tally.check(&Task { table, state }.campaign(normal, numbers, room));
    }
    for _ in 0..6_000 {
        let mut call = campaign_call(&mut rng);
        tally.check(&call);
        damage(&mut rng, &mut call);
        tally.check(&call);
    }
    tally.expect(28_000, &[0, 2, 3, 4, 5, 6, 7, 8, 9, 13, 14, 15, 16]);
    tally.expect_zero_terms(3_000);
}

#[test]
fn lengths_at_the_limits() {
    let mut rng = Rng::new(607);
    let mut tally = Tally::new(ENGINE, 608);
    for length in [31_999, 32_000, 32_001, 64_000, 64_001] {
        for kind in [Kind::Written, Kind::Normal] {
            for task in [
                full_length(&mut rng, kind, length),
                dense(&mut rng, kind, length),
                grid(&mut rng, length),
            ] {
                let needed = normal_length(&task.table);
                for normal in [0, needed - 1, needed, 64_000] {
                    tally.check(&task.campaign(normal, 9_000, 1_000));
                }
            }
        }
    }
    tally.expect(120, &[0, 1, 3, 13]);
    tally.expect_zero_terms(40);
}

fn check_listing(tally: &mut Tally, task: Task) {
    tally.check(&Call {
        table: task.table,
        state: task.state,
        ..CallKind::Listing.call()
    });
}

#[test]
fn listings() {
    let mut rng = Rng::new(609);
    let mut tally = Tally::new(ENGINE, 610);
    for task in written_tasks(611, 3_000) {
        let state = wrong_state(&mut rng, &task.state);
        let table = task.table.clone();
        check_listing(&mut tally, task);
        check_listing(&mut tally, Task { table, state });
    }
    for table in truncations(&m1().table) {
        let state = m1().state;
        check_listing(&mut tally, Task { table, state });
    }
    for gates in 1..30 {
        check_listing(&mut tally, waves(&mut rng, Kind::Written, 16, gates));
    }
    tally.expect(6_000, &[0, 2, 8, 9, 14, 15]);
    tally.expect_zero_terms(1_500);
}
