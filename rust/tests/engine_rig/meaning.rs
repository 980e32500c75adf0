//! What the rig's campaigns mean: demand 3 for every table that 17 does not refuse, with the rig's
//! numbers as room for the layers.

use super::CALLS;
use campaign::answer::{Answer, Reason};
use campaign::generate::{deep, near_ceiling, Rng, Sizes, Task};
use campaign::harness::campaigned;
use campaign::meaning::check_meaning;
use campaign::reference::table::Kind;
use campaign::reference::RIG;

/// Written tasks around the rig's limits, some with many layers.
fn tasks(seed: u64, count: usize) -> impl Iterator<Item = Task> {
    let mut rng = Rng::new(seed);
    (0..count).map(move |i| match i % 16 {
        0 => deep(&mut rng, Kind::Written),
        _ => near_ceiling(&mut rng, Kind::Written),
    })
}

#[test]
fn plans_solve_and_no_plan_means_none() {
    let engine = CALLS.on_rig();
    let (mut plans, mut none, mut beyond, mut short) = (0, 0, 0, 0);
    for task in tasks(841, 3_000) {
        let answer = campaigned(&engine, &task.table, &task.state);
        match answer.as_ref().map_err(|refusal| refusal.reason) {
            Err(Reason::BeyondRig) => beyond += 1,
            Err(Reason::MemoryShort) => {
                let needed = Sizes::of(&task.normal()).memory();
                assert!(needed > RIG.numbers, "{needed}: {task}");
                short += 1;
            }
            _ => match check_meaning(&task.normal(), answer).map(|planned| planned.plan.answer) {
                None => {}
                Some(Answer::NoPlan) => none += 1,
                Some(Answer::Layer(_)) => plans += 1,
            },
        }
    }
    println!("{plans} plans, {none} times none, {beyond} beyond, {short} with too few numbers");
    assert!(plans > 800, "{plans} plans only");
    assert!(none > 100, "{none} times none only");
    assert!(beyond > 1_000, "{beyond} beyond only");
    assert!(short > 30, "{short} with too few numbers only");
}
