//! Faults in when and how the goal is tested.

use super::impostor;
use super::rules::{Rules, RULES};
use crate::answer::Checked;
use crate::impostors::Impostor;
use crate::reference::check;
use crate::reference::table::{Block, Item};
use crate::reference::State;
use crate::schedule::{allows, is_met};

pub const GOALS: [Impostor; 16] = [
    ruled!("the goal is not tested", meets: |_, _| true),
    ruled!("the goal is met on the way", meets: |goal, states| {
        states.iter().any(|state| allows(goal, state))
    }),
    ruled!("the goal is met all the way", meets: |goal, states| {
        states.iter().all(|state| allows(goal, state))
    }),
    ruled!("the goal is met at the start", meets: |goal, states| allows(goal, &states[0])),
    ruled!("the goal is met before the last entry", meets: |goal, states| {
        allows(goal, &states[states.len().saturating_sub(2)])
    }),
    ruled!("the goal's propositions only are tested", meets: |goal, states| {
        ends(goal, states, |item| matches!(item, Item::Require(_)))
    }),
    ruled!("the goal's sums only are tested", meets: |goal, states| {
        ends(goal, states, |item| matches!(item, Item::Condition(_)))
    }),
    ruled!("the goal's first part only is tested", meets: |goal, states| {
        let end = &states[states.len() - 1];
        goal.items.first().is_none_or(|part| is_met(part, end))
    }),
    ruled!("the goal's last part only is tested", meets: |goal, states| {
        let end = &states[states.len() - 1];
        goal.items.last().is_none_or(|part| is_met(part, end))
    }),
    ruled!("one part of the goal is enough", meets: |goal, states| {
        let end = &states[states.len() - 1];
        goal.items.is_empty() || goal.items.iter().any(|part| is_met(part, end))
    }),
    ruled!("an empty goal is not met", meets: |goal, states| {
        !goal.items.is_empty() && (RULES.meets)(goal, states)
    }),
    ruled!("an empty list does not meet the goal", meets: |goal, states| {
        states.len() > 1 && (RULES.meets)(goal, states)
    }),
    ruled!("an empty list meets every goal", meets: |goal, states| {
        states.len() == 1 || (RULES.meets)(goal, states)
    }),
    impostor(
        "the list ends where the goal is met",
        |table, state, list, out| {
            let yes = |entries: &usize| {
                let answer = check(table, state, &list[..*entries], &mut out.to_vec());
                matches!(answer, Ok(Checked::Yes { .. }))
            };
            // Among the first entries only, for the sake of time.
            let entries = (0..list.len().min(20)).find(yes);
            check(table, state, &list[..entries.unwrap_or(list.len())], out)
        },
    ),
    impostor(
        "a goal met at the start needs no list",
        |table, state, list, out| match check(table, state, &[], &mut out.to_vec())? {
            Checked::Yes { .. } => check(table, state, &[], out),
            _ => check(table, state, list, out),
        },
    ),
    impostor(
        "an index is told as a goal not met",
        |table, state, list, out| {
            check(table, state, list, out).map(|answer| match answer {
                Checked::Fails { .. } => Checked::GoalNotMet,
                answer => answer,
            })
        },
    ),
];

/// Whether the end meets the chosen parts of the goal.
fn ends(goal: &Block, states: &[State], chosen: fn(&Item) -> bool) -> bool {
    let end = &states[states.len() - 1];
    let mut parts = goal.items.iter().filter(|part| chosen(part));
    parts.all(|part| is_met(part, end))
}
