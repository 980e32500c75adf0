//! One real move.

use super::state::State;
use super::table::{Block, Change, Comparison, Condition, Effect, Term, NUMBER_LIMIT};

/// Whether all conditions of a block are true in a state.
pub fn holds(block: &Block, state: &State) -> bool {
    block.required().all(|p| state.propositions[p])
        && block.conditions().all(|c| condition_holds(c, state))
}

fn condition_holds(condition: &Condition, state: &State) -> bool {
    let value = sum(&condition.terms, state);
    match condition.comparison {
        Comparison::AtLeast => value >= condition.constant,
        Comparison::Above => value > condition.constant,
        Comparison::AtMost => value <= condition.constant,
        Comparison::Below => value < condition.constant,
        Comparison::Equal => value == condition.constant,
    }
}

/// The state after a move; None if a result is out of range.
pub fn result(block: &Block, before: &State) -> Option<State> {
    let mut after = before.clone();
    block.added().for_each(|p| after.propositions[p] = true);
    block.deleted().for_each(|p| after.propositions[p] = false);
    for effect in block.effects() {
        let value = changed(effect, before);
        if value.abs() > NUMBER_LIMIT {
            return None;
        }
        after.values[effect.variable] = value;
    }
    Some(after)
}

/// The new value of an effect's variable, all read from the state before.
fn changed(effect: &Effect, before: &State) -> i128 {
    let old = before.values[effect.variable];
    let value = sum(&effect.terms, before) + effect.constant;
    match effect.change {
        Change::Assign => value,
        Change::Increase => old + value,
        Change::Decrease => old - value,
    }
}

fn sum(terms: &[Term], state: &State) -> i128 {
    terms
        .iter()
        .map(|t| t.weight * state.values[t.variable])
        .sum()
}
