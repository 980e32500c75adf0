//! A list of moves of a written table, run entry by entry without the reference.

use crate::answer::Fault;
use crate::reference::table::{
    Block, Change, Comparison, Condition, Effect, Item, Table, Term, NUMBER_LIMIT,
};
use crate::reference::State;

/// Values beyond this stay there, in runs that leave the range.
const FAR: i128 = 1_000_000_000_000_000_000_000_000;

/// The state after one entry.
pub fn entry(table: &Table, state: &State, mv: u8) -> Result<State, Fault> {
    let block = table.moves.get(usize::from(mv)).ok_or(Fault::Missing)?;
    if !allows(block, state) {
        return Err(Fault::NotAllowed);
    }
    let after = after(block, state);
    match in_range(&after) {
        true => Ok(after),
        false => Err(Fault::OutOfRange),
    }
}

/// Whether all conditions of a move or of the goal are true.
pub fn allows(block: &Block, state: &State) -> bool {
    block.items.iter().all(|item| is_met(item, state))
}

/// Whether an item is no condition or a true one.
pub fn is_met(item: &Item, state: &State) -> bool {
    match item {
        Item::Require(p) => state.propositions[*p],
        Item::Condition(condition) => holds(condition, state),
        Item::Add(_) | Item::Delete(_) | Item::Effect(_) => true,
    }
}

pub fn holds(condition: &Condition, state: &State) -> bool {
    let order = sum(&condition.terms, state).cmp(&condition.constant);
    match condition.comparison {
        Comparison::AtLeast => order.is_ge(),
        Comparison::Above => order.is_gt(),
        Comparison::AtMost => order.is_le(),
        Comparison::Below => order.is_lt(),
        Comparison::Equal => order.is_eq(),
    }
}

pub fn sum(terms: &[Term], state: &State) -> i128 {
    let values = terms
        .iter()
        .map(|term| term.weight * state.values[term.variable]);
    values.sum()
}

/// The state after a move, in range or not; all its effects read the state before.
pub fn after(block: &Block, state: &State) -> State {
    let mut after = state.clone();
    for item in &block.items {
        make(item, state, &mut after);
    }
    after
}

/// Makes one change of a move, reading one state and writing another.
pub fn make(item: &Item, read: &State, written: &mut State) {
    match item {
        Item::Add(p) => written.propositions[*p] = true,
        Item::Delete(p) => written.propositions[*p] = false,
        Item::Effect(effect) => written.values[effect.variable] = changed(effect, read),
        Item::Require(_) | Item::Condition(_) => {}
    }
}

/// What an effect gives for its variable.
pub fn changed(effect: &Effect, state: &State) -> i128 {
    let old = state.values[effect.variable];
    let value = sum(&effect.terms, state) + effect.constant;
    let new = match effect.change {
        Change::Assign => value,
        Change::Increase => old + value,
        Change::Decrease => old - value,
    };
    new.clamp(-FAR, FAR)
}

pub fn in_range(state: &State) -> bool {
    let range = -NUMBER_LIMIT..=NUMBER_LIMIT;
    state.values.iter().all(|value| range.contains(value))
}
