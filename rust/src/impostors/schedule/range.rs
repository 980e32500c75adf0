//! Faults in the range of values.

use super::impostor;
use super::rules::{accepted, yes, Rules, RULES};
use crate::answer::{Checked, Refusal};
use crate::impostors::Impostor;
use crate::reference::check;
use crate::reference::table::{Block, NUMBER_LIMIT};
use crate::reference::State;
use crate::schedule::{allows, in_range};

pub const RANGE: [Impostor; 13] = [
    ruled!("no range is tested", in_range: |_, _| true),
    impostor("the range is tested at the end only", forgiving),
    ruled!("1,000,001 is in range", in_range: |_, state| within(state, -LIMIT, LIMIT + 1)),
    ruled!("-1,000,001 is in range", in_range: |_, state| within(state, -LIMIT - 1, LIMIT)),
    ruled!("1,000,000 is out of range", in_range: |block, state| {
        within(&changed_values(block, state), -LIMIT, LIMIT - 1)
    }),
    ruled!("-1,000,000 is out of range", in_range: |block, state| {
        within(&changed_values(block, state), 1 - LIMIT, LIMIT)
    }),
    ruled!("values above are tested only", in_range: |_, state| within(state, i128::MIN, LIMIT)),
    ruled!("values below are tested only", in_range: |_, state| within(state, -LIMIT, i128::MAX)),
    ruled!("the first variable only is tested", in_range: |_, state| {
        state.values.first().is_none_or(|value| value.abs() <= LIMIT)
    }),
    ruled!("the last variable only is tested", in_range: |_, state| {
        state.values.last().is_none_or(|value| value.abs() <= LIMIT)
    }),
    ruled!("the first effect only is tested", in_range: |block, state| {
        let values = changed_values(block, state).values;
        values.first().is_none_or(|value| value.abs() <= LIMIT)
    }),
    ruled!("the last effect only is tested", in_range: |block, state| {
        let values = changed_values(block, state).values;
        values.last().is_none_or(|value| value.abs() <= LIMIT)
    }),
    ruled!("the range has 32 bits", in_range: |_, state| {
        within(state, i32::MIN.into(), i32::MAX.into())
    }),
];

const LIMIT: i128 = NUMBER_LIMIT;

fn within(state: &State, least: i128, most: i128) -> bool {
    let mut values = state.values.iter();
    values.all(|value| (least..=most).contains(value))
}

/// The values that a move's effects have given, in the order of the table.
fn changed_values(block: &Block, state: &State) -> State {
    let values = block.effects().map(|effect| state.values[effect.variable]);
    State {
        propositions: Vec::new(),
        values: values.collect(),
    }
}

/// A list that leaves the range and comes back solves the table.
fn forgiving(table: &[u8], state: &[u8], list: &[u8], out: &mut [u8]) -> Result<Checked, Refusal> {
    let rules = Rules {
        in_range: |_, _| true,
        ..RULES
    };
    let (data, start) = accepted(table, state)?;
    let states = rules.states(&data, start, list);
    match states.as_ref().ok().and_then(|states| states.last()) {
        Some(end) if in_range(end) && allows(&data.goal, end) => yes(end, out),
        _ => check(table, state, list, out),
    }
}
