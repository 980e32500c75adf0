//! Numbers of a task, small or of all sizes, and its state.

use super::rng::Rng;
use crate::reference::table::{Table, NUMBER_LIMIT};
use crate::reference::State;

/// How large the numbers of a task are.
#[derive(Clone, Copy, Debug, PartialEq, Eq)]
pub(super) enum Scale {
    Small,
    Mixed,
}

pub(super) fn random_number(rng: &mut Rng, scale: Scale) -> i128 {
    match (scale, rng.below(8)) {
        (Scale::Mixed, 0) => *rng.pick(&[-NUMBER_LIMIT, NUMBER_LIMIT]),
        (Scale::Mixed, 1 | 2) => rng.between(-NUMBER_LIMIT, NUMBER_LIMIT),
        (_, 3 | 4) => rng.between(-50, 50),
        _ => rng.between(-4, 6),
    }
}

pub(super) fn random_state(
    rng: &mut Rng,
    propositions: usize,
    values: usize,
    scale: Scale,
) -> State {
    State {
        propositions: (0..propositions).map(|_| rng.chance(1, 3)).collect(),
        values: (0..values).map(|_| random_number(rng, scale)).collect(),
    }
}

/// An accepted state of a table.
pub fn state_for(rng: &mut Rng, table: &Table) -> Vec<u8> {
    random_state(rng, table.propositions, table.state_values(), Scale::Mixed).encode()
}
