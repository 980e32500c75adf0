//! A bound on everything relaxed moves can reach.
//!
//! Moves are taken one at a time, each changing the bound in place, until none
//! changes it. The bound is then checked to be closed: it is at least the state, and no
//! move whose conditions hold at the bound gives more than it. Relaxed moves give more
//! from more, so every relaxed run stays at or below a closed bound. If the goal fails
//! there, no list solves the task.

use crate::answer::Refusal;
use crate::reference::parse::{parse_stored, Wanted};
use crate::reference::state::State;
use crate::reference::table::{Block, Change, Effect, Kind, Table, Term};

/// Values above this count as without bound, which only makes the bound larger.
const FOLLOWED: i128 = 1_000_000_000_000_000_000_000_000_000_000;

/// A closed bound: what can be true, and how far each signed variable can rise.
#[derive(Clone, Debug, PartialEq, Eq)]
pub struct Saturation {
    pub propositions: Vec<bool>,
    /// None stands for no bound.
    pub values: Vec<Option<i128>>,
    /// Whether the goal holds at the bound. If not, no list solves the task.
    pub goal: bool,
}

/// The bound for a normal table and a state.
pub fn saturate(table: &[u8], state: &[u8]) -> Result<Saturation, Refusal> {
    let table = parse_stored(table, Wanted::Only(Kind::Normal))?.table;
    let state = State::parse(&table, state)?;
    Ok(saturate_table(&table, &state))
}

/// The bound for a normal table and a state as data.
pub fn saturate_table(table: &Table, state: &State) -> Saturation {
    let mut bound = Saturation {
        propositions: state.propositions.clone(),
        values: state.signed_values().into_iter().map(Some).collect(),
        goal: false,
    };
    while table.moves.iter().any(|m| bound.raise(m)) {}
    assert!(bound.is_closed(table, state), "the bound is closed");
    bound.goal = bound.allows(&table.goal);
    bound
}

impl Saturation {
    /// The largest value of a sum; None without bound.
    pub fn largest(&self, terms: &[Term], constant: i128) -> Option<i128> {
        terms.iter().try_fold(constant, |total, term| {
            Some(total + term.weight * self.values[term.variable]?)
        })
    }

    fn allows(&self, block: &Block) -> bool {
        block.required().all(|p| self.propositions[p])
            && block
                .conditions()
                .all(|c| self.largest(&c.terms, 0).is_none_or(|s| s >= c.constant))
    }

    /// Raises the bound by one move; whether that changed it.
    fn raise(&mut self, block: &Block) -> bool {
        if !self.allows(block) {
            return false;
        }
        let mut changed = false;
        for p in block.added() {
            changed |= !self.propositions[p];
            self.propositions[p] = true;
        }
        for effect in block
            .effects()
            .filter(|e| self.exceeds(e))
            .collect::<Vec<_>>()
        {
            self.values[effect.variable] = match effect.change {
                Change::Assign => self
                    .largest(&effect.terms, effect.constant)
                    .filter(|value| *value <= FOLLOWED),
                _ => None,
            };
            changed = true;
        }
        changed
    }

    /// Whether an effect gives more than the bound of its variable.
    fn exceeds(&self, effect: &Effect) -> bool {
        let Some(bound) = self.values[effect.variable] else {
            return false;
        };
        match (effect.change, self.largest(&effect.terms, effect.constant)) {
            (_, None) => true,
            (Change::Assign, Some(value)) => value > bound,
            (_, Some(value)) => value > 0,
        }
    }

    fn is_closed(&self, table: &Table, state: &State) -> bool {
        let start = state.signed_values();
        let above_start = self
            .values
            .iter()
            .zip(start)
            .all(|(bound, value)| bound.is_none_or(|bound| bound >= value));
        let has_start = self
            .propositions
            .iter()
            .zip(&state.propositions)
            .all(|(bound, true_at_start)| *bound || !true_at_start);
        let closed = table.moves.iter().filter(|m| self.allows(m)).all(|block| {
            block.added().all(|p| self.propositions[p]) && !block.effects().any(|e| self.exceeds(e))
        });
        above_start && has_start && closed
    }
}

#[cfg(test)]
mod tests {
    use super::*;
    use crate::hex::unhex;

    fn bound(table: &str, state: &str) -> Saturation {
        saturate(&unhex(table).unwrap(), &unhex(state).unwrap()).unwrap()
    }

    /// v0 += 1 while v0 >= 3, adds p0; v1 := 5 v0; goal p0.
    const TABLE: &str = concat!(
        "4e010202",
        "41",
        "57000001430000000003",
        "46010000000001",
        "2b00",
        "41",
        "5700000546000100000000",
        "475000",
        "45"
    );

    #[test]
    fn moves_out_of_reach_leave_the_bound_finite() {
        let bound = bound(TABLE, "0000000002");
        assert_eq!(bound.values, [Some(2), Some(10)]);
        assert_eq!(bound.propositions, [false]);
        assert!(!bound.goal);
    }

    #[test]
    fn a_repeated_increase_has_no_bound() {
        let bound = bound(TABLE, "0000000003");
        assert_eq!(bound.values, [None, None]);
        assert_eq!(bound.propositions, [true]);
        assert!(bound.goal);
    }
}
