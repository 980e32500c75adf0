//! Real moves over unlimited whole numbers.

use super::whole::Whole;
use crate::answer::Refusal;
use crate::reference::parse_stored_table;
use crate::reference::state::State;
use crate::reference::table::{Block, Change, Comparison, Condition, Effect, Kind, Table, Term};

/// The propositions and a value of every variable of the table, signed ones too.
#[derive(Clone, Debug, PartialEq, Eq)]
pub struct RealState {
    pub propositions: Vec<bool>,
    pub values: Vec<Whole>,
}

/// How a list of moves went.
#[derive(Clone, Debug, PartialEq, Eq)]
pub enum RealRun {
    /// Move number `at` of the list is unknown or its conditions fail.
    Stuck { at: usize },
    /// All moves ran; whether the goal holds then.
    Finished { state: RealState, goal: bool },
}

/// Runs a list of real moves of a table of either kind.
pub fn real_run(table: &[u8], state: &[u8], moves: &[u64]) -> Result<RealRun, Refusal> {
    let table = parse_stored_table(table)?;
    let state = State::parse(&table, state)?;
    let mut state = RealState::start(&table, &state);
    for (at, mv) in moves.iter().enumerate() {
        let block = usize::try_from(*mv).ok().and_then(|b| table.moves.get(b));
        match block.filter(|block| state.meets(block)) {
            Some(block) => state = state.after(block),
            None => return Ok(RealRun::Stuck { at }),
        }
    }
    let goal = state.meets(&table.goal);
    Ok(RealRun::Finished { state, goal })
}

impl RealState {
    /// Of a table of either kind.
    pub fn start(table: &Table, state: &State) -> RealState {
        let values = match table.kind {
            Kind::Written => state.values.clone(),
            Kind::Normal => state.signed_values(),
        };
        RealState {
            propositions: state.propositions.clone(),
            values: values.into_iter().map(Whole::from).collect(),
        }
    }

    /// Whether all conditions of a block are true.
    pub fn meets(&self, block: &Block) -> bool {
        block.required().all(|p| self.propositions[p])
            && block.conditions().all(|c| self.meets_condition(c))
    }

    fn meets_condition(&self, condition: &Condition) -> bool {
        let order = self
            .sum(&condition.terms, 0)
            .cmp(&Whole::from(condition.constant));
        match condition.comparison {
            Comparison::AtLeast => order.is_ge(),
            Comparison::Above => order.is_gt(),
            Comparison::AtMost => order.is_le(),
            Comparison::Below => order.is_lt(),
            Comparison::Equal => order.is_eq(),
        }
    }

    fn sum(&self, terms: &[Term], constant: i128) -> Whole {
        terms.iter().fold(Whole::from(constant), |total, term| {
            let weight = i32::try_from(term.weight).expect("a weight is small");
            &total + &self.values[term.variable].times(weight)
        })
    }

    /// What an effect gives for its variable.
    pub(super) fn changed(&self, effect: &Effect) -> Whole {
        let old = &self.values[effect.variable];
        let value = self.sum(&effect.terms, effect.constant);
        match effect.change {
            Change::Assign => value,
            Change::Increase => old + &value,
            Change::Decrease => old + &-&value,
        }
    }

    /// The state after a move, whose conditions are not asked for.
    pub fn after(&self, block: &Block) -> RealState {
        let mut after = self.clone();
        block.added().for_each(|p| after.propositions[p] = true);
        block.deleted().for_each(|p| after.propositions[p] = false);
        for effect in block.effects() {
            after.values[effect.variable] = self.changed(effect);
        }
        after
    }
}

#[cfg(test)]
mod tests {
    use super::*;
    use crate::hex::unhex;

    fn run(table: &str, state: &str, moves: &[u64]) -> RealRun {
        real_run(&unhex(table).unwrap(), &unhex(state).unwrap(), moves).unwrap()
    }

    /// Two moves: v += v, and v += 7 with the condition v < 0; goal v > 5.
    const TABLE: &str = concat!(
        "54000102",
        "41",
        "57000001460100",
        "00000000",
        "41",
        "57000001430300000000",
        "46010000000007",
        "47",
        "57000001430100000005",
        "45"
    );

    #[test]
    fn values_grow_without_limit() {
        let RealRun::Finished { state, goal } = run(TABLE, "00000001", &[0; 200]) else {
            panic!("the move always runs");
        };
        assert!(goal);
        assert!(state.values[0] > Whole::from(i128::MAX));
        let RealRun::Finished { state, goal } = run(TABLE, "ffffffff", &[0; 200]) else {
            panic!("the move always runs");
        };
        assert!(!goal);
        assert!(state.values[0] < Whole::from(i128::MIN));
    }

    #[test]
    fn a_failing_condition_is_named_by_its_place_in_the_list() {
        assert_eq!(run(TABLE, "00000001", &[0, 0, 1]), RealRun::Stuck { at: 2 });
        assert_eq!(run(TABLE, "00000001", &[2]), RealRun::Stuck { at: 0 });
        let expected = RealRun::Finished {
            state: RealState {
                propositions: Vec::new(),
                values: vec![Whole::from(5)],
            },
            goal: false,
        };
        assert_eq!(run(TABLE, "ffffffff", &[0, 1]), expected);
    }
}
