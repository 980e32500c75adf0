//! Goals that real moves lead to.

use super::bytes_in_range;
use crate::generate::{Rng, Task};
use crate::reference::parse_task;
use crate::reference::semantics::RealState;
use crate::reference::table::{Block, Comparison, Condition, Item, Table, Term, NUMBER_LIMIT};

/// A task with a written table and another goal, which up to so many moves at random lead to.
///
/// # Panics
/// If the task is refused.
pub fn aimed(rng: &mut Rng, task: &Task, moves: usize) -> Task {
    let (mut table, state) = parse_task(&task.table, &task.state).expect("the task is accepted");
    let mut state = RealState::start(&table, &state);
    for _ in 0..moves {
        state = random_move(rng, &table, &state).unwrap_or(state);
    }
    table.goal = goal_at(rng, &state);
    Task {
        table: table.encode(),
        state: task.state.clone(),
    }
}

/// The state after one of the moves that may be made; None if there is none.
fn random_move(rng: &mut Rng, table: &Table, state: &RealState) -> Option<RealState> {
    let allowed = table.moves.iter().filter(|block| state.meets(block));
    let results = allowed.map(|block| state.after(block));
    let mut results: Vec<RealState> = results.filter(|s| bytes_in_range(s).is_some()).collect();
    match results.len() {
        0 => None,
        count => Some(results.swap_remove(rng.below(count))),
    }
}

/// A goal that holds in a state.
fn goal_at(rng: &mut Rng, state: &RealState) -> Block {
    let mut items = Vec::new();
    for (p, _) in state.propositions.iter().enumerate().filter(|(_, is)| **is) {
        if rng.chance(1, 2) {
            items.push(Item::Require(p));
        }
    }
    for (variable, value) in state.values.iter().enumerate() {
        let value = i128::from(value.small().expect("values are in range"));
        let comparison = *rng.pick(&Comparison::ALL);
        let constant = match comparison {
            Comparison::AtLeast | Comparison::AtMost | Comparison::Equal => value,
            Comparison::Above => value - 1,
            Comparison::Below => value + 1,
        };
        if constant.abs() <= NUMBER_LIMIT && rng.chance(3, 4) {
            items.push(Item::Condition(Condition {
                terms: vec![Term {
                    variable,
                    weight: 1,
                }],
                comparison,
                constant,
            }));
        }
    }
    rng.shuffle(&mut items);
    Block { items }
}

#[cfg(test)]
mod tests {
    use super::*;
    use crate::generate::m1;
    use crate::real_plans::{search, Limits, Search};

    #[test]
    fn a_goal_is_reached_by_as_many_moves() {
        let mut rng = Rng::new(9);
        let limits = Limits {
            depth: 5,
            states: 1_000,
        };
        for _ in 0..100 {
            let task = aimed(&mut rng, &m1(), 5);
            let found = matches!(search(&task, limits), Search::Found(_));
            assert!(found, "{task}");
        }
    }
}
