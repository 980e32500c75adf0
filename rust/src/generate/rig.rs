//! Tasks at the rig's limits, next to them and beyond.

use super::maker::task_of;
use super::rng::Rng;
use super::sizes::Sizes;
use super::task::Task;
use super::tuned::{at_value_limit, increase};
use super::waves::{waves_of, Waves};
use crate::reference::table::{Block, Kind, NUMBER_LIMIT, PROPOSITION_LIMIT};
use crate::reference::{parse_task, RIG};

/// A task with counts of variables and moves at the rig's limits, next to them, far beyond or small;
/// now and then with many layers.
pub fn near_ceiling(rng: &mut Rng, kind: Kind) -> Task {
    let values = *rng.pick(&[1, 3, 7, 8, 8, 9, 16]);
    let moves = *rng.pick(&[2, 5, 15, 16, 16, 17, 64]);
    with_counts(rng, kind, values, moves)
}

/// The same with counts at the limits or small.
pub fn within_ceiling(rng: &mut Rng, kind: Kind) -> Task {
    let values = *rng.pick(&[1, 3, 7, 8, 8]);
    let moves = *rng.pick(&[2, 5, 15, 16, 16]);
    with_counts(rng, kind, values, moves)
}

fn with_counts(rng: &mut Rng, kind: Kind, values: usize, moves: usize) -> Task {
    if rng.chance(1, 16) {
        return deep(rng, kind);
    }
    let propositions = *rng.pick(&[0, 1, 4, PROPOSITION_LIMIT]);
    let counts = [propositions, values, moves];
    let small = match rng.below(20) {
        0 => return task_of(rng, kind, [propositions, names(kind, values), moves]),
        1..=4 if kind == Kind::Written => at_value_limit(rng),
        1..=4 => at_value_limit(rng).normal(),
        _ => {
            let [p, v, a] = counts.map(|count| rng.below(count.min(6) + 1));
            task_of(rng, kind, [p, names(kind, v), a])
        }
    };
    widened(rng, &small, counts)
}

/// How many variables a table has for so many values of a state.
fn names(kind: Kind, values: usize) -> usize {
    match kind {
        Kind::Written => values,
        Kind::Normal => 2 * values,
    }
}

/// The task with so many propositions, values and moves, if it has fewer. The new moves add 0 to the
/// last variable, or are copies of moves with a single item; nothing else uses the new names.
fn widened(rng: &mut Rng, task: &Task, [propositions, values, moves]: [usize; 3]) -> Task {
    let parsed = parse_task(&task.table, &task.state);
    let (mut table, mut state) = parsed.expect("a generated task is accepted");
    let propositions = propositions.max(table.propositions);
    let values = values.max(table.state_values());
    table.propositions = propositions;
    table.variables = names(table.kind, values);
    state
        .propositions
        .resize_with(propositions, || rng.chance(1, 3));
    state
        .values
        .resize_with(values, || *rng.pick(&[0, 1, -7, NUMBER_LIMIT]));
    let adds_0 = Block {
        items: vec![increase(table.variables - 1, &[], 0)],
    };
    let single = table.moves.iter().filter(|block| block.items.len() == 1);
    let single: Vec<Block> = single.cloned().collect();
    while table.moves.len() < moves {
        let block = match single.is_empty() || rng.chance(1, 2) {
            true => &adds_0,
            false => rng.pick(&single),
        };
        let at = rng.below(table.moves.len() + 1);
        table.moves.insert(at, block.clone());
    }
    Task {
        table: table.encode(),
        state: state.encode(),
    }
}

/// Chains and gates of tasks whose layers need about as many numbers as the rig uses, or more.
const DEEP: [(usize, usize); 7] = [
    (14, 9),
    (9, 14),
    (12, 10),
    (10, 12),
    (8, 15),
    (16, 8),
    (16, 15),
];

/// A task within the rig's limits with more than a hundred layers, and as many propositions as bring
/// the numbers that it needs next to those that the rig uses, where there is room for them.
pub fn deep(rng: &mut Rng, kind: Kind) -> Task {
    let (chain, gates) = match kind {
        Kind::Written => (RIG.variables, RIG.moves - 1),
        Kind::Normal => *rng.pick(&DEEP),
    };
    let counts = Waves {
        variables: names(kind, RIG.variables),
        chain,
        gates,
        moves: RIG.moves,
    };
    let task = waves_of(rng, kind, &counts);
    let needed = Sizes::of(&task.in_normal_form()).memory();
    let around = RIG.numbers - 1 + rng.below(3);
    let missing = around.checked_sub(needed);
    let propositions = missing.filter(|missing| *missing <= PROPOSITION_LIMIT);
    let moves = usize::from(task.table[3]);
    let counts = [propositions.unwrap_or(0), RIG.variables, moves];
    widened(rng, &task, counts)
}

/// A length of layer memory: none, around what the rig uses, or more.
pub fn rig_numbers(rng: &mut Rng) -> usize {
    let more = RIG.numbers + rng.below(2_500);
    let used = RIG.numbers;
    *rng.pick(&[0, used - 1, used, used + 1, 3_000, more])
}

#[cfg(test)]
mod tests {
    use super::*;

    /// Of each kind: tasks that need one number less than the rig uses, as many, and one more.
    #[test]
    fn deep_tasks_need_about_as_many_numbers_as_the_rig_uses() {
        let mut rng = Rng::new(31);
        for kind in [Kind::Written, Kind::Normal] {
            let tasks = (0..200).map(|_| deep(&mut rng, kind).in_normal_form());
            let needed: Vec<usize> = tasks.map(|task| Sizes::of(&task).memory()).collect();
            for number in RIG.numbers - 1..=RIG.numbers + 1 {
                let count = needed.iter().filter(|needed| **needed == number).count();
                assert!(count > 10, "{number}: {count}");
            }
        }
    }
}
