//! The length of a task's PDDL text, and a task with a long one.

use super::task::Task;
use crate::reference::table::{Block, Item, Kind, Table, MOVE_LIMIT, PROPOSITION_LIMIT};
use crate::reference::{pddl_text, State};

/// The length of the text, or that of the table itself if there is none.
pub fn text_length(task: &Task) -> usize {
    let text = pddl_text(&task.table, &task.state);
    text.map_or(task.table.len(), |text| text.len())
}

/// A table of some 31,000 bytes whose text is longer than that of most tables of any length:
/// every move needs all propositions and deletes them.
pub fn wordy() -> Task {
    let all = 0..PROPOSITION_LIMIT;
    let named = all
        .clone()
        .flat_map(|p| [Item::Require(p), Item::Delete(p)]);
    let block = Block {
        items: named.collect(),
    };
    let variables = Kind::Written.variable_limit();
    let table = Table {
        kind: Kind::Written,
        propositions: PROPOSITION_LIMIT,
        variables,
        moves: vec![block; MOVE_LIMIT],
        goal: Block {
            items: all.map(Item::Require).collect(),
        },
    };
    let state = State {
        propositions: vec![true; PROPOSITION_LIMIT],
        values: vec![-1_000_000; variables],
    };
    Task {
        table: table.encode(),
        state: state.encode(),
    }
}

#[cfg(test)]
mod tests {
    use super::*;
    use crate::generate::{dense, task, Rng};
    use crate::room;

    #[test]
    fn texts_are_within_their_bound() {
        let mut rng = Rng::new(28);
        let mut tasks: Vec<Task> = (0..500).map(|_| task(&mut rng, Kind::Written)).collect();
        tasks.extend([wordy(), dense(&mut rng, Kind::Written, 32_000)]);
        for task in tasks {
            assert!(text_length(&task) <= room::text_bytes(task.table.len()));
        }
        assert!(text_length(&wordy()) > 200_000);
    }
}
