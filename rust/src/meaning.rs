//! What the answers of `plan` mean, by runs over unlimited whole numbers; and their records and sets of
//! helpful moves, by the way down from the layers in memory.

use crate::answer::{Answer, Reason, Refusal};
use crate::generate::Task;
use crate::harness::Planned;
use crate::helpful::helpful_moves;
use crate::reference::parse_table;
use crate::reference::semantics::{relaxed_solves, relaxed_solves_one_by_one, saturate};
use crate::room::{counts, layer_bound};
use crate::walk::walked;

/// A plan's list solves the relaxed task, its records and its set are those of the way down; "no plan"
/// means that nothing reaches the goal. The task is accepted and has a normal table, and its plan has
/// room for all layers.
///
/// # Panics
/// If the answer means anything else.
pub fn check_meaning(task: &Task, planned: Result<Planned, Refusal>) -> Option<Planned> {
    let bound = saturate(&task.table, &task.state).expect("the task is accepted");
    let planned = match planned {
        Ok(planned) => planned,
        Err(refusal) => {
            assert_eq!(refusal.reason, Reason::ValueRange, "{task}");
            return None;
        }
    };
    let most = layer_bound(counts(&task.table));
    assert!(planned.plan.layers as usize <= most, "{task}");
    match planned.plan.answer {
        Answer::NoPlan => {
            assert!(!bound.goal, "{task}");
            assert_eq!((planned.plan.records, planned.plan.first), (0, 0), "{task}");
        }
        Answer::Layer(_) => {
            assert!(bound.goal, "{task}");
            assert!(solves(task, &planned.records), "{task}");
            check_way_down(task, &planned);
        }
    }
    Some(planned)
}

/// Whether a list of moves and counts solves the relaxed task: by the fast run of many moves,
/// and by single moves where they are few.
///
/// # Panics
/// If the task is refused, or the two runs differ.
pub fn solves(task: &Task, records: &[(u64, u64)]) -> bool {
    let fast = relaxed_solves(&task.table, &task.state, records).expect("the task is accepted");
    if records.iter().map(|(_, count)| count).sum::<u64>() < 300 {
        let slow = relaxed_solves_one_by_one(&task.table, &task.state, records);
        assert_eq!(slow, Ok(fast), "{task}");
    }
    fast
}

/// The way down from the layers in memory has these records, and gives exactly this set of helpful moves.
fn check_way_down(task: &Task, planned: &Planned) {
    let table = parse_table(&task.table).expect("the task is accepted");
    walked(&table, &planned.memory, planned.plan.answer, |walk| {
        assert_eq!(walk.records(), planned.records, "records of {task}");
        let set = helpful_moves(walk);
        assert_eq!(planned.plan.first, set, "helpful moves of {task}");
    });
}

#[cfg(test)]
mod tests {
    use super::*;
    use crate::engine::REFERENCE;
    use crate::harness::planned;
    use crate::hex::bytes;

    /// Checks the plan of a task after a change.
    fn check_changed(table: &str, state: &str, change: impl FnOnce(&mut Planned)) {
        let [table, state] = [table, state].map(bytes);
        let task = Task { table, state };
        let mut planned = planned(&REFERENCE, &task.table, &task.state).expect("a plan");
        change(&mut planned);
        check_meaning(&task, Ok(planned));
    }

    /// Moves 0 and 2 add p0, move 1 does so where p1 is true, move 3 deletes p1, move 4 adds p2 where p0
    /// is true, and move 5 adds p1. The goal is p2. Another set takes the place of 101.
    fn check_set(set: u64) {
        let table =
            "4e 03 00 06; 41 2b 00; 41 50 01 2b 00; 41 2b 00; 41 2d 01; 41 50 00 2b 02; 41 2b 01; \
                     47 50 02; 45";
        check_changed(table, "00 00 00", |planned| {
            assert_eq!(planned.plan.first, 0b101);
            planned.plan.first = set;
        });
    }

    #[test]
    fn the_set_of_the_reference_passes() {
        check_set(0b101);
    }

    #[test]
    #[should_panic(expected = "helpful moves of")]
    fn an_empty_set_is_found() {
        check_set(0);
    }

    #[test]
    #[should_panic(expected = "helpful moves of")]
    fn a_missing_move_of_the_plan_is_found() {
        check_set(0b100);
    }

    #[test]
    #[should_panic(expected = "helpful moves of")]
    fn a_missing_move_that_the_plan_does_not_take_is_found() {
        check_set(0b001);
    }

    #[test]
    #[should_panic(expected = "helpful moves of")]
    fn a_move_that_cannot_run_is_found() {
        check_set(0b101 | 1 << 1);
    }

    #[test]
    #[should_panic(expected = "helpful moves of")]
    fn a_move_that_brings_nothing_is_found() {
        check_set(0b101 | 1 << 3);
    }

    #[test]
    #[should_panic(expected = "helpful moves of")]
    fn a_move_that_runs_later_is_found() {
        check_set(0b101 | 1 << 4);
    }

    #[test]
    #[should_panic(expected = "helpful moves of")]
    fn a_move_that_brings_something_else_is_found() {
        check_set(0b101 | 1 << 5);
    }

    #[test]
    #[should_panic(expected = "helpful moves of")]
    fn a_move_that_the_table_does_not_have_is_found() {
        check_set(0b101 | 1 << 63);
    }

    #[test]
    #[should_panic(expected = "helpful moves of")]
    fn a_set_at_answer_layer_0_is_found() {
        let table = "4e 01 00 01 41 2b 00 47 50 00 45";
        check_changed(table, "01", |planned| planned.plan.first = 1);
    }

    /// Move 1 does what move 0 does, and so the list still solves the task.
    #[test]
    #[should_panic(expected = "records of")]
    fn a_move_other_than_the_lowest_is_found() {
        let table = "4e 01 00 02 41 2b 00 41 2b 00 47 50 00 45";
        check_changed(table, "00", |planned| planned.records = vec![(1, 1)]);
    }
}
