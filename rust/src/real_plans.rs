//! Lists of real moves without the checker: found by a search, and judged by the definition.
//!
//! A list solves a task if each move's conditions hold when it runs and the goal holds at the end; the
//! run is over unlimited whole numbers. The list is a yes if all its values stay in range as well.

mod aimed;

pub use aimed::aimed;

use crate::answer::Fault;
use crate::generate::Task;
use crate::reference::parse_task;
use crate::reference::semantics::{real_run, RealRun, RealState};
use crate::reference::table::NUMBER_LIMIT;
use std::collections::{HashSet, VecDeque};

/// How far a search goes.
#[derive(Clone, Copy, Debug)]
pub struct Limits {
    /// The most moves of a list.
    pub depth: usize,
    /// The most states that are met, the first one too.
    pub states: usize,
}

/// What a search comes to.
#[derive(Clone, Debug, PartialEq, Eq)]
pub enum Search {
    Found(RealPlan),
    /// No list of this depth or less is a yes.
    None,
    /// There are more states than may be met.
    Stopped,
}

/// A list that is a yes, and none that is shorter.
#[derive(Clone, Debug, PartialEq, Eq)]
pub struct RealPlan {
    pub list: Vec<u8>,
    /// The bytes of the state at its end.
    pub end: Vec<u8>,
}

/// Searches breadth first through the states in range of an accepted task with a written table.
///
/// # Panics
/// If the task is refused.
pub fn search(task: &Task, limits: Limits) -> Search {
    let (table, state) = parse_task(&task.table, &task.state).expect("the task is accepted");
    let mut seen = HashSet::from([task.state.clone()]);
    let mut queue = VecDeque::from([(RealState::start(&table, &state), Vec::new())]);
    while let Some((state, list)) = queue.pop_front() {
        if state.meets(&table.goal) {
            let end = bytes_in_range(&state).expect("only states in range are met");
            return Search::Found(RealPlan { list, end });
        }
        if list.len() == limits.depth {
            continue;
        }
        let moves = (0..).zip(&table.moves);
        for (mv, block) in moves.filter(|(_, block)| state.meets(block)) {
            let after = state.after(block);
            if bytes_in_range(&after).is_some_and(|bytes| seen.insert(bytes)) {
                queue.push_back((after, [&list[..], &[mv]].concat()));
            }
        }
        if seen.len() > limits.states {
            return Search::Stopped;
        }
    }
    Search::None
}

/// The bytes of a state, if all its values are in range.
fn bytes_in_range(state: &RealState) -> Option<Vec<u8>> {
    let mut bytes: Vec<u8> = state.propositions.iter().map(|p| u8::from(*p)).collect();
    for value in &state.values {
        let value = value.small()?;
        if i128::from(value.abs()) > NUMBER_LIMIT {
            return None;
        }
        bytes.extend((value as i32).to_be_bytes());
    }
    Some(bytes)
}

/// Whether a list solves a task, whatever its values are on the way.
///
/// # Panics
/// If the task is refused, here and below.
pub fn solves(task: &Task, list: &[u8]) -> bool {
    matches!(run(task, list), RealRun::Finished { goal: true, .. })
}

/// Whether a list solves a task, and all its values stay in range: those of the states after its first
/// moves, however many.
pub fn is_yes(task: &Task, list: &[u8]) -> bool {
    let in_range = |moves: usize| match run(task, &list[..moves]) {
        RealRun::Finished { state, .. } => bytes_in_range(&state).is_some(),
        RealRun::Stuck { .. } => false,
    };
    solves(task, list) && (0..=list.len()).all(in_range)
}

/// What a list comes to.
#[derive(Clone, Debug, PartialEq, Eq)]
pub enum Verdict {
    /// It is a yes, with these bytes of the state at its end.
    Yes { end: Vec<u8> },
    /// All moves up to this entry run in range, and this one does not.
    Breaks { index: usize, fault: Fault },
    /// All moves run in range, and the goal does not hold at the end.
    GoalNotMet,
}

/// Judges a list by runs of its first moves, one more each time.
pub fn judge(task: &Task, list: &[u8]) -> Verdict {
    let moves = task.table[3];
    for (index, mv) in list.iter().enumerate() {
        let fault = match run(task, &list[..=index]) {
            RealRun::Stuck { .. } if *mv >= moves => Fault::Missing,
            RealRun::Stuck { .. } => Fault::NotAllowed,
            RealRun::Finished { state, .. } if bytes_in_range(&state).is_none() => {
                Fault::OutOfRange
            }
            RealRun::Finished { .. } => continue,
        };
        return Verdict::Breaks { index, fault };
    }
    match run(task, list) {
        RealRun::Finished { state, goal: true } => Verdict::Yes {
            end: bytes_in_range(&state).expect("the last move ran in range"),
        },
        _ => Verdict::GoalNotMet,
    }
}

fn run(task: &Task, list: &[u8]) -> RealRun {
    let moves: Vec<u64> = list.iter().copied().map(u64::from).collect();
    real_run(&task.table, &task.state, &moves).expect("the task is accepted")
}

/// All lists of these numbers up to a length, shorter ones first.
pub fn all_lists(numbers: &[u8], longest: usize) -> Vec<Vec<u8>> {
    let mut lists = vec![Vec::new()];
    let mut shorter = 0;
    for _ in 0..longest {
        let end = lists.len();
        for at in shorter..end {
            let longer = numbers
                .iter()
                .map(|number| [&lists[at][..], &[*number]].concat());
            let longer: Vec<Vec<u8>> = longer.collect();
            lists.extend(longer);
        }
        shorter = end;
    }
    lists
}

#[cfg(test)]
mod tests {
    use super::*;
    use crate::generate::m1;
    use crate::hex::bytes;

    const LIMITS: Limits = Limits {
        depth: 9,
        states: 2_000,
    };

    fn breaks(index: usize, fault: Fault) -> Verdict {
        Verdict::Breaks { index, fault }
    }

    #[test]
    fn a_shortest_list_is_found() {
        let Search::Found(plan) = search(&m1(), LIMITS) else {
            panic!("M1 has a list of eight moves");
        };
        assert_eq!(plan.list.len(), 8);
        let end = plan.end.clone();
        assert_eq!(judge(&m1(), &plan.list), Verdict::Yes { end });
        let shallow = Limits { depth: 7, ..LIMITS };
        assert_eq!(search(&m1(), shallow), Search::None);
        let few = Limits {
            states: 7,
            ..LIMITS
        };
        assert_eq!(search(&m1(), few), Search::Stopped);
    }

    /// Move 0 is v += 600,000 and move 1 is v −= 700,000, from 0; the goal is v = 500,000.
    #[test]
    fn the_range_is_kept_on_the_way() {
        let table = "54 00 01 02; 41 46 01 00 000927c0; 41 46 02 00 000aae60; \
                     47 57 00 0001 43 04 0007a120; 45";
        let task = Task {
            table: bytes(table),
            state: vec![0; 4],
        };
        let end = bytes("0007a120");
        let plan = RealPlan {
            list: vec![0, 1, 0],
            end: end.clone(),
        };
        assert_eq!(search(&task, LIMITS), Search::Found(plan));
        assert!(solves(&task, &[0, 1, 0]) && is_yes(&task, &[0, 1, 0]));
        assert_eq!(judge(&task, &[1, 0, 0]), Verdict::Yes { end });
        assert!(solves(&task, &[0, 0, 1]) && !is_yes(&task, &[0, 0, 1]));
        assert_eq!(judge(&task, &[0, 0, 1]), breaks(1, Fault::OutOfRange));
        assert_eq!(judge(&task, &[0, 0, 2]), breaks(1, Fault::OutOfRange));
        assert_eq!(judge(&task, &[0, 2, 0]), breaks(1, Fault::Missing));
        assert_eq!(judge(&task, &[0, 1]), Verdict::GoalNotMet);
    }

    #[test]
    fn a_move_that_is_not_allowed_breaks_a_list() {
        assert_eq!(judge(&m1(), &[0, 2, 0]), breaks(1, Fault::NotAllowed));
        assert_eq!(judge(&m1(), &[0, 0, 2]), Verdict::GoalNotMet);
        assert!(!solves(&m1(), &[0, 2, 0]));
    }

    #[test]
    fn lists_are_counted() {
        let lists = all_lists(&[0, 1, 7], 3);
        assert_eq!(lists.len(), 1 + 3 + 9 + 27);
        assert_eq!(lists[..5], [vec![], vec![0], vec![1], vec![7], vec![0, 0]]);
        assert_eq!(lists.last(), Some(&vec![7, 7, 7]));
        let different: HashSet<&Vec<u8>> = lists.iter().collect();
        assert_eq!(different.len(), lists.len());
    }
}
