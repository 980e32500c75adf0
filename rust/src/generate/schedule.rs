//! Schedules: lists of moves of a written table, that solve it or nearly do.

use super::brink::brink;
use super::call::{around, spoilt_task};
use super::damage::{damage, random_bytes, wrong_state};
use super::grid::long_sum;
use super::maker::{task, task_of};
use super::moves::{goal_at, Walk};
use super::rng::Rng;
use super::stored::stored;
use super::task::Task;
use super::tuned::assign;
use crate::call::Call;
use crate::hex::bytes;
use crate::reference::table::{Block, Kind, Table, MOVE_LIMIT};
use crate::reference::{parse_table, parse_task, State};
use std::mem::take;

/// So many calls of `check`, all of one table that is mostly accepted but for its goal; their lists
/// solve it or nearly do, and their outputs are mostly enough.
pub fn check_calls(rng: &mut Rng, count: usize) -> Vec<Call> {
    match rng.below(8) {
        0..=4 => sound_check_calls(rng, count),
        5 | 6 => refused_check_calls(rng, count),
        _ => damaged_check_calls(rng, count),
    }
}

/// The same of a table and a state that are accepted.
pub fn sound_check_calls(rng: &mut Rng, count: usize) -> Vec<Call> {
    let task = sound_task(rng);
    (0..count).map(|_| relisted(rng, &task)).collect()
}

/// The same, mostly of a table or a state that is refused.
pub fn refused_check_calls(rng: &mut Rng, count: usize) -> Vec<Call> {
    let calls = (0..count).map(|_| {
        let task = refused_task(rng);
        relisted(rng, &task)
    });
    calls.collect()
}

/// The same with damaged bytes in the table, the state or the list.
pub fn damaged_check_calls(rng: &mut Rng, count: usize) -> Vec<Call> {
    let mut calls = sound_check_calls(rng, count);
    calls.iter_mut().for_each(|call| damage(rng, call));
    calls
}

/// A `check` of a task: of an accepted one with a list and a goal that are chosen by what its moves do
/// in the state, of any other with any list.
pub fn relisted(rng: &mut Rng, task: &Task) -> Call {
    match parse_task(&task.table, &task.state) {
        Ok((table, state)) if table.kind == Kind::Written => {
            let (table, list) = schedule(rng, table, &state);
            let room = around(rng, task.state.len());
            let state = task.state.clone();
            Task { table, state }.check(&list, room)
        }
        _ => {
            let moves = task.table.get(3).copied().unwrap_or(0);
            let count = *rng.pick(&[0, 0, 1, 2, 5]);
            let list: Vec<u8> = (0..count).map(|_| any_byte(rng, moves.into())).collect();
            task.check(&list, around(rng, task.state.len()))
        }
    }
}

/// Small and on the brink of the range mostly; now and then without moves, propositions or variables,
/// or with as many as there may be.
fn sound_task(rng: &mut Rng) -> Task {
    let few = [4, 5, 8].map(|most| rng.below(most));
    let [p, v, a] = few;
    match rng.below(48) {
        0 => task(rng, Kind::Written),
        1 => task_of(rng, Kind::Written, [0, v, a]),
        2 => task_of(rng, Kind::Written, [p, 0, a]),
        3 => task_of(rng, Kind::Written, [p, v, 0]),
        4 => task_of(rng, Kind::Written, [120, 16, a]),
        5 => task_of(rng, Kind::Written, [p, v, MOVE_LIMIT]),
        6..=22 => task_of(rng, Kind::Written, few),
        _ => brink(rng),
    }
}

/// Mostly refused: the state, moves that do nothing, the head, a ninth term, a circle, or anything else.
fn refused_task(rng: &mut Rng) -> Task {
    let mut task = match rng.below(10) {
        0..=2 => sound_task(rng),
        8 => long_sum(rng),
        9 if rng.chance(1, 3) => circle(rng),
        3 => {
            let task = brink(rng);
            stored(rng, &task)
        }
        4 => sound_task(rng).in_normal_form(),
        5 if rng.chance(1, 4) => Task {
            table: random_bytes(rng, 60),
            state: Vec::new(),
        },
        _ => spoilt_task(rng, Kind::Written, |rng, _| sound_task(rng)),
    };
    if rng.chance(1, 2) {
        task.state = wrong_state(rng, &task.state);
    }
    task
}

/// A task on the brink with a circle of one variable.
fn circle(rng: &mut Rng) -> Task {
    let Task { table, state } = brink(rng);
    let mut table = parse_table(&table).expect("an accepted table");
    let variable = rng.below(table.variables);
    table.moves.push(Block {
        items: vec![assign(variable, &[(variable, 1)], 1)],
    });
    let table = table.encode();
    Task { table, state }
}

/// A list of moves, and the table with a goal that goes with it.
fn schedule(rng: &mut Rng, mut table: Table, state: &State) -> (Vec<u8>, Vec<u8>) {
    let own = take(&mut table.goal);
    let length = random_length(rng);
    let mut walk = Walk::new(rng, &table, state, length);
    let mut goal = None;
    match rng.below(16) {
        0..=3 => {}
        4 => goal = Some(goal_at(rng, state)),
        5 | 6 => {
            let state = walk.somewhere(rng);
            goal = Some(goal_at(rng, state));
        }
        7 => goal = Some(own),
        8 => walk.list.truncate(0),
        9 | 10 => walk.insert_missing(rng),
        11 | 12 => walk.insert_not_allowed(rng),
        13 | 14 => walk.go_beyond(rng),
        _ => {
            let moves = table.moves.len();
            walk.list
                .iter_mut()
                .for_each(|mv| *mv = any_byte(rng, moves));
        }
    }
    if rng.chance(1, 6) {
        walk.insert_missing(rng);
    }
    let goal = goal.unwrap_or_else(|| goal_at(rng, walk.end()));
    let list = take(&mut walk.list);
    table.goal = goal;
    (within_length(table), list)
}

/// How many moves a list has at most.
fn random_length(rng: &mut Rng) -> usize {
    match rng.below(400) {
        0 => 1_000 + rng.below(2_000),
        1..=5 => 250 + rng.below(50),
        6..=10 => 30 + rng.below(100),
        11..=160 => 1 + rng.below(4),
        _ => 1 + rng.below(12),
    }
}

/// The table's bytes; without its goal if they are too many.
fn within_length(mut table: Table) -> Vec<u8> {
    let bytes = table.encode();
    if bytes.len() <= table.kind.length_limit() {
        return bytes;
    }
    table.goal = Block::default();
    table.encode()
}

/// Mostly a move of a table with so many.
fn any_byte(rng: &mut Rng, moves: usize) -> u8 {
    match rng.below(12) {
        0 => missing(rng, moves),
        _ => rng.below(moves.max(1)) as u8,
    }
}

/// A byte that names no move of a table with so many.
pub(super) fn missing(rng: &mut Rng, moves: usize) -> u8 {
    let byte = match rng.below(6) {
        0 | 1 => moves,
        2 => moves + 1,
        3 => 255,
        4 => moves.max(MOVE_LIMIT) + rng.below(MOVE_LIMIT),
        _ => moves + rng.below(256 - moves),
    };
    byte as u8
}

/// A task with 2 propositions and 3 variables: v0 += 1 and p0 where v0 < 400,000; v0 -= 1, v1 := 2 v0 + 1
/// and not p0 where p0 and v0 > 0; v2 := v1 - v0 + 7 and p1. The goal is p1 and v0 >= 0.
const LONG: &str = "54 02 03 03; 41 57 00 0001 43 03 00061a80 46 01 00 00000001 2b 00; \
    41 50 00 57 00 0001 43 01 00000000 46 02 00 00000001 57 00 0002 46 00 01 00000001 2d 00; \
    41 57 00 ffff 57 01 0001 46 00 02 00000007 2b 01; 47 50 01 57 00 0001 43 00 00000000; 45";

/// That task, and a list of so many moves, at least one, that solves it.
pub fn long_schedule(rng: &mut Rng, entries: usize) -> (Task, Vec<u8>) {
    let (mut p0, mut v0) = (false, 0);
    let mut list = vec![2; entries];
    for mv in list.iter_mut().skip(1) {
        match rng.below(3) {
            0 if v0 < 400_000 => (*mv, p0, v0) = (0, true, v0 + 1),
            1 if p0 && v0 > 0 => (*mv, p0, v0) = (1, false, v0 - 1),
            _ => {}
        }
    }
    let (table, state) = (bytes(LONG), vec![0; 14]);
    (Task { table, state }, list)
}

#[cfg(test)]
mod tests {
    use super::*;
    use crate::answer::Checked;
    use crate::reference::check;

    #[test]
    fn long_schedules_solve_their_table() {
        let mut rng = Rng::new(43);
        for entries in [1, 2, 10, 5_000] {
            let (Task { table, state }, list) = long_schedule(&mut rng, entries);
            let answer = check(&table, &state, &list, &mut state.clone());
            assert_eq!(answer, Ok(Checked::Yes { length: 14 }));
            assert_eq!(list.len(), entries);
        }
    }
}
