//! `lapyndo plan` on generated campaigns: what it says of helpful moves, put to the proved engine and to
//! what `lapyndo show` says of the same moves.

use crate::common::folder::Folder;
use crate::tool::lapyndo;
use campaign::answer::Reason;
use campaign::generate::{helpful, task_of, Rng, Task};
use campaign::harness::planned;
use campaign::proved::{self, PROVED};
use campaign::reference::table::Kind;

/// What a command prints of an accepted campaign.
fn printed(folder: &Folder, words: &[&str]) -> String {
    let printed = lapyndo(&folder.0, words);
    assert_eq!((printed.status, &*printed.error), (0, ""), "{words:?}");
    printed.out
}

/// What `show` says of each move: its conditions and effects, without the lines of their terms.
fn shown_moves(folder: &Folder) -> Vec<String> {
    let text = printed(folder, &["show", "task.bin"]);
    let mut moves: Vec<Vec<&str>> = Vec::new();
    let lines = text.lines().map(|line| line.split_at(8).1);
    for line in lines.take_while(|line| *line != "goal") {
        match line.strip_prefix("  ") {
            None if line.starts_with("move ") => moves.push(Vec::new()),
            Some(item) if !item.starts_with(' ') => moves.last_mut().expect("a move").push(item),
            _ => {}
        }
    }
    moves.iter().map(|items| items.join("; ")).collect()
}

/// The lines on helpful moves.
fn said(text: &str) -> Vec<&str> {
    let lines = text
        .lines()
        .skip_while(|line| !line.starts_with("helpful "));
    let mut lines: Vec<&str> = lines.collect();
    let last = lines.pop();
    assert!(last.is_none_or(|line| line.starts_with("A plan guides")));
    lines
}

/// The lines to expect, with the moves that are not in the plan.
fn expected(folder: &Folder, helpful: &[u64], others: &[u64]) -> Vec<String> {
    if helpful.is_empty() {
        return Vec::new();
    }
    let name = |mv: &u64| format!("a{mv}");
    let names: Vec<String> = helpful.iter().map(name).collect();
    let (names, gives) = match &*names {
        [name] => (name.clone(), "and gives"),
        _ => (names.join(", "), "each gives"),
    };
    let mut lines = vec![format!(
        "helpful   {names}: usable in this state, {gives} something that the plan wants next"
    )];
    let heading = match others.len() {
        0 => return lines,
        1 => "others    1 move, not in this plan: what it needs and does".into(),
        n => format!("others    {n} moves, not in this plan: what each needs and does"),
    };
    lines.push(heading);
    let shown = shown_moves(folder);
    let line = |mv: &u64| format!("  {:3}  {}", name(mv), shown[*mv as usize]);
    lines.extend(others.iter().map(line));
    lines
}

/// The helpful moves of a campaign, and those of them that are not in the plan, if `plan` says so.
fn checked(given: &Task) -> Option<[Vec<u64>; 2]> {
    let task = given.in_normal_form();
    let plan = planned(&PROVED, &task.table, &task.state).ok()?;
    let folder = Folder::of(&given.table, &given.state);
    let helpful: Vec<u64> = plan.plan.helpful().collect();
    let in_plan = |mv: &u64| plan.records.iter().any(|(taken, _)| taken == mv);
    let others: Vec<u64> = helpful.iter().copied().filter(|mv| !in_plan(mv)).collect();
    let text = printed(&folder, &["plan", "."]);
    assert_eq!(said(&text), expected(&folder, &helpful, &others), "{given}");
    Some([helpful, others])
}

/// The conditions of helpful moves hold in the state.
fn check_usable(task: &Task, helpful: &[u64]) {
    for mv in helpful {
        let mut after = task.state.clone();
        let made = proved::step(&task.table, &task.state, *mv, &mut after);
        let reason = made.err().map(|refusal| refusal.reason);
        assert!(matches!(reason, None | Some(Reason::ResultRange)), "{task}");
    }
}

#[test]
fn what_is_said_of_helpful_moves() {
    let mut rng = Rng::new(708);
    let (mut none, mut alike, mut one, mut more) = (0, 0, 0, 0);
    for i in 0..700 {
        let (kind, variables) = match i % 3 {
            0 => (Kind::Normal, 4),
            _ => (Kind::Written, 2),
        };
        let task = task_of(&mut rng, kind, [6, variables, 6 + i % 12]);
        let task = helpful(&mut rng, &task);
        let Some([helpful, others]) = checked(&task) else {
            continue;
        };
        if kind == Kind::Written {
            check_usable(&task, &helpful);
        }
        match others.len() {
            0 if helpful.is_empty() => none += 1,
            0 => alike += 1,
            1 => one += 1,
            _ => more += 1,
        }
    }
    let found = [none, alike, one, more];
    let least = [25, 200, 120, 130];
    let enough = found.iter().zip(least).all(|(n, least)| *n >= least);
    assert!(enough, "{found:?}");
}
