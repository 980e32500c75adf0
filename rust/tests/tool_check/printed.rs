//! What is printed of generated campaigns and lists, damaged ones among them, put to the proved engine.

use super::{check, text_of};
use crate::common::folder::{Folder, Printed};
use crate::common::rows::row;
use crate::common::tasks::spoilt_tasks;
use crate::tool::{check_answer, lapyndo};
use campaign::answer::{Checked, Fault};
use campaign::commands::commands;
use campaign::generate::{m1, task_of, wrong_state, Rng, Task};
use campaign::proved;
use campaign::reference::table::Kind;
use std::iter;

/// How often each outcome was met.
#[derive(Default)]
struct Seen {
    solved: usize,
    missing: usize,
    not_allowed: usize,
    out_of_range: usize,
    goal_not_met: usize,
    refused: usize,
    /// A fault behind the first entry.
    later: usize,
}

/// The state after the first moves of a list, one step at a time.
fn walked(task: &Task, list: &[u8]) -> Vec<u8> {
    list.iter().fold(task.state.clone(), |state, mv| {
        let mut after = state.clone();
        let step = proved::step(&task.table, &state, u64::from(*mv), &mut after);
        step.expect("a move that can be made");
        after
    })
}

/// Checks all that is printed of a list, as bytes and as text.
fn check_printed(seen: &mut Seen, task: &Task, list: &[u8]) {
    let mut end = task.state.clone();
    let answer = proved::check(&task.table, &task.state, list, &mut end);
    let printed = check(task, "list.bin", list);
    let text = check(task, "list.txt", &text_of(list));
    let checked = match answer {
        Ok(checked) => checked,
        Err(refusal) => {
            check_answer(task, &printed, Some(refusal));
            assert_eq!(text, printed);
            seen.refused += 1;
            return;
        }
    };
    assert_eq!(printed.error, "");
    let is_yes = matches!(checked, Checked::Yes { .. });
    let status = if is_yes { 0 } else { 3 };
    assert_eq!([printed.status, text.status], [status; 2], "{task}");
    let reached = match checked {
        Checked::Fails { index, .. } => index as usize,
        _ => list.len(),
    };
    let state = walked(task, &list[..reached]);
    check_state(task, &state, &printed.out);
    check_text(checked, &printed, &text);
    match checked {
        Checked::Yes { .. } => check_yes(seen, &printed.out),
        Checked::Fails { index, fault } => {
            let table = task.table.clone();
            let entry = (index, list[reached], fault);
            check_fault(seen, &Task { table, state }, entry, &printed.out);
        }
        Checked::GoalNotMet => check_goal(seen, task, &state, &printed.out),
    }
}

/// Text is said to be the same, but for the line of an entry.
fn check_text(checked: Checked, printed: &Printed, text: &Printed) {
    let line = match checked {
        Checked::Fails { index, .. } => format!(" in line {}, ", index / 7 + 1),
        _ => ", ".into(),
    };
    let bytes = printed.out.lines();
    let bytes = bytes.filter(|line| !line.starts_with("remedy "));
    let same = bytes.map(|said| match said.starts_with("entry ") {
        true => said.replacen(", ", &line, 1),
        false => said.into(),
    });
    assert!(same.eq(text.out.lines()), "{}{}", printed.out, text.out);
}

/// Every value and every proposition of the state that was reached, beside those at the start.
fn check_state(task: &Task, state: &[u8], text: &str) {
    let count = usize::from(task.table[1]);
    let lines = text.lines().skip_while(|line| !line.starts_with("state "));
    let mut lines = lines.skip(1);
    let from_to = |name: String, old: String, new: String| match old == new {
        true => format!("  {name:4}  {new}"),
        false => format!("  {name:4}  {old} -> {new}"),
    };
    for (p, (old, new)) in task.state.iter().zip(state).take(count).enumerate() {
        if old != new {
            let [old, new] = [old, new].map(|byte| (*byte == 1).to_string());
            assert_eq!(lines.next(), Some(&*from_to(format!("p{p}"), old, new)));
        }
    }
    let values = |state: &[u8]| {
        let values = state[count..].chunks(4);
        let values = values.map(|four| i32::from_be_bytes(four.try_into().expect("a value")));
        values.collect::<Vec<i32>>()
    };
    let both = values(&task.state).into_iter().zip(values(state));
    for (v, (old, new)) in both.enumerate() {
        let line = from_to(format!("v{v}"), old.to_string(), new.to_string());
        assert_eq!(lines.next(), Some(&*line), "{text}");
    }
    let held = (0..count).filter(|p| state[*p] == 1);
    let held: Vec<String> = held.map(|p| format!("p{p}")).collect();
    let held = if held.is_empty() {
        "none".into()
    } else {
        held.join(", ")
    };
    assert_eq!(lines.next(), Some(&*format!("  true  {held}")), "{text}");
}

fn check_yes(seen: &mut Seen, text: &str) {
    assert!(row(text, "answer").is_some_and(|said| said.starts_with("yes: ")));
    assert_eq!(
        [row(text, "entry"), row(text, "why"), row(text, "goal")],
        [None; 3]
    );
    seen.solved += 1;
}

/// The texts behind a label.
fn said<'t>(text: &'t str, label: &str, width: usize) -> Vec<&'t str> {
    let label = format!("{label:width$}");
    let lines = text.lines();
    lines.filter_map(|line| line.strip_prefix(&label)).collect()
}

/// What stands against the entry is what `step` says of its move in the state before it.
fn check_fault(seen: &mut Seen, before: &Task, entry: (u64, u8, Fault), text: &str) {
    let (index, mv, fault) = entry;
    let answer = row(text, "answer").expect("an answer");
    assert!(answer.starts_with(&format!("no: entry {index} ")), "{text}");
    let (kind, count) = match fault {
        Fault::Missing => (" that is missing ", &mut seen.missing),
        Fault::NotAllowed => (" that is not allowed ", &mut seen.not_allowed),
        Fault::OutOfRange => (" beyond 1000000 or -1000000", &mut seen.out_of_range),
    };
    assert!(answer.contains(kind), "{text}");
    *count += 1;
    seen.later += usize::from(index > 0);
    let named = row(text, "entry").expect("an entry");
    assert!(named.starts_with(&format!("{index}, move a{mv}")), "{text}");
    let folder = Folder::of(&before.table, &before.state);
    let step = lapyndo(&folder.0, &["step", ".", &mv.to_string()]).out;
    assert!(step.starts_with(&format!("refusal {} place 0: ", fault.number())));
    let why = said(text, "why", 10);
    assert_eq!(why, said(&step, "  why", 11), "{text}");
    assert!(!why.is_empty() && row(text, "goal").is_none(), "{text}");
}

/// A part of the goal is named exactly where a goal of this part alone is not met.
fn check_goal(seen: &mut Seen, task: &Task, state: &[u8], text: &str) {
    let answer = row(text, "answer").expect("an answer");
    assert!(answer.starts_with("no: ") && answer.contains("the goal is not met"));
    let named = said(text, "goal", 10).into_iter().map(|part| {
        let at = part
            .strip_prefix("byte ")
            .and_then(|part| part.split(':').next());
        at.and_then(|at| at.parse().ok()).expect("an offset")
    });
    let named: Vec<usize> = named.collect();
    let parts = goal_parts(&task.table).into_iter();
    let unmet = parts.filter(|(_, table)| {
        let met = proved::check(table, state, &[], &mut state.to_vec());
        met == Ok(Checked::GoalNotMet)
    });
    let unmet: Vec<usize> = unmet.map(|(at, _)| at).collect();
    assert_eq!(named, unmet, "{task}\n{text}");
    assert!(!unmet.is_empty());
    seen.goal_not_met += 1;
}

/// The parts of the goal: the offset of each, and the table with a goal of this part alone.
fn goal_parts(table: &[u8]) -> Vec<(usize, Vec<u8>)> {
    let (opening, mut start) = (goal(table), goal(table) + 1);
    let parts = commands(table).skip_while(|(at, _)| *at <= opening);
    let parts = parts.filter(|(_, command)| matches!(command[0], 0x50 | 0x43));
    let parts = parts.map(|(at, command)| {
        let end = at + command.len();
        let alone = [&table[..=opening], &table[start..end], &[0x45]].concat();
        start = end;
        (at, alone)
    });
    parts.collect()
}

/// The offset of the goal's opening.
fn goal(table: &[u8]) -> usize {
    let mut commands = commands(table);
    let goal = commands.find(|(_, command)| command[0] == 0x47);
    goal.expect("a goal").0
}

/// Moves of which most can be made.
fn list(rng: &mut Rng, task: &Task) -> Vec<u8> {
    let moves = usize::from(task.table[3]);
    let (mut state, mut list) = (task.state.clone(), Vec::new());
    for _ in 0..rng.below(24) {
        let mut after = state.clone();
        let tried: Vec<u8> = (0..8).map(|_| rng.below(moves + 1) as u8).collect();
        let made = tried.iter().copied().find(|mv| {
            let step = proved::step(&task.table, &state, u64::from(*mv), &mut after);
            step.is_ok()
        });
        list.push(made.unwrap_or(tried[0]));
        state = after;
    }
    if rng.chance(1, 12) {
        list.push(rng.byte());
    }
    list
}

/// Written tables, one in three with a goal that asks for nothing.
fn campaigns(rng: &mut Rng, count: usize) -> Vec<Task> {
    let tasks = (0..count).map(|i| {
        let mut task = task_of(rng, Kind::Written, [5, 3, 1 + i % 8]);
        if i % 3 == 0 {
            task.table.truncate(goal(&task.table) + 1);
            task.table.push(0x45);
        }
        task
    });
    tasks.chain([m1()]).collect()
}

#[test]
fn what_is_said_of_lists() {
    let mut rng = Rng::new(731);
    let mut seen = Seen::default();
    for task in campaigns(&mut rng, 150) {
        for _ in 0..2 {
            let list = list(&mut rng, &task);
            check_printed(&mut seen, &task, &list);
        }
    }
    let faults = [
        seen.missing,
        seen.not_allowed,
        seen.out_of_range,
        seen.later,
    ];
    let counts = [seen.solved, seen.goal_not_met];
    assert!(counts.iter().all(|count| *count >= 40), "{counts:?}");
    assert!(faults.iter().all(|count| *count >= 15), "{faults:?}");
    assert_eq!(seen.refused, 0);
}

/// Refused whatever the list is.
#[test]
fn refused_campaigns() {
    let mut rng = Rng::new(732);
    let mut seen = Seen::default();
    let mut tasks = spoilt_tasks(&mut rng, 40);
    for mut task in campaigns(&mut rng, 40) {
        task.state = wrong_state(&mut rng, &task.state);
        tasks.push(task);
    }
    for task in tasks.iter().filter(|task| task.state.len() <= 184) {
        let list: Vec<u8> = iter::repeat_with(|| rng.byte()).take(5).collect();
        check_printed(&mut seen, task, &list);
    }
    assert!(seen.refused > 60, "{}", seen.refused);
}
