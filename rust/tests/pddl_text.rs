//! The proved engine's PDDL text, over its C function: read back, it means what the table and
//! the state mean.

mod printed;

use crate::common::pddl_reader::read;
use campaign::answer::{Reason, Refusal};
use campaign::generate::{
    at_value_limit, command_string, dense, full_length, m1, single_byte_changes, spoil, state_for,
    task, task_of, truncations, waves, wrong_state, Rng, Task,
};
use campaign::guarded::Guarded;
use campaign::harness::outcomes;
use campaign::hex::unhex;
use campaign::proved;
use campaign::reference::table::{Item, Kind};
use campaign::reference::{self, parse_stored_table, parse_table};
use printed::meaning_of;
use std::collections::{BTreeSet, HashMap};

/// What an output holds before a call; no text has it.
const KEPT: u8 = 0xA5;

/// The text in an output of so many bytes.
///
/// # Panics
/// If a byte that is to be kept changes.
fn written(table: &[u8], state: &[u8], room: usize) -> Result<Vec<u8>, Refusal> {
    let mut out = Guarded::filled(room, |_| KEPT);
    let answer = proved::pddl(table, state, out.lend());
    out.check("text").expect("all canaries are whole");
    let (text, behind) = out.lent().split_at(answer.unwrap_or(0));
    assert!(behind.iter().all(|byte| *byte == KEPT), "{answer:?}");
    answer.map(|_| text.to_vec())
}

/// The text, with room for it.
fn pddl_of(table: &[u8], state: &[u8]) -> Result<Vec<u8>, Refusal> {
    written(table, state, 16_384 + 32 * table.len())
}

/// What a text means.
///
/// # Panics
/// If it cannot be read.
fn meaning(text: &[u8]) -> String {
    match read(text) {
        Ok(meaning) => meaning.to_string(),
        Err(error) => panic!("{error}\n{}", String::from_utf8_lossy(text)),
    }
}

/// A buffer that is exactly long enough, and shorter ones.
fn check_rooms(table: &[u8], state: &[u8], text: &[u8]) {
    let exact = written(table, state, text.len());
    assert_eq!(exact.as_deref(), Ok(text));
    for room in [text.len() - 1, 0] {
        let short = written(table, state, room);
        assert_eq!(short, Err(Reason::OutputShort.at(0)), "{room} bytes");
    }
}

/// Recorded meanings.
const CASES: (&str, usize) = ("cases.txt", 91);

/// Recorded pairs. They are older than refusal 16: in 74 of them a move does nothing.
const DISTINCT: (&str, usize) = ("distinct.txt", 149);

/// A line of a file of outcomes.
struct Line {
    /// Its file and number.
    name: String,
    /// The bytes of its fields.
    fields: Vec<Vec<u8>>,
    outcome: String,
}

fn lines((file, count): (&str, usize)) -> Vec<Line> {
    let text = outcomes(file);
    assert_eq!(text.lines().count(), count, "lines of {file}");
    let line = |(i, line): (usize, &str)| {
        let (fields, outcome) = line.split_once(" -> ").expect("an outcome");
        let fields: Result<_, _> = fields.split(' ').map(unhex).collect();
        Line {
            name: format!("{file} line {}", i + 1),
            fields: fields.expect("fields"),
            outcome: outcome.into(),
        }
    };
    text.lines().enumerate().map(line).collect()
}

#[test]
fn recorded_meanings() {
    for line in lines(CASES) {
        let [table, state] = &line.fields[..] else {
            panic!("two fields")
        };
        let text = pddl_of(table, state);
        let got = match &text {
            Ok(text) => meaning(text),
            Err(refusal) => refusal.to_string(),
        };
        assert_eq!(got, line.outcome, "{}", line.name);
        match text {
            Ok(text) => check_rooms(table, state, &text),
            Err(refusal) => assert_eq!(written(table, state, 0), Err(refusal)),
        }
    }
}

/// Pairs with a move that does nothing have no two texts; they are told apart once each such move
/// adds a proposition of its own.
#[test]
fn recorded_texts_differ() {
    let mut idle = 0;
    for line in lines(DISTINCT) {
        let [table, state, other_table, other_state] = line.fields.try_into().expect("four fields");
        assert_eq!(line.outcome, "differ");
        let tasks = [(table, state), (other_table, other_state)];
        let mut tasks = tasks.map(|(table, state)| Task { table, state });
        if tasks.iter().any(is_idle) {
            idle += 1;
            tasks = tasks.map(finished);
        }
        let [one, other] = tasks.map(|task| {
            let text = checked(&task);
            text.unwrap_or_else(|refusal| panic!("{}: {refusal}", line.name))
        });
        assert_ne!(one, other, "{}", line.name);
    }
    assert_eq!(idle, 74);
}

/// Whether the task is refused for a move that does nothing.
fn is_idle(task: &Task) -> bool {
    matches!(checked(task), Err(refusal) if refusal.reason == Reason::IdleMove)
}

/// The task with one more proposition, false at first, which every move adds that does nothing else.
/// Two tasks that differ still do.
fn finished(task: Task) -> Task {
    let mut table = parse_stored_table(&task.table).expect("all checks but 16 pass");
    let added = table.propositions;
    table.propositions += 1;
    for block in table.moves.iter_mut().filter(|block| block.is_idle()) {
        block.items.push(Item::Add(added));
    }
    let mut state = task.state;
    state.insert(added, 0);
    let table = table.encode();
    Task { table, state }
}

/// The refusal of a table or a state.
fn refusal_of(task: &Task) -> Option<Refusal> {
    let answer = reference::step(&task.table, &task.state, u64::MAX, &mut []);
    let refusal = answer.expect_err("there is no such move");
    (refusal.reason != Reason::NoSuchBlock).then_some(refusal)
}

/// The answer, compared with the reference: its meaning, or the refusal.
fn checked(task: &Task) -> Result<Vec<u8>, Refusal> {
    let answer = pddl_of(&task.table, &task.state);
    assert_eq!(answer.as_ref().err().copied(), refusal_of(task), "{task}");
    match &answer {
        Ok(text) => assert_eq!(meaning(text), meaning_of(task), "{task}"),
        Err(refusal) => assert_eq!(
            written(&task.table, &task.state, 0),
            Err(*refusal),
            "{task}"
        ),
    }
    answer
}

/// The printed meaning of a table is that of the recorded outcomes.
#[test]
fn recorded_meanings_of_tables() {
    let mut accepted = 0;
    for line in lines(CASES) {
        let [table, state] = line.fields.try_into().expect("two fields");
        let task = Task { table, state };
        let got = match refusal_of(&task) {
            Some(refusal) => refusal.to_string(),
            None => meaning_of(&task),
        };
        assert_eq!(got, line.outcome, "{}", line.name);
        accepted += usize::from(!line.outcome.starts_with("refusal"));
    }
    assert!(accepted > 50, "{accepted}");
}

/// A task with another state, another order of one block, or a changed byte; it may be refused.
fn neighbour(rng: &mut Rng, of: &Task) -> Task {
    let mut table = parse_table(&of.table).expect("the table is accepted");
    let mut task = of.clone();
    match rng.below(4) {
        0 => task.state = state_for(rng, &table),
        1 => {
            let chosen = rng.below(table.moves.len() + 1);
            let block = table.moves.get_mut(chosen).unwrap_or(&mut table.goal);
            rng.shuffle(&mut block.items);
            task.table = table.encode();
        }
        _ => {
            let at = rng.below(task.table.len());
            task.table[at] ^= 1 << rng.below(3);
        }
    }
    task
}

fn any_task(rng: &mut Rng) -> Task {
    match rng.below(12) {
        0 => at_value_limit(rng),
        1 => {
            let (variables, gates) = (1 + rng.below(16), 1 + rng.below(8));
            waves(rng, Kind::Written, variables, gates)
        }
        2..=5 => {
            let counts = [0; 3].map(|_| rng.below(3));
            task_of(rng, Kind::Written, counts)
        }
        _ => task(rng, Kind::Written),
    }
}

/// Texts are those of one meaning each.
#[test]
fn generated_texts() {
    let mut rng = Rng::new(601);
    let mut meanings: HashMap<Vec<u8>, String> = HashMap::new();
    let mut refused = 0;
    for _ in 0..2_500 {
        let made = any_task(&mut rng);
        for task in [neighbour(&mut rng, &made), made] {
            let Ok(text) = checked(&task) else {
                refused += 1;
                continue;
            };
            check_rooms(&task.table, &task.state, &text);
            let meaning = meaning_of(&task);
            let known = meanings.entry(text).or_insert_with(|| meaning.clone());
            assert_eq!(*known, meaning, "{task}");
        }
    }
    assert!(meanings.len() > 2_500 && refused > 200, "{refused}");
}

#[test]
fn texts_at_the_limits() {
    let mut rng = Rng::new(602);
    for chosen in 0..8 {
        let counts = [0, 1, 2].map(|i| [120, 16, 64][i] * (chosen >> i & 1));
        let task = task_of(&mut rng, Kind::Written, counts);
        let text = checked(&task).expect("the task is accepted");
        check_rooms(&task.table, &task.state, &text);
    }
    for made in [full_length, dense] {
        for (length, number) in [(31_999, None), (32_000, None), (32_001, Some(1))] {
            let task = made(&mut rng, Kind::Written, length);
            let refusal = checked(&task).err();
            assert_eq!(refusal.map(|refusal| refusal.reason.number()), number);
        }
    }
}

/// Commands that nearly make up a table.
fn command_task(rng: &mut Rng) -> Task {
    let table = command_string(rng);
    let state = parse_table(&table).map(|table| state_for(rng, &table));
    Task {
        table,
        state: state.unwrap_or_default(),
    }
}

#[test]
fn refusals() {
    let mut rng = Rng::new(603);
    let Task { table, state } = m1();
    let changed = single_byte_changes(&table).step_by(7);
    let damaged = changed.chain(truncations(&table));
    let mut tasks: Vec<Task> = damaged
        .map(|table| Task {
            table,
            state: state.clone(),
        })
        .collect();
    for _ in 0..1_500 {
        tasks.push(command_task(&mut rng));
        let whole = any_task(&mut rng);
        let mut table = parse_table(&whole.table).expect("the table is accepted");
        spoil(&mut rng, &mut table);
        tasks.push(Task {
            table: table.encode(),
            state: whole.state.clone(),
        });
        tasks.push(Task {
            state: wrong_state(&mut rng, &whole.state),
            ..whole
        });
    }
    tasks.push(task(&mut rng, Kind::Normal));
    let answers = tasks.iter().map(checked);
    let numbers: BTreeSet<u8> = answers
        .map(|answer| answer.err().map_or(0, |refusal| refusal.reason.number()))
        .collect();
    assert_eq!(numbers, BTreeSet::from([0, 2, 3, 4, 5, 6, 7, 8, 9, 16]));
}
