//! `lapyndo why` on generated campaigns: what it says of the written goal is put to the proved
//! engine as goals of their own.

use crate::common::folder::Folder;
use crate::common::rows::row;
use crate::tool::lapyndo;
use campaign::answer::Answer;
use campaign::generate::{task_of, Rng, Task};
use campaign::harness::campaigned;
use campaign::proved::{self, PROVED};
use campaign::reference::table::Kind;

/// A condition of a goal: its bytes, terms included, and where its 50 or 43 stands in the table.
#[derive(Clone)]
struct Condition {
    at: usize,
    bytes: Vec<u8>,
}

impl Condition {
    /// Of a sum: compared by another operator with another constant.
    fn compared(&self, operator: u8, constant: i64) -> Condition {
        let mut bytes = self.bytes.clone();
        let end = bytes.len() - 5;
        bytes[end] = operator;
        bytes[end + 1..].copy_from_slice(&(constant as i32).to_be_bytes());
        Condition { at: self.at, bytes }
    }

    fn is_sum(&self) -> bool {
        self.bytes[0] != 0x50
    }

    fn constant(&self) -> i64 {
        let four = self.bytes[self.bytes.len() - 4..].try_into();
        i32::from_be_bytes(four.expect("four bytes")).into()
    }
}

/// Conditions of all kinds, most of them near what a small campaign can reach.
fn random_goal(rng: &mut Rng, propositions: usize, variables: usize) -> Vec<Vec<u8>> {
    let mut goal: Vec<Vec<u8>> = Vec::new();
    for p in rng.subset(propositions / 2, propositions) {
        goal.push(vec![0x50, p as u8]);
    }
    for _ in 0..1 + rng.below(4) {
        let mut bytes = Vec::new();
        let terms = rng.below(4).min(variables);
        for v in rng.subset(terms, variables) {
            let weight = rng.between(-2, 2) as i16;
            bytes.extend([0x57, v as u8]);
            bytes.extend(weight.to_be_bytes());
        }
        let constant = rng.between(-20, 20) as i32;
        bytes.extend([0x43, rng.below(5) as u8]);
        bytes.extend(constant.to_be_bytes());
        goal.push(bytes);
    }
    rng.shuffle(&mut goal);
    goal
}

/// A campaign without its goal, up to and with the 47.
struct Moves {
    bytes: Vec<u8>,
    state: Vec<u8>,
}

impl Moves {
    fn of(task: Task) -> Moves {
        let goal = u64::from(task.table[3]);
        let goal = proved::block(&task.table, goal).expect("an accepted table");
        let end = task.table.len() - goal.len();
        Moves {
            bytes: task.table[..end].to_vec(),
            state: task.state,
        }
    }

    fn with<'c>(&self, goal: impl IntoIterator<Item = &'c [u8]>) -> Task {
        let goal: Vec<&[u8]> = goal.into_iter().collect();
        Task {
            table: [&self.bytes, &*goal.concat(), &[0x45]].concat(),
            state: self.state.clone(),
        }
    }

    fn has_plan(&self, goal: &[Condition]) -> bool {
        let task = self.with(goal.iter().map(|condition| &*condition.bytes));
        let planned = campaigned(&PROVED, &task.table, &task.state);
        planned.expect("an accepted campaign").plan.answer != Answer::NoPlan
    }

    /// The goal's conditions where they stand in the table.
    fn placed(&self, goal: Vec<Vec<u8>>) -> Vec<Condition> {
        let mut end = self.bytes.len();
        let placed = goal.into_iter().map(|bytes| {
            end += bytes.len();
            let width = if bytes[0] == 0x50 { 2 } else { 6 };
            let at = end - width;
            Condition { at, bytes }
        });
        placed.collect()
    }
}

/// The number at the end of a text.
fn last_number(text: &str) -> i64 {
    let word = text.rsplit(' ').next().expect("a word");
    word.parse().expect("a number")
}

/// How often each kind of part was found to block.
#[derive(Default)]
struct Seen {
    propositions: usize,
    /// By operator; of = at least, and then at most.
    sums: [usize; 6],
    bounds: usize,
    behind_others: usize,
    before_others: usize,
}

/// A part of a goal that is said to be out of reach.
struct Part {
    index: usize,
    /// The part as a condition of its own.
    alone: Condition,
    /// The other half of =.
    other_half: Option<Condition>,
    /// 0 to 3 by operator, 4 and 5 the halves of =, none for a proposition.
    kind: Option<u8>,
}

/// Reads `byte OFFSET: needs ..`.
fn part(goal: &[Condition], said: &str) -> Part {
    let (at, said) = said
        .strip_prefix("byte ")
        .and_then(|text| text.split_once(": "))
        .expect("an offset");
    let index = goal
        .iter()
        .position(|condition| condition.at.to_string() == at);
    let index = index.unwrap_or_else(|| panic!("no condition at {at}"));
    let condition = &goal[index];
    let mut part = Part {
        index,
        alone: condition.clone(),
        other_half: None,
        kind: None,
    };
    if !condition.is_sum() {
        assert_eq!(said, format!("needs p{}", condition.bytes[1]));
        return part;
    }
    let operator = condition.bytes[condition.bytes.len() - 5];
    part.kind = Some(operator);
    if operator == 4 {
        let halves = [0, 2].map(|operator| condition.compared(operator, condition.constant()));
        let [least, most] = halves;
        let is_most = said.contains("\"at most ");
        assert_ne!(is_most, said.contains("\"at least "), "{said}");
        part.kind = Some(4 + u8::from(is_most));
        (part.alone, part.other_half) = match is_most {
            false => (least, Some(most)),
            true => (most, Some(least)),
        };
    }
    part
}

/// Checks what is said of a goal that has no plan: the first part blocks alone, all that stands
/// before it does not, each further one blocks alone, and without all of them there is a plan.
fn check(seen: &mut Seen, moves: &Moves, goal: &[Condition], text: &str) {
    let blocks = row(text, "blocks").expect("a part that blocks");
    let first = part(goal, blocks);
    let also = text
        .lines()
        .filter_map(|line| line.strip_prefix("also      "));
    let also: Vec<Part> = also.map(|said| part(goal, said)).collect();
    for part in also.iter().chain([&first]) {
        let alone = std::slice::from_ref(&part.alone);
        assert!(!moves.has_plan(alone), "one does not block alone\n{text}");
    }
    let mut rest = goal.to_vec();
    for part in also.iter().rev().chain([&first]) {
        rest.splice(part.index..=part.index, part.other_half.clone());
    }
    assert!(moves.has_plan(&rest), "another one blocks too\n{text}");
    assert!(
        moves.has_plan(&goal[..first.index]),
        "not the first\n{text}"
    );
    match first.kind {
        Some(kind) => seen.sums[usize::from(kind)] += 1,
        None => seen.propositions += 1,
    }
    seen.behind_others += usize::from(first.index > 0);
    seen.before_others += usize::from(!also.is_empty());
    seen.bounds += usize::from(check_bound(moves, &goal[first.index], text));
}

/// The bound that is said to hold whatever moves are made is exact, as far as layers can tell.
fn check_bound(moves: &Moves, condition: &Condition, text: &str) -> bool {
    let Some(said) = row(text, "so").filter(|_| condition.is_sum()) else {
        return false;
    };
    let bound = last_number(said);
    let (operator, beyond) = match said.contains(" is at most ") {
        true => (0, bound + 1),
        false => (2, bound - 1),
    };
    // Larger constants are refused.
    if bound.abs() >= 1_000_000 {
        return false;
    }
    let plans = |constant| moves.has_plan(&[condition.compared(operator, constant)]);
    assert!(plans(bound) && !plans(beyond), "{text}");
    true
}

#[test]
fn what_is_said_of_written_goals() {
    let mut rng = Rng::new(707);
    let (mut seen, mut unblocked) = (Seen::default(), 0);
    for i in 0..400 {
        let (propositions, variables) = (2 * (i % 3), 1 + i % 4);
        let counts = [propositions, variables, rng.below(4)];
        let moves = Moves::of(task_of(&mut rng, Kind::Written, counts));
        let goal = moves.placed(random_goal(&mut rng, propositions, variables));
        let task = moves.with(goal.iter().map(|condition| &*condition.bytes));
        let folder = Folder::of(&task.table, &task.state);
        let printed = lapyndo(&folder.0, &["why", "."]);
        assert_eq!((printed.status, &*printed.error), (0, ""), "{task}");
        match moves.has_plan(&goal) {
            true => {
                unblocked += 1;
                let blocks = row(&printed.out, "blocks").expect("a line");
                assert!(blocks.starts_with("nothing: layer "), "{}", printed.out);
            }
            false => check(&mut seen, &moves, &goal, &printed.out),
        }
    }
    let Seen {
        propositions,
        sums,
        bounds,
        behind_others,
        before_others,
    } = seen;
    let counts = [
        unblocked,
        propositions,
        bounds,
        behind_others,
        before_others,
    ];
    assert!(counts.iter().all(|count| *count >= 30), "{counts:?}");
    assert!(sums.iter().all(|count| *count >= 8), "{sums:?}");
}
