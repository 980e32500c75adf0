//! Helpful moves: which they are, and how the set changes with the table.

mod probe;

use crate::common::tasks::helpful_tasks;
use campaign::answer::{bits, Answer};
use campaign::engine::{Engine, REFERENCE};
use campaign::generate::{Rng, Task};
use campaign::harness::{planned, Planned};
use campaign::helpful::taken_moves;
use campaign::meaning::check_meaning;
use campaign::memory::Memory;
use campaign::proved::PROVED;
use campaign::reference::table::{Block, Change, Condition, Effect, Table, Term, MOVE_LIMIT};
use campaign::reference::{parse_task, State};
use campaign::walk::{walked, Walk, Wants};

const ENGINES: [&dyn Engine; 2] = [&REFERENCE, &PROVED];

/// Tasks with such moves, all with normal tables; these and the states as data.
fn parsed_tasks(seed: u64, count: usize) -> impl Iterator<Item = (Task, Table, State)> {
    helpful_tasks(seed, count).map(|task| {
        let (table, state) = parse_task(&task.table, &task.state).expect("an accepted task");
        (task, table, state)
    })
}

/// The plan of a table with these moves; none if a value is too large.
fn planned_with(
    engine: &dyn Engine,
    task: &Task,
    table: &Table,
    moves: &[Block],
) -> Option<Planned> {
    let moves = moves.to_vec();
    let table = Table {
        moves,
        ..table.clone()
    };
    planned(engine, &table.encode(), &task.state).ok()
}

fn has(set: u64, b: usize) -> bool {
    set >> b & 1 == 1
}

/// The moves of which this is true, with their numbers, as a set.
fn set_of(moves: &[Block], is_in: impl Fn(usize, &Block) -> bool) -> u64 {
    let moves = (0..).zip(moves);
    bits(moves.filter_map(|(b, block)| is_in(b as usize, block).then_some(b)))
}

/// The set is what the way down gives, and the moves that the plan takes at layer 0 are among it.
#[test]
fn the_set_is_what_helps_with_the_wants_of_layer_1() {
    let (mut sets, mut larger) = ([0; 2], [0; 2]);
    for (task, table, _) in parsed_tasks(80, 2_000) {
        for (i, engine) in ENGINES.into_iter().enumerate() {
            let planned = planned(engine, &task.table, &task.state);
            let Some(Planned { plan, memory, .. }) = check_meaning(&task, planned) else {
                continue;
            };
            let taken = walked(&table, &memory, plan.answer, taken_moves).unwrap_or(0);
            assert_eq!(plan.first & taken, taken, "{task}");
            sets[i] += usize::from(plan.first != 0);
            larger[i] += usize::from(plan.first != taken);
        }
    }
    assert!(sets.iter().all(|n| *n > 1_000), "{sets:?}");
    assert!(larger.iter().all(|n| *n > 600), "{larger:?}");
}

/// A copy of a move behind all others is in the set exactly if the move is. All else stays.
#[test]
fn a_copy_of_a_move_is_as_helpful() {
    let mut rng = Rng::new(81);
    let mut found = [0; 2];
    for (task, table, _) in parsed_tasks(82, 1_500) {
        let count = table.moves.len();
        if count == 0 || count == MOVE_LIMIT {
            continue;
        }
        let b = rng.below(count);
        let mut moves = table.moves.clone();
        moves.push(moves[b].clone());
        for engine in ENGINES {
            let Ok(mut was) = planned(engine, &task.table, &task.state) else {
                continue;
            };
            let helps = has(was.plan.first, b);
            was.plan.first |= u64::from(helps) << count;
            let entries = table.propositions;
            was.memory.insert(entries + count, was.memory[entries + b]);
            let is = planned_with(engine, &task, &table, &moves);
            assert_eq!(is, Some(was), "{task} {b}");
            found[usize::from(helps)] += 1;
        }
    }
    assert!(found.iter().all(|n| *n > 400), "{found:?}");
}

/// In the order of a block's entries there is nothing to tell.
#[test]
fn the_order_of_entries_does_not_matter() {
    let mut rng = Rng::new(83);
    let mut found = 0;
    for (task, mut table, _) in parsed_tasks(84, 1_000) {
        for block in table.blocks_mut() {
            rng.shuffle(&mut block.items);
        }
        let table = table.encode();
        for engine in ENGINES {
            let was = planned(engine, &task.table, &task.state);
            let is = planned(engine, &table, &task.state);
            assert_eq!(is, was, "{task}");
            let has_set = is.is_ok_and(|is| is.plan.first != 0);
            found += usize::from(has_set && table != task.table);
        }
    }
    assert!(found > 1_000, "{found}");
}

/// Where the answer layer is 1 the wants are the goal's, whatever move the plan takes for them.
#[test]
fn the_order_of_moves_does_not_matter_at_answer_layer_1() {
    let mut rng = Rng::new(85);
    let mut found = 0;
    for (task, table, _) in parsed_tasks(86, 2_000) {
        let mut order: Vec<usize> = (0..table.moves.len()).collect();
        rng.shuffle(&mut order);
        let moves: Vec<Block> = order.iter().map(|b| table.moves[*b].clone()).collect();
        for engine in ENGINES {
            let Ok(was) = planned(engine, &task.table, &task.state) else {
                continue;
            };
            let is = planned_with(engine, &task, &table, &moves).expect("the same layers");
            assert_eq!(is.plan.decision(), was.plan.decision(), "{task} {order:?}");
            if was.plan.answer == Answer::Layer(1) {
                let set = set_of(&moves, |i, _| has(was.plan.first, order[i]));
                assert_eq!(is.plan.first, set, "{task} {order:?}");
                found += usize::from(is.plan.first != was.plan.first);
            }
        }
    }
    assert!(found > 500, "{found}");
}

/// A task whose answer layer is 1 or later, with its plan.
struct Case<'c> {
    engine: &'c dyn Engine,
    task: &'c Task,
    table: &'c Table,
    state: &'c State,
    was: &'c Planned,
}

/// Looks at each such task of a list, on both engines.
fn each_case(tasks: impl Iterator<Item = (Task, Table, State)>, mut look: impl FnMut(&Case)) {
    for (task, table, state) in tasks {
        for engine in ENGINES {
            let was = planned(engine, &task.table, &task.state);
            match was {
                Ok(was) if matches!(was.plan.answer, Answer::Layer(1..)) => look(&Case {
                    engine,
                    task: &task,
                    table: &table,
                    state: &state,
                    was: &was,
                }),
                _ => {}
            }
        }
    }
}

impl Case<'_> {
    /// What is wanted at layer 1.
    fn wants(&self) -> Wants {
        let Planned { plan, memory, .. } = self.was;
        let wants = |walk: &Walk| walk.wanted[1].clone();
        walked(self.table, memory, plan.answer, wants).expect("a plan")
    }

    /// With the moves of a set alone: whether layer 1 has something that is wanted there and that layer 0
    /// lacks, and the answer; none if a value of a later layer is too large.
    fn brings(&self, set: u64, wants: &Wants) -> Option<(bool, Answer)> {
        let moves = self.table.moves.iter().enumerate();
        let chosen = moves.filter(|(b, _)| has(set, *b));
        let moves: Vec<Block> = chosen.map(|(_, block)| block.clone()).collect();
        let Planned { plan, memory, .. } =
            planned_with(self.engine, self.task, self.table, &moves)?;
        let [p, n, _] = self.table.counts();
        let memory = Memory::new([p, n, moves.len()], &memory, plan.layers);
        let is_new = |p: &usize| memory.propositions[*p] == 1;
        let rises = |(v, target): (&usize, &i128)| {
            let reached = [0, 1].map(|t| i128::from(memory.layers[t][*v]) >= *target);
            reached == [false, true]
        };
        let new = wants.propositions.iter().any(is_new);
        let risen = plan.layers > 0 && wants.targets.iter().any(rises);
        Some((new || risen, plan.answer))
    }
}

/// Without the helpful moves layer 1 has nothing of what is wanted there and lacking, and with one of them
/// alone it has something. A goal with a proposition that the state lacks is then not met in layer 1.
#[test]
fn layer_1_needs_helpful_moves() {
    let mut rng = Rng::new(90);
    let (mut without, mut with, mut later) = (0, 0, 0);
    each_case(parsed_tasks(87, 1_500), |case| {
        let Case { task, was, .. } = case;
        let wants = case.wants();
        let lacks = |p: usize| !case.state.propositions[p];
        if let Some((brings, answer)) = case.brings(!was.plan.first, &wants) {
            assert!(!brings, "{task}");
            without += 1;
            if was.plan.answer == Answer::Layer(1) && case.table.goal.required().any(lacks) {
                assert!(!matches!(answer, Answer::Layer(0 | 1)), "{task}");
                later += 1;
            }
        }
        let helpful: Vec<u64> = was.plan.helpful().collect();
        let one = *rng.pick(&helpful);
        if let Some((brings, _)) = case.brings(1 << one, &wants) {
            assert!(brings, "{task} {one}");
            with += 1;
        }
    });
    let found = [without, with];
    assert!(found.iter().all(|n| *n > 1_400), "{found:?}");
    assert!(later > 280, "{later}");
}

/// The values that the signed variables have in layer 1, none for unbounded ones, by the usable moves.
fn values_after_one_step(usable: &[&Block], start: &[i128]) -> Vec<Option<i128>> {
    let mut values: Vec<Option<i128>> = start.iter().copied().map(Some).collect();
    for effect in usable.iter().flat_map(|block| block.effects()) {
        let given = given(effect, start);
        let value = &mut values[effect.variable];
        *value = match effect.change {
            Change::Assign => value.map(|value| given.max(value)),
            _ if given > 0 => None,
            _ => *value,
        };
    }
    values
}

fn sum(terms: &[Term], values: &[i128]) -> i128 {
    let value = |term: &Term| term.weight * values[term.variable];
    terms.iter().map(value).sum()
}

/// The value of an effect in layer 0.
fn given(effect: &Effect, start: &[i128]) -> i128 {
    sum(&effect.terms, start) + effect.constant
}

/// Whether an effect reaches a target in layer 0.
fn passes(effect: &Effect, start: &[i128], target: i128) -> bool {
    match effect.change {
        Change::Assign => given(effect, start) >= target,
        _ => given(effect, start) > 0,
    }
}

/// What a condition of the goal asks of its variables where these are their values in layer 1.
fn targets(condition: &Condition, start: &[i128], values: &[Option<i128>]) -> Vec<(usize, i128)> {
    let mut targets = Vec::new();
    let (mut rest, mut lowest) = (condition.constant, None);
    for term in &condition.terms {
        match (values[term.variable], lowest) {
            (Some(value), _) => {
                targets.push((term.variable, value));
                rest -= term.weight * value;
            }
            (None, None) => lowest = Some(term),
            (None, Some(_)) => rest -= term.weight * start[term.variable],
        }
    }
    let whole = |term: &Term| {
        (
            term.variable,
            (rest + term.weight - 1).div_euclid(term.weight),
        )
    };
    targets.extend(lowest.map(whole));
    targets
}

/// The set of a task whose answer layer is 1, from its table and state alone.
fn set_by_one_layer(table: &Table, state: &State) -> u64 {
    let start = state.signed_values();
    let holds = |c: &Condition| sum(&c.terms, &start) >= c.constant;
    let usable = |block: &&Block| {
        block.required().all(|p| state.propositions[p]) && block.conditions().all(holds)
    };
    let moves: Vec<&Block> = table.moves.iter().filter(usable).collect();
    let values = values_after_one_step(&moves, &start);
    let goal = table.goal.conditions();
    let wanted: Vec<_> = goal.flat_map(|c| targets(c, &start, &values)).collect();
    let target = |v| {
        wanted
            .iter()
            .filter(|(u, _)| *u == v)
            .map(|(_, t)| *t)
            .max()
    };
    let lacks = |p: usize| !state.propositions[p] && table.goal.required().any(|q| q == p);
    let reaches = |effect: &Effect| {
        let lacking = target(effect.variable).filter(|t| *t > start[effect.variable]);
        lacking.is_some_and(|t| passes(effect, &start, t))
    };
    let helps = |block: &Block| block.added().any(lacks) || block.effects().any(reaches);
    set_of(&table.moves, |_, block| usable(&block) && helps(block))
}

#[test]
fn the_set_at_answer_layer_1_follows_from_goal_and_state() {
    let mut found = 0;
    for (task, table, state) in parsed_tasks(88, 3_000) {
        for engine in ENGINES {
            let plan = planned(engine, &task.table, &task.state).map(|planned| planned.plan);
            match plan {
                Ok(plan) if plan.answer == Answer::Layer(1) => {
                    assert_eq!(plan.first, set_by_one_layer(&table, &state), "{task}");
                    found += 1;
                }
                _ => {}
            }
        }
    }
    assert!(found > 1_000, "{found}");
}
