//! The goal part that blocks: what it says of `decide`, of the goal, and of the written table.

use super::{normal_tasks, tasks};
use campaign::answer::{Answer, Blocking, Decision, Refusal};
use campaign::call::{Call, CallKind};
use campaign::engine::{Engine, REFERENCE};
use campaign::generate::{
    at_value_limit, blocked, blocking_call, damage, large_values, waves, Rng, Sizes, Task,
};
use campaign::harness::normalised;
use campaign::parts::{goal_parts, Needs, Part};
use campaign::proved::PROVED;
use campaign::reference::parse_table;
use campaign::reference::semantics::saturate;
use campaign::reference::table::{Comparison, Condition, Item, Kind, NUMBER_LIMIT};
use campaign::room;

const ENGINES: [&dyn Engine; 2] = [&REFERENCE, &PROVED];

/// Normal tasks with a goal that mostly cannot be reached, some with many layers or large values.
fn blocked_tasks(seed: u64, count: usize) -> impl Iterator<Item = Task> {
    let mut rng = Rng::new(seed);
    normal_tasks(seed + 1, count)
        .enumerate()
        .map(move |(i, task)| match i % 16 {
            0 => at_value_limit(&mut rng).normal(),
            1 => large_values(&mut rng),
            2 => {
                let (variables, gates) = (2 + 2 * rng.below(5), 1 + rng.below(9));
                let task = waves(&mut rng, Kind::Normal, variables, gates);
                blocked(&mut rng, &task)
            }
            _ => blocked(&mut rng, &task),
        })
}

/// Numbers of memory for all layers.
fn enough(task: &Task) -> usize {
    room::layer_numbers(room::counts(&task.table))
}

fn decided(engine: &dyn Engine, task: &Task) -> Result<Decision, Refusal> {
    let mut layers = vec![0; enough(task)];
    engine.decide(&task.table, &task.state, &mut layers)
}

/// The offset of the part that blocks, with memory for all layers; none if nothing does.
fn offset(engine: &dyn Engine, task: &Task) -> Result<Option<usize>, Refusal> {
    let mut layers = vec![0; enough(task)];
    let answer = engine.blocking(&task.table, &task.state, &mut layers)?;
    Ok(match answer {
        Blocking::Blocks { offset } => Some(offset as usize),
        Blocking::Nothing => None,
    })
}

/// The task with some parts of its goal only.
fn with_parts<'p>(task: &Task, parts: impl IntoIterator<Item = &'p Part>) -> Task {
    let goal = goal_parts(&task.table).first().map(|part| part.range.start);
    let mut table = task.table[..goal.expect("the goal has parts")].to_vec();
    for part in parts {
        table.extend(&task.table[part.range.clone()]);
    }
    table.push(0x45);
    Task {
        table,
        state: task.state.clone(),
    }
}

/// The answers of `decide` and `blocking` with the same memory, and what both leave in it.
fn both(engine: &dyn Engine, call: &Call) -> [(String, String); 2] {
    [CallKind::Decide, CallKind::Blocking].map(|kind| {
        let call = Call {
            kind,
            ..call.clone()
        };
        let outcome = call.run(engine).expect("all canaries are whole");
        let outcome = outcome.to_string();
        let (answer, memory) = outcome.split_once(" memory ").expect("both have memory");
        (answer.into(), memory.into())
    })
}

/// Refusals and memory are the same, and nothing blocks exactly where there is a plan.
fn check_both(engine: &dyn Engine, call: &Call) -> &'static str {
    let [(decision, layers), (blocking, memory)] = both(engine, call);
    assert_eq!(memory, layers, "{call}");
    if decision.starts_with("refusal ") {
        assert_eq!(blocking, decision, "{call}");
        "refused"
    } else if decision.starts_with("no plan ") {
        assert!(blocking.starts_with("blocks "), "{call}");
        "blocked"
    } else {
        assert!(decision.starts_with("plan layer "), "{call}");
        assert_eq!(blocking, "nothing", "{call}");
        "planned"
    }
}

#[test]
fn refusals_and_memory_are_those_of_decide() {
    let mut rng = Rng::new(40);
    let mut found = Vec::new();
    for task in blocked_tasks(41, 800) {
        for numbers in Sizes::of(&task).memories(&mut rng) {
            let call = task.blocking(numbers);
            found.extend(ENGINES.map(|engine| check_both(engine, &call)));
        }
    }
    for _ in 0..3_000 {
        let mut call = blocking_call(&mut rng);
        if rng.chance(1, 2) {
            damage(&mut rng, &mut call);
        }
        found.extend(ENGINES.map(|engine| check_both(engine, &call)));
    }
    for (answer, least) in [("refused", 5_000), ("blocked", 2_000), ("planned", 2_000)] {
        let count = found.iter().filter(|found| **found == answer).count();
        assert!(count > least, "{answer}: {count}");
    }
}

/// The part is one of the goal's. Alone it has no plan, and no list reaches it: it fails at a bound
/// of all that moves can reach. Each part before it has a plan alone, as all of them have together,
/// within the layers that there are.
#[test]
fn the_part_alone_is_out_of_reach_and_those_before_it_are_not() {
    let (mut blocked, mut before_it) = ([0; 2], [0; 2]);
    for task in blocked_tasks(42, 3_000) {
        for (i, engine) in ENGINES.into_iter().enumerate() {
            let Ok(Some(offset)) = offset(engine, &task) else {
                continue;
            };
            let layers = decided(engine, &task).expect("a decision").layers;
            let parts = goal_parts(&task.table);
            let at = parts.iter().position(|part| part.offset == offset);
            let (before, rest) = parts.split_at(at.expect("a part of the goal"));
            assert!(matches!(task.table[offset], 0x50 | 0x43), "{task}");
            let alone = with_parts(&task, &rest[..1]);
            let decision = decided(engine, &alone).expect("the same layers");
            assert_eq!((decision.answer, decision.layers), (Answer::NoPlan, layers));
            let bound = saturate(&alone.table, &alone.state).expect("an accepted task");
            assert!(!bound.goal, "{task}");
            for part in before.iter().map(std::slice::from_ref).chain([before]) {
                let reached = with_parts(&task, part);
                let decision = decided(engine, &reached).expect("fewer layers");
                assert!(matches!(decision.answer, Answer::Layer(m) if m <= layers));
                before_it[i] += part.len().min(1);
            }
            blocked[i] += 1;
        }
    }
    assert!(blocked.iter().all(|n| *n > 1_000), "{blocked:?}");
    assert!(before_it.iter().all(|n| *n > 1_000), "{before_it:?}");
}

/// A written task whose goal has conditions of the moves too, some of them made harder.
fn harder(rng: &mut Rng, task: &Task) -> Task {
    let mut table = parse_table(&task.table).expect("a generated table is accepted");
    let asked = table.moves.iter().flat_map(|block| &block.items);
    let asked = asked.filter(|item| matches!(item, Item::Condition(_)));
    let mut asked: Vec<Item> = asked.cloned().collect();
    rng.shuffle(&mut asked);
    asked.truncate(rng.below(4));
    table.goal.items.extend(asked);
    for item in &mut table.goal.items {
        if let Item::Condition(condition) = item {
            if rng.chance(1, 3) {
                raise(rng, condition);
            }
        }
    }
    rng.shuffle(&mut table.goal.items);
    Task {
        table: table.encode(),
        state: task.state.clone(),
    }
}

/// Makes a condition harder to meet.
fn raise(rng: &mut Rng, condition: &mut Condition) {
    let more = *rng.pick(&[1, 5, 1_000, NUMBER_LIMIT]);
    let more = match condition.comparison {
        Comparison::AtLeast | Comparison::Above => more,
        Comparison::AtMost | Comparison::Below => -more,
        Comparison::Equal => *rng.pick(&[more, -more]),
    };
    let constant = condition.constant + more;
    condition.constant = constant.clamp(-NUMBER_LIMIT, NUMBER_LIMIT);
}

/// The written part that the part at an offset of the normal form came from: an = became two.
fn written_part(written: &[Part], normal: &[Part], offset: usize) -> usize {
    let parts = |part: &Part| match part.needs {
        Needs::Sum(_, 4, _) => 2,
        _ => 1,
    };
    let origins = written.iter().enumerate();
    let origins = origins.flat_map(|(i, part)| vec![i; parts(part)]);
    let mut pairs = normal.iter().zip(origins);
    let found = pairs.find(|(part, _)| part.offset == offset);
    found.expect("a part of the goal").1
}

/// What a written task's goal cannot do without is the same in the written table: with that one
/// condition only, without each of the others, and without several of them there is no plan.
#[test]
fn giving_up_other_written_conditions_does_not_help() {
    let mut rng = Rng::new(44);
    let mut by_comparison = [[0; 6]; 2];
    let short = |task: &Task| task.table.len() < 30_000;
    for task in tasks(45, 2_500, Kind::Written).filter(short) {
        let task = harder(&mut rng, &task);
        for (i, engine) in ENGINES.into_iter().enumerate() {
            let normal = normal_of(engine, &task);
            let Ok(Some(offset)) = offset(engine, &normal) else {
                continue;
            };
            let parts = goal_parts(&task.table);
            let kept = written_part(&parts, &goal_parts(&normal.table), offset);
            let some: Vec<bool> = parts.iter().map(|_| rng.chance(1, 2)).collect();
            let alone = (0..parts.len()).map(|i| i == kept).collect();
            let without = (0..parts.len()).map(|i| (0..parts.len()).map(|j| i != j).collect());
            let goals: Vec<Vec<bool>> = without.chain([some, alone]).collect();
            for chosen in goals.iter().filter(|chosen| chosen[kept]) {
                let chosen = parts.iter().zip(chosen).filter(|(_, chosen)| **chosen);
                let fewer = with_parts(&task, chosen.map(|(part, _)| part));
                let decision = decided(engine, &normal_of(engine, &fewer));
                let answer = decision.map(|decision| decision.answer);
                assert_eq!(answer, Ok(Answer::NoPlan), "{task}");
            }
            by_comparison[i][comparison(&parts[kept])] += 1;
        }
    }
    let mut counts = by_comparison.iter().flatten();
    assert!(counts.all(|count| *count > 40), "{by_comparison:?}");
}

fn normal_of(engine: &dyn Engine, task: &Task) -> Task {
    Task {
        table: normalised(engine, &task.table).expect("a normal form"),
        state: task.state.clone(),
    }
}

/// The comparison's number; 5 for a proposition.
fn comparison(part: &Part) -> usize {
    match part.needs {
        Needs::Proposition(_) => 5,
        Needs::Sum(_, comparison, _) => comparison.into(),
    }
}
