//! Terms of weight 0: what generated tables have of them, and that they change nothing but the
//! PDDL text.

use super::tasks;
use campaign::answer::Reason;
use campaign::call::{Call, CallKind};
use campaign::commands::{has_zero_term, without_zero_terms};
use campaign::engine::{Engine, REFERENCE};
use campaign::generate::{grid, m1, m1_grid, normal_length, state_for, Rng, Sizes, Task};
use campaign::harness::{normalised, texted};
use campaign::proved::PROVED;
use campaign::reference::table::{Item, Kind, Table, Term};
use campaign::reference::{parse_table, read};

const ENGINES: [&dyn Engine; 2] = [&REFERENCE, &PROVED];

/// The sums of a table.
fn sums(mut table: Table) -> Vec<Vec<Term>> {
    let items = table.blocks_mut().flat_map(|block| block.items.iter_mut());
    items
        .filter_map(Item::terms_mut)
        .map(std::mem::take)
        .collect()
}

fn zeros(sum: &[Term]) -> usize {
    sum.iter().filter(|term| term.weight == 0).count()
}

/// The table with weight 1 in the place of each 0.
fn with_ones(mut table: Table) -> Vec<u8> {
    for block in table.blocks_mut() {
        let terms = block.items.iter_mut().filter_map(Item::terms_mut).flatten();
        terms.filter(|t| t.weight == 0).for_each(|t| t.weight = 1);
    }
    table.encode()
}

/// Tables without any, with a few, and grids; sums of nothing else; edges that would close a circle.
#[test]
fn generated_tables_have_them() {
    let tables = tasks(30, 3_000, Kind::Written).map(|task| parse_table(&task.table).unwrap());
    let (mut none, mut few, mut grids, mut eight, mut circles) = (0, 0, 0, 0, 0);
    for table in tables {
        let circle = read(&with_ones(table.clone())) == Err(Reason::Circle.at(0));
        circles += usize::from(circle);
        let sums = sums(table);
        let terms: usize = sums.iter().map(Vec::len).sum();
        match sums.iter().map(|sum| zeros(sum)).sum::<usize>() {
            0 => none += usize::from(terms > 0),
            zeros if 2 * zeros > terms => grids += 1,
            _ => few += 1,
        }
        eight += usize::from(sums.iter().any(|sum| zeros(sum) == 8));
    }
    let found = [none, few, grids, eight, circles];
    assert!(none > 800 && few > 300 && grids > 400, "{found:?}");
    assert!(eight > 50 && circles > 300, "{found:?}");
}

/// A task with a term of weight 0, and the same without such terms.
fn pairs(seed: u64, count: usize) -> impl Iterator<Item = [Task; 2]> {
    let made = tasks(seed, count, Kind::Written).chain([m1_grid()]);
    made.filter(|task| has_zero_term(&task.table)).map(without)
}

fn without(task: Task) -> [Task; 2] {
    let plain = Task {
        table: without_zero_terms(&task.table),
        state: task.state.clone(),
    };
    [task, plain]
}

/// The whole outcome of a call of each task.
fn outcomes(engine: &dyn Engine, pair: &[Task; 2], call: impl Fn(&Task) -> Call) -> [String; 2] {
    pair.each_ref().map(|task| {
        let outcome = call(task).run(engine).expect("all canaries are whole");
        outcome.to_string()
    })
}

#[test]
fn m1_is_its_grid_without_them() {
    assert_eq!(without(m1_grid())[1], m1());
}

#[test]
fn normal_forms_do_not_have_them() {
    let mut rng = Rng::new(31);
    let grids = [1_000, 32_000].map(|length| without(grid(&mut rng, length)));
    for pair in pairs(32, 3_000).chain(grids) {
        for engine in ENGINES {
            let [one, other] = pair.each_ref().map(|task| normalised(engine, &task.table));
            let table = parse_table(one.as_ref().expect("a normal form")).expect("it is accepted");
            assert!(sums(table).iter().all(|sum| zeros(sum) == 0), "{}", pair[0]);
            assert_eq!(one, other, "{}", pair[0]);
        }
    }
}

/// Every move, in the state of the task and in another.
#[test]
fn steps_pass_over_them() {
    let mut rng = Rng::new(33);
    let (mut steps, mut accepted) = (0, 0);
    for mut pair in pairs(34, 1_200) {
        let table = parse_table(&pair[0].table).expect("a generated table is accepted");
        for state in [pair[0].state.clone(), state_for(&mut rng, &table)] {
            pair.iter_mut().for_each(|task| task.state = state.clone());
            for mv in 0..=table.moves.len() as u64 {
                let step = |task: &Task| Call {
                    table: task.table.clone(),
                    state: task.state.clone(),
                    index: mv,
                    room: task.state.len(),
                    ..CallKind::Step.call()
                };
                for engine in ENGINES {
                    let [one, other] = outcomes(engine, &pair, step);
                    assert_eq!(one, other, "{} move {mv}", pair[0]);
                    accepted += usize::from(one.starts_with("ok"));
                    steps += 1;
                }
            }
        }
    }
    assert!(steps > 10_000 && accepted > 2_000, "{accepted} of {steps}");
}

/// Answers, normal forms, layer memory and records, with memories around what is needed.
#[test]
fn campaigns_are_those_without_them() {
    let mut rng = Rng::new(35);
    let (mut campaigns, mut plans) = (0, 0);
    for pair in pairs(36, 1_500) {
        let normal = normal_length(&pair[0].table);
        let sizes = Sizes::of(&pair[0].normal()).plans(&mut rng);
        for _ in 0..4 {
            let (numbers, room) = *rng.pick(&sizes);
            let normal = normal - usize::from(rng.chance(1, 8));
            for engine in ENGINES {
                let campaign = |task: &Task| task.campaign(normal, numbers, room);
                let [one, other] = outcomes(engine, &pair, campaign);
                assert_eq!(one, other, "{}", pair[0]);
                plans += usize::from(one.starts_with("plan"));
                campaigns += 1;
            }
        }
    }
    assert!(campaigns > 4_000 && plans > 800, "{plans} of {campaigns}");
}

#[test]
fn decisions_and_plans_are_those_without_them() {
    let mut rng = Rng::new(37);
    for pair in pairs(38, 600) {
        for engine in ENGINES {
            let normal = pair.each_ref().map(|task| Task {
                table: normalised(engine, &task.table).expect("a normal form"),
                state: task.state.clone(),
            });
            let sizes = Sizes::of(&normal[0]).plans(&mut rng);
            let (numbers, room) = *rng.pick(&sizes);
            let [one, other] = outcomes(engine, &normal, |task| task.decide(numbers));
            assert_eq!(one, other, "{}", pair[0]);
            let [one, other] = outcomes(engine, &normal, |task| task.plan(numbers, room));
            assert_eq!(one, other, "{}", pair[0]);
        }
    }
}

#[test]
fn texts_have_them() {
    let mut count = 0;
    for pair in pairs(39, 1_500) {
        for engine in ENGINES {
            let [one, other] = pair.each_ref().map(|task| texted(engine, task).unwrap());
            assert_ne!(one, other, "{}", pair[0]);
            let sums = sums(parse_table(&pair[0].table).unwrap());
            let zeros: usize = sums.iter().map(|sum| zeros(sum)).sum();
            assert_eq!(one.matches("(* 0 (v").count(), zeros, "{}", pair[0]);
            assert_eq!(other.matches("(* 0 (v").count(), 0, "{}", pair[0]);
        }
        count += 1;
    }
    assert!(count > 500, "{count}");
}
