//! Properties of the specification on generated inputs: real lists, plans and layers.

mod blocking;
mod helpful;
mod memory;
mod rewrite;
mod tables;
mod weight_zero;

use campaign::answer::{Answer, Head, Reason};
use campaign::engine::{Engine, REFERENCE};
use campaign::generate::{at_value_limit, task, waves, Rng, Task};
use campaign::harness::{normalised, planned, Planned};
use campaign::meaning::{check_meaning, solves};
use campaign::reference::semantics::{real_run, saturate, RealRun, RealState, Saturation};
use campaign::reference::table::{Kind, Table};
use campaign::reference::{parse_table, parse_task};
use memory::check_memory;

const ENGINE: &dyn Engine = &REFERENCE;

fn tasks(seed: u64, count: usize, kind: Kind) -> impl Iterator<Item = Task> {
    let mut rng = Rng::new(seed);
    (0..count).map(move |_| task(&mut rng, kind))
}

/// The task with the normal form of its written table.
fn normal_task(written: &Task) -> Task {
    Task {
        table: normalised(ENGINE, &written.table).expect("a written table has a normal form"),
        state: written.state.clone(),
    }
}

/// Normal tasks, half of them from written ones.
fn normal_tasks(seed: u64, count: usize) -> impl Iterator<Item = Task> {
    let written = tasks(seed, count / 2, Kind::Written).map(|task| normal_task(&task));
    written.chain(tasks(seed + 1, count / 2, Kind::Normal))
}

#[test]
fn generated_tables_and_states_are_accepted() {
    for kind in [Kind::Written, Kind::Normal] {
        for task in tasks(1, 1_500, kind) {
            let table = parse_table(&task.table);
            assert_eq!(table.map(|t| t.kind), Ok(kind), "{task}");
            assert!(parse_task(&task.table, &task.state).is_ok(), "{task}");
        }
    }
}

#[test]
fn generated_tables_reach_the_limits() {
    let tables: Vec<Table> = tasks(2, 1_000, Kind::Normal)
        .chain(tasks(2, 1_000, Kind::Written))
        .map(|task| parse_table(&task.table).unwrap())
        .collect();
    let most = |count: fn(&Table) -> usize| tables.iter().map(count).max();
    let terms = |table: &Table| {
        let conditions = table.goal.conditions().map(|c| c.terms.len());
        conditions.max().unwrap_or(0)
    };
    assert_eq!(most(|table| table.propositions), Some(120));
    assert_eq!(most(|table| table.variables), Some(32));
    assert_eq!(most(|table| table.moves.len()), Some(64));
    assert_eq!(most(terms), Some(8));
}

#[test]
fn normal_forms_are_accepted() {
    for task in tasks(3, 2_000, Kind::Written) {
        let [_, p, v, a] = [0, 1, 2, 3].map(|i| task.table[i]);
        let normal = normalised(ENGINE, &task.table).unwrap();
        let head = Head {
            kind: 0x4E,
            p,
            v_or_n: 2 * v,
            a,
        };
        assert_eq!(ENGINE.read(&normal), Ok(head), "{task}");
        assert!(normal.len() <= 64_000);
        let refusal = match normal.len() > 32_000 {
            true => Reason::TableTooLong.at(0),
            false => Reason::Misplaced.at(0),
        };
        assert_eq!(normalised(ENGINE, &normal), Err(refusal), "{task}");
    }
}

/// A list of moves that mostly run, one after the other.
fn real_list(rng: &mut Rng, task: &Task) -> Vec<u64> {
    let moves = usize::from(task.table[3]);
    let mut list = Vec::new();
    for _ in 0..if moves == 0 { 0 } else { 12 } {
        list.push(rng.below(moves) as u64);
        let run = real_run(&task.table, &task.state, &list).unwrap();
        if matches!(run, RealRun::Stuck { .. }) && rng.chance(9, 10) {
            list.pop();
        }
    }
    list
}

/// The values of a written state as those of signed variables.
fn signed(state: &RealState) -> RealState {
    RealState {
        propositions: state.propositions.clone(),
        values: state.values.iter().flat_map(|v| [v.clone(), -v]).collect(),
    }
}

#[test]
fn real_lists_agree_on_a_table_and_its_normal_form() {
    let mut rng = Rng::new(4);
    let (mut finished, mut stuck, mut goals) = (0, 0, 0);
    for task in tasks(5, 1_200, Kind::Written) {
        let list = real_list(&mut rng, &task);
        let written = real_run(&task.table, &task.state, &list).unwrap();
        let normal = real_run(&normal_task(&task).table, &task.state, &list).unwrap();
        let expected = match written {
            RealRun::Stuck { at } => {
                stuck += 1;
                RealRun::Stuck { at }
            }
            RealRun::Finished { state, goal } => {
                finished += usize::from(!list.is_empty());
                goals += usize::from(goal);
                let state = signed(&state);
                RealRun::Finished { state, goal }
            }
        };
        assert_eq!(normal, expected, "{task} {list:?}");
    }
    assert!(finished > 300 && stuck > 100 && goals > 50);
}

#[test]
fn steps_agree_with_real_lists() {
    let mut rng = Rng::new(6);
    let (mut steps, mut beyond, mut failed) = (0, 0, 0);
    for task in tasks(7, 1_200, Kind::Written) {
        let list = real_list(&mut rng, &task);
        let mut state = task.state.clone();
        for length in 1..=list.len() {
            let mut out = vec![0; state.len()];
            let answer = ENGINE.step(&task.table, &state, list[length - 1], &mut out);
            let run = real_run(&task.table, &task.state, &list[..length]).unwrap();
            match (answer, run) {
                (Ok(written), RealRun::Finished { state: real, .. }) => {
                    assert_eq!(written, state.len());
                    state = out;
                    assert_eq!(run_of_no_move(&task.table, &state), real, "{task} {list:?}");
                    steps += 1;
                }
                (Err(refusal), RealRun::Finished { state: real, .. }) => {
                    assert_eq!(refusal, Reason::ResultRange.at(0), "{task} {list:?}");
                    assert!(exceeds_a_million(&real), "{task} {list:?}");
                    beyond += 1;
                    break;
                }
                (Err(refusal), RealRun::Stuck { at }) => {
                    assert_eq!(refusal, Reason::ConditionsFail.at(0), "{task} {list:?}");
                    assert_eq!(at, length - 1);
                    failed += 1;
                    break;
                }
                (Ok(_), RealRun::Stuck { .. }) => panic!("{task} {list:?}"),
            }
        }
    }
    assert!(steps > 2_000 && beyond > 30 && failed > 50);
}

fn run_of_no_move(table: &[u8], state: &[u8]) -> RealState {
    match real_run(table, state, &[]).unwrap() {
        RealRun::Finished { state, .. } => state,
        RealRun::Stuck { .. } => unreachable!("there is no move"),
    }
}

fn exceeds_a_million(state: &RealState) -> bool {
    let limit = 1_000_000.into();
    state.values.iter().any(|v| *v > limit || -v > limit)
}

/// Checks an answer, its plan and the layers in memory.
fn check_plan(task: &Task) -> Planned {
    let planned = planned(ENGINE, &task.table, &task.state);
    let planned = check_meaning(task, planned).expect("all values are small");
    match planned.plan.answer {
        Answer::NoPlan => {
            let bound = saturate(&task.table, &task.state).unwrap();
            assert_eq!(last_layer(task, &planned), bound.values, "{task}");
        }
        Answer::Layer(m) => assert_eq!(m, planned.plan.layers, "{task}"),
    }
    check_memory(task, &planned);
    planned
}

/// The values of the last layer in memory, none for unbounded ones.
fn last_layer(task: &Task, planned: &Planned) -> Vec<Option<i128>> {
    let start = planned.memory.len() - usize::from(task.table[2]);
    let value = |v: &i64| (*v != i64::MAX).then_some(i128::from(*v));
    planned.memory[start..].iter().map(value).collect()
}

#[test]
fn plans_solve_and_no_plan_is_sure() {
    let (mut plans, mut deep, mut none, mut needed_counts) = (0, 0, 0, 0);
    for task in normal_tasks(8, 3_000) {
        let planned = check_plan(&task);
        match planned.plan.answer {
            Answer::NoPlan => none += 1,
            Answer::Layer(0) => assert!(planned.records.is_empty(), "{task}"),
            Answer::Layer(m) => {
                plans += 1;
                deep += usize::from(m > 2);
                assert!(!solves(&task, &[]), "{task}");
                let once: Vec<_> = planned.records.iter().map(|(mv, _)| (*mv, 1)).collect();
                needed_counts += usize::from(!solves(&task, &once));
            }
        }
    }
    assert!(plans > 1_000 && deep > 100 && none > 200 && needed_counts > 200);
}

#[test]
fn decide_and_plan_agree() {
    for task in normal_tasks(10, 1_000) {
        let planned = planned(ENGINE, &task.table, &task.state).unwrap();
        let mut memory = vec![3; planned.memory.len() + 2];
        let decision = ENGINE
            .decide(&task.table, &task.state, &mut memory)
            .unwrap();
        assert_eq!(decision.answer, planned.plan.answer, "{task}");
        assert_eq!(decision.layers, planned.plan.layers, "{task}");
        assert_eq!(memory[..planned.memory.len()], planned.memory, "{task}");
        assert_eq!(memory[planned.memory.len()..], [3, 3], "{task}");
    }
}

/// The memory when only the layers up to `last` could be stored.
fn cut_memory(table: &Table, whole: &[i64], last: usize) -> Vec<i64> {
    let (p, entries) = (table.propositions, table.propositions + table.moves.len());
    let mut memory = whole[..entries + table.variables * (last + 1)].to_vec();
    for (i, entry) in memory[..entries].iter_mut().enumerate() {
        let kept = if i < p { last } else { last.wrapping_sub(1) };
        if kept == usize::MAX || *entry > kept as i64 {
            *entry = -1;
        }
    }
    memory
}

#[test]
fn short_memory_is_refused_at_its_layer() {
    let mut refused = 0;
    for task in normal_tasks(12, 800) {
        let table = parse_table(&task.table).unwrap();
        let planned = planned(ENGINE, &task.table, &task.state).unwrap();
        let entries = table.propositions + table.moves.len();
        for layer in 0..=planned.plan.layers as usize {
            let needed = entries + table.variables * (layer + 1);
            let mut memory = vec![3; needed.saturating_sub(1)];
            if needed == 0 || (table.variables == 0 && layer > 0) {
                continue;
            }
            let refusal = ENGINE.decide(&task.table, &task.state, &mut memory);
            assert_eq!(refusal, Err(Reason::MemoryShort.at(layer)), "{task}");
            let expected = match layer {
                0 => Vec::new(),
                _ => cut_memory(&table, &planned.memory, layer - 1),
            };
            assert_eq!(memory[..expected.len()], expected, "{task} layer {layer}");
            assert!(memory[expected.len()..].iter().all(|n| *n == 3), "{task}");
            refused += layer.min(1);
        }
    }
    assert!(refused > 300);
}

#[test]
fn waves_have_hundreds_of_layers() {
    let mut rng = Rng::new(14);
    let (mut plans, mut none) = (0, 0);
    for (kind, variables, gates) in [
        (Kind::Normal, 32, 63),
        (Kind::Normal, 32, 20),
        (Kind::Normal, 8, 50),
        (Kind::Normal, 2, 63),
        (Kind::Written, 16, 63),
        (Kind::Written, 16, 30),
        (Kind::Written, 5, 60),
    ] {
        for _ in 0..4 {
            let mut task = waves(&mut rng, kind, variables, gates);
            if kind == Kind::Written {
                task = normal_task(&task);
            }
            let planned = check_plan(&task);
            assert_eq!(planned.plan.layers as usize, variables * gates, "{task}");
            match planned.plan.answer {
                Answer::NoPlan => none += 1,
                Answer::Layer(_) => plans += 1,
            }
        }
    }
    assert!(plans > 4 && none > 4);
}

/// The listing has 8,192 numbers of layer memory: for the entries and 32 a layer.
#[test]
fn long_listings_run_out_of_layer_memory() {
    let mut rng = Rng::new(27);
    for _ in 0..4 {
        let task = waves(&mut rng, Kind::Written, 16, 40);
        let stored = (8_192 - usize::from(task.table[3])) / 32;
        let text = ENGINE.listing(&task.table, &task.state);
        assert_eq!(text, format!("refusal 14 place {stored}\n"), "{task}");
    }
}

/// The value that the last layer of such a task would have.
fn limit_value(task: &Task) -> i128 {
    let bound = saturate(&normal_task(task).table, &task.state).unwrap();
    bound.values[0].expect("the value is finite")
}

#[test]
fn values_past_a_trillion_are_refused() {
    let mut rng = Rng::new(15);
    let (mut at, mut past) = (0, 0);
    for _ in 0..300 {
        let task = at_value_limit(&mut rng);
        let normal = normal_task(&task);
        let value = limit_value(&task);
        let answer = planned(ENGINE, &normal.table, &normal.state);
        if value > 1_000_000_000_000 {
            assert_eq!(answer, Err(Reason::ValueRange.at(2)), "{task}");
            past += 1;
        } else {
            assert_eq!(answer.map(|p| p.plan.layers), Ok(2), "{task}");
            at += usize::from(value == 1_000_000_000_000);
        }
    }
    assert!(at > 50 && past > 50);
}

/// No list of real moves exceeds the bound.
#[test]
fn saturation_allows_what_random_lists_reach() {
    let mut rng = Rng::new(25);
    for task in normal_tasks(26, 500) {
        let Saturation { values, .. } = saturate(&task.table, &task.state).unwrap();
        let list = real_list(&mut rng, &task);
        if let RealRun::Finished { state, .. } = real_run(&task.table, &task.state, &list).unwrap()
        {
            for (bound, value) in values.iter().zip(state.values) {
                assert!(bound.is_none_or(|bound| value <= bound.into()), "{task}");
            }
        }
    }
}
