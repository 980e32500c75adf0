//! The rewriter of stored tables: what it writes, and which lists solve it.

use super::{real_list, tasks};
use campaign::answer::{bits, Answer, Head, Plan, Reason, Refusal};
use campaign::engine::{Engine, REFERENCE};
use campaign::generate::{at_value_limit, stored, Rng, Task};
use campaign::harness::{normalised, planned, planned_by, rewritten, Planned};
use campaign::meaning::solves;
use campaign::proved::PROVED;
use campaign::reference::semantics::{real_run, RealRun};
use campaign::reference::table::{Block, Kind};
use campaign::reference::{normal_form, parse_stored_table, stored_plan};
use campaign::room;

const ENGINES: [&dyn Engine; 2] = [&REFERENCE, &PROVED];

/// Stored tasks of a kind.
fn stored_tasks(seed: u64, count: usize, kind: Kind) -> impl Iterator<Item = Task> {
    let mut rng = Rng::new(seed);
    tasks(seed + 1, count, kind).map(move |task| stored(&mut rng, &task))
}

/// Stored normal tasks, half of them with a table that a written one became.
fn stored_normal_tasks(seed: u64, count: usize) -> impl Iterator<Item = Task> {
    let written = stored_tasks(seed, count / 2, Kind::Written).map(|task| normal_stored(&task));
    written.chain(stored_tasks(seed + 2, count / 2, Kind::Normal))
}

/// The task with the normal form of its written table, moves that do nothing and all.
fn normal_stored(task: &Task) -> Task {
    let written = parse_stored_table(&task.table).expect("all checks but 16 pass");
    Task {
        table: normal_form(&written).encode(),
        state: task.state.clone(),
    }
}

/// Which moves of a stored table do nothing.
fn idle_moves(table: &[u8]) -> Vec<bool> {
    let table = parse_stored_table(table).expect("all checks but 16 pass");
    table.moves.iter().map(Block::is_idle).collect()
}

fn new_task(engine: &dyn Engine, task: &Task) -> Task {
    Task {
        table: rewritten(engine, &task.table).expect("all checks but 16 pass"),
        state: task.state.clone(),
    }
}

/// The numbers of the moves of the new table in the old one.
fn numbered_back(idle: &[bool]) -> Vec<u64> {
    let kept = (0..).zip(idle).filter(|(_, idle)| !**idle);
    kept.map(|(b, _)| b).collect()
}

/// The number in the new table of a move of the old one; none if it does nothing. A move that the
/// old table does not have stays missing.
fn renumbered(idle: &[bool], mv: u64) -> Option<u64> {
    match idle.get(mv as usize) {
        None => Some(u64::MAX),
        Some(true) => None,
        Some(false) => {
            let before = idle[..mv as usize].iter().filter(|idle| !**idle);
            Some(before.count() as u64)
        }
    }
}

#[test]
fn what_is_written_is_accepted_and_stays() {
    let (mut changed, mut same) = (0, 0);
    for kind in [Kind::Written, Kind::Normal] {
        for task in stored_tasks(50, 1_500, kind) {
            let [kind, p, v_or_n, _] = [0, 1, 2, 3].map(|i| task.table[i]);
            let a = numbered_back(&idle_moves(&task.table)).len() as u8;
            let head = Head { kind, p, v_or_n, a };
            for engine in ENGINES {
                let new = new_task(engine, &task);
                assert_eq!(engine.read(&new.table), Ok(head), "{task}");
                assert_eq!(new_task(engine, &new), new, "{task}");
                let refused = engine.read(&task.table).map_err(|refusal| refusal.reason);
                match new == task {
                    true => assert_eq!(refused, Ok(head), "{task}"),
                    false => assert_eq!(refused, Err(Reason::IdleMove), "{task}"),
                }
                changed += usize::from(new != task);
                same += usize::from(new == task);
            }
        }
    }
    assert!(changed > 4_000 && same > 400, "{changed} {same}");
}

#[test]
fn a_table_that_is_read_stays() {
    for kind in [Kind::Written, Kind::Normal] {
        for task in tasks(53, 800, kind) {
            for engine in ENGINES {
                assert_eq!(new_task(engine, &task), task, "{task}");
            }
        }
    }
}

/// The normal form of a table that still has such moves is the reference's.
#[test]
fn rewriting_and_normalising_change_places() {
    for task in stored_tasks(55, 1_500, Kind::Written) {
        for engine in ENGINES {
            let one = normalised(engine, &new_task(engine, &task).table);
            let other = rewritten(engine, &normal_stored(&task).table);
            assert_eq!(one, other, "{task}");
        }
    }
}

/// Runs a list on the old table, and on the new one without the moves that do nothing. What the old
/// list reaches, the new one reaches. It stops where the old one does, unless that is at a move that
/// does nothing.
fn check_real(old: &Task, new: &Task, list: &[u64]) -> &'static str {
    let idle = idle_moves(&old.table);
    let kept = list.iter().filter_map(|mv| renumbered(&idle, *mv));
    let kept: Vec<u64> = kept.collect();
    let was = real_run(&old.table, &old.state, list).expect("an accepted task");
    let is = real_run(&new.table, &new.state, &kept).expect("an accepted task");
    match was {
        RealRun::Finished { goal, .. } => {
            assert_eq!(is, was, "{old} {list:?}");
            if goal {
                "solved"
            } else {
                "finished"
            }
        }
        RealRun::Stuck { at } if renumbered(&idle, list[at]).is_none() => "stuck at an idle move",
        RealRun::Stuck { at } => {
            let before = list[..at].iter().filter_map(|mv| renumbered(&idle, *mv));
            let at = before.count();
            assert_eq!(is, RealRun::Stuck { at }, "{old} {list:?}");
            "stuck"
        }
    }
}

#[test]
fn real_lists_without_such_moves_do_the_same() {
    let mut rng = Rng::new(57);
    let mut found = Vec::new();
    let tasks = stored_tasks(58, 1_500, Kind::Written).chain(stored_normal_tasks(60, 1_000));
    for old in tasks {
        let mut list = real_list(&mut rng, &old);
        if rng.chance(1, 8) {
            list.insert(rng.below(list.len() + 1), u64::from(old.table[3]));
        }
        for engine in ENGINES {
            let new = new_task(engine, &old);
            found.push(check_real(&old, &new, &list));
            let list = real_list(&mut rng, &new);
            let back = numbered_back(&idle_moves(&old.table));
            let back: Vec<u64> = list.iter().map(|mv| back[*mv as usize]).collect();
            let [was, is] = [(&old, &back), (&new, &list)]
                .map(|(task, list)| real_run(&task.table, &task.state, list));
            assert_eq!(was, is, "{old} {list:?}");
        }
    }
    for (kind, least) in [
        ("solved", 300),
        ("finished", 1_000),
        ("stuck", 300),
        ("stuck at an idle move", 100),
    ] {
        let count = found.iter().filter(|found| **found == kind).count();
        assert!(count > least, "{kind}: {count}");
    }
}

/// Moves and counts, half of the time with moves that do nothing between them.
fn with_idle_moves(rng: &mut Rng, idle: &[bool], records: &[(u64, u64)]) -> Vec<(u64, u64)> {
    let moves: Vec<u64> = (0..idle.len() as u64)
        .filter(|mv| idle[*mv as usize])
        .collect();
    let mut list = records.to_vec();
    for _ in 0..if moves.is_empty() { 0 } else { rng.below(3) } {
        let at = rng.below(list.len() + 1);
        list.insert(at, (*rng.pick(&moves), 1 + rng.below(3) as u64));
    }
    list
}

/// Plans of the new table, shortened now and then, numbered back and with moves that do nothing put
/// in.
#[test]
fn relaxed_lists_without_such_moves_do_the_same() {
    let mut rng = Rng::new(63);
    let (mut solved, mut failed, mut longer) = (0, 0, 0);
    for old in stored_normal_tasks(64, 1_600) {
        let idle = idle_moves(&old.table);
        let back = numbered_back(&idle);
        for engine in ENGINES {
            let new = new_task(engine, &old);
            let Ok(planned) = planned(engine, &new.table, &new.state) else {
                continue;
            };
            let mut list = planned.records;
            if rng.chance(1, 4) {
                list.truncate(rng.below(list.len() + 1));
            }
            let numbered: Vec<_> = list
                .iter()
                .map(|(mv, n)| (back[*mv as usize], *n))
                .collect();
            let is = solves(&new, &list);
            assert_eq!(solves(&old, &numbered), is, "{old}");
            let more = with_idle_moves(&mut rng, &idle, &numbered);
            assert!(is || !solves(&old, &more), "{old} {more:?}");
            longer += usize::from(more != numbered && solves(&old, &more));
            solved += usize::from(is);
            failed += usize::from(!is);
        }
    }
    assert!(
        solved > 1_000 && failed > 200 && longer > 200,
        "{solved} {failed} {longer}"
    );
}

/// The plan of a stored normal table by the reference, moves that do nothing and all.
fn stored_planned(task: &Task) -> Result<Planned, Refusal> {
    let Task { table, state } = task;
    planned_by(room::counts(table), |memory, out| {
        stored_plan(table, state, memory, out)
    })
}

/// The old table's plan as the new one has it: each move renumbered, in the records, whose counts
/// and order stay, and in the helpful moves; the memory without the entries of the moves that do
/// nothing.
fn renumbered_plan(old: &Task, was: &Planned) -> Planned {
    let idle = idle_moves(&old.table);
    let number = |mv| renumbered(&idle, mv).expect("no plan takes a move that does nothing");
    let records = was.records.iter();
    let entry = |i: usize| i.checked_sub(usize::from(old.table[1]));
    let is_dropped = |i| entry(i).and_then(|mv| idle.get(mv)) == Some(&true);
    let memory = was.memory.iter().enumerate();
    Planned {
        plan: Plan {
            first: bits(was.plan.helpful().map(number)),
            ..was.plan
        },
        records: records.map(|(mv, count)| (number(*mv), *count)).collect(),
        memory: memory
            .filter(|(i, _)| !is_dropped(*i))
            .map(|(_, n)| *n)
            .collect(),
    }
}

/// The same answer, the same plan with its moves renumbered, the same layers, and the same memory
/// but for the entries of the moves that do nothing.
#[test]
fn plans_and_layers_are_those_of_the_old_table() {
    let mut rng = Rng::new(66);
    let (mut plans, mut others, mut none, mut refused) = (0, 0, 0, 0);
    let limits = (0..100).map(|_| at_value_limit(&mut rng).normal());
    let limits: Vec<Task> = limits.collect();
    let limits = limits.iter().map(|task| stored(&mut rng, task));
    for old in limits.chain(stored_normal_tasks(67, 1_600)) {
        let was = stored_planned(&old);
        let expected = was.clone().map(|was| renumbered_plan(&old, &was));
        for engine in ENGINES {
            let new = new_task(engine, &old);
            let is = planned(engine, &new.table, &new.state);
            assert_eq!(is, expected, "{old}");
            let (Ok(was), Ok(is)) = (&was, &is) else {
                refused += 1;
                continue;
            };
            match is.plan.answer {
                Answer::Layer(_) => plans += 1,
                Answer::NoPlan => none += 1,
            }
            others += usize::from(is.records != was.records);
        }
    }
    assert!(
        plans > 1_000 && others > 500 && none > 300 && refused > 20,
        "{plans} {others} {none} {refused}"
    );
}
