//! Lists of moves on the reference and on the proved engine: real plans that a search finds and what
//! becomes of them with a change, and all lists of tiny tables, judged by the definition.

mod impostors;

use campaign::answer::{Checked, Fault};
use campaign::engine::{Check, REFERENCE};
use campaign::generate::{hex, task_of, Rng, Task};
use campaign::proved::PROVED;
use campaign::real_plans::{
    aimed, all_lists, is_yes, judge, search, solves, Limits, Search, Verdict,
};
use campaign::reference::table::Kind;

const CHECKS: [Check; 2] = [REFERENCE.check, PROVED.check];

/// What an output holds before a call.
const HELD: u8 = 0xA5;

/// How many lists came to what.
#[derive(Debug, Default)]
struct Counts {
    yes: usize,
    missing: usize,
    not_allowed: usize,
    out_of_range: usize,
    goal_not_met: usize,
    /// Lists that leave the range and solve the task.
    came_back: usize,
}

impl Counts {
    fn of(&mut self, verdict: &Verdict) -> &mut usize {
        match verdict {
            Verdict::Yes { .. } => &mut self.yes,
            Verdict::GoalNotMet => &mut self.goal_not_met,
            Verdict::Breaks { fault, .. } => match fault {
                Fault::Missing => &mut self.missing,
                Fault::NotAllowed => &mut self.not_allowed,
                Fault::OutOfRange => &mut self.out_of_range,
            },
        }
    }

    /// The fewest of one sort.
    fn fewest(&self) -> usize {
        let faults = [self.missing, self.not_allowed, self.out_of_range];
        let fewest = faults.into_iter().min().expect("three faults");
        fewest.min(self.yes).min(self.goal_not_met)
    }
}

/// A call answers what the list comes to, and writes the end state alone.
fn compare(check: Check, task: &Task, list: &[u8], verdict: &Verdict) -> Result<(), String> {
    let mut out = vec![HELD; task.state.len() + 3];
    let answer = check(&task.table, &task.state, list, &mut out);
    let (expected, end) = match verdict {
        Verdict::Yes { end } => (Checked::Yes { length: end.len() }, &end[..]),
        Verdict::GoalNotMet => (Checked::GoalNotMet, &[][..]),
        Verdict::Breaks { index, fault } => {
            let (index, fault) = (*index as u64, *fault);
            (Checked::Fails { index, fault }, &[][..])
        }
    };
    let kept = vec![HELD; out.len() - end.len()];
    match answer == Ok(expected) && out == [end, &kept].concat() {
        true => Ok(()),
        false => {
            let (list, out) = (hex(list), hex(&out));
            Err(format!("{task} {list}: {answer:?} {out} for {verdict:?}"))
        }
    }
}

/// Every call answers what the list comes to.
fn check_list(
    checks: &[Check],
    task: &Task,
    list: &[u8],
    counts: &mut Counts,
) -> Result<Verdict, String> {
    let verdict = judge(task, list);
    let yes = matches!(verdict, Verdict::Yes { .. });
    assert_eq!(is_yes(task, list), yes, "{task} {}", hex(list));
    *counts.of(&verdict) += 1;
    counts.came_back += usize::from(!yes && solves(task, list));
    for check in checks {
        compare(*check, task, list, &verdict)?;
    }
    Ok(verdict)
}

/// A task with up to these counts, and mostly a goal that up to so many moves lead to. Values of half
/// the states are next to the limits.
fn small_task(rng: &mut Rng, [p, v, a]: [usize; 3], moves: usize) -> Task {
    let counts = [rng.below(p + 1), rng.below(v + 1), 1 + rng.below(a)];
    let mut task = task_of(rng, Kind::Written, counts);
    if rng.chance(1, 2) {
        for value in task.state[counts[0]..].chunks_exact_mut(4) {
            let edge = 1_000_000 - rng.below(9) as i32;
            let edge = if rng.chance(1, 2) { edge } else { -edge };
            value.copy_from_slice(&edge.to_be_bytes());
        }
    }
    match rng.chance(3, 4) {
        true => aimed(rng, &task, moves),
        false => task,
    }
}

/// A list with one entry dropped, doubled or changed into every other move or one that is missing.
fn altered(list: &[u8], moves: u8) -> Vec<Vec<u8>> {
    let mut lists = Vec::new();
    for at in 0..list.len() {
        let put = |entries: &[u8]| [&list[..at], entries, &list[at + 1..]].concat();
        lists.push(put(&[]));
        lists.push(put(&[list[at], list[at]]));
        let others = (0..=moves).chain([0xFF]).filter(|mv| *mv != list[at]);
        lists.extend(others.map(|mv| put(&[mv])));
    }
    lists
}

/// What came of real plans.
#[derive(Debug, Default)]
struct Plans {
    /// The plans themselves, each of one move or more.
    found: Counts,
    /// Those of four moves or more.
    long: usize,
    /// The plans with a change.
    changed: Counts,
}

/// So many real plans, and these with a change.
fn check_plans(checks: &[Check], count: usize) -> Result<Plans, String> {
    let mut rng = Rng::new(901);
    let limits = Limits {
        depth: 12,
        states: 300,
    };
    let mut plans = Plans::default();
    while plans.found.yes < count {
        let task = small_task(&mut rng, [4, 4, 6], 9);
        let plan = match search(&task, limits) {
            Search::Found(plan) if !plan.list.is_empty() => plan,
            _ => continue,
        };
        let verdict = check_list(checks, &task, &plan.list, &mut plans.found)?;
        assert_eq!(verdict, Verdict::Yes { end: plan.end }, "{task}");
        plans.long += usize::from(plan.list.len() >= 4);
        for list in altered(&plan.list, task.table[3]) {
            check_list(checks, &task, &list, &mut plans.changed)?;
        }
    }
    Ok(plans)
}

/// All lists of so many tiny tables.
fn check_tiny(checks: &[Check], tables: usize) -> Result<Counts, String> {
    const LONGEST: usize = 5;
    let limits = Limits {
        depth: LONGEST,
        states: usize::MAX,
    };
    let mut rng = Rng::new(902);
    let mut counts = Counts::default();
    for _ in 0..tables {
        let task = small_task(&mut rng, [2, 2, 3], 4);
        let moves = task.table[3];
        let missing = *rng.pick(&[moves, moves, moves + 1, 0xFF]);
        let numbers: Vec<u8> = (0..moves).chain([missing]).collect();
        let mut shortest = None;
        for list in all_lists(&numbers, LONGEST) {
            let verdict = check_list(checks, &task, &list, &mut counts)?;
            if matches!(verdict, Verdict::Yes { .. }) {
                shortest.get_or_insert(list.len());
            }
        }
        let found = match search(&task, limits) {
            Search::Found(plan) => Some(plan.list.len()),
            _ => None,
        };
        assert_eq!(found, shortest, "{task}");
    }
    Ok(counts)
}

#[test]
fn real_plans_and_lists_next_to_them() {
    let plans = check_plans(&CHECKS, 2_500).unwrap_or_else(|fault| panic!("{fault}"));
    assert!(plans.long >= 300, "{plans:?}");
    assert!(plans.changed.fewest() >= 1_500, "{plans:?}");
    assert!(plans.changed.came_back >= 200, "{plans:?}");
}

#[test]
fn all_lists_of_tiny_tables() {
    let counts = check_tiny(&CHECKS, 400).unwrap_or_else(|fault| panic!("{fault}"));
    assert!(counts.fewest() >= 1_500, "{counts:?}");
    assert!(counts.came_back >= 150, "{counts:?}");
}
