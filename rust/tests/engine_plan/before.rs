//! Outcomes from before the set held helpful moves: where the set has grown, all else is as it was.

use super::ENGINE;
use campaign::call::{Call, CallKind, GROWN_SETS};
use campaign::engine::{Calls, Engine, REFERENCE};
use campaign::harness::{outcomes, run_lines};
use campaign::helpful::{plan_with, taken_moves};
use campaign::proved;
use campaign::reference::plan;

/// An outcome without its set, and the set.
fn apart(outcome: &str) -> (String, u64) {
    let (before, rest) = outcome.split_once(" first ").expect("a plan has a set");
    let (set, behind) = rest.split_once(' ').expect("a plan has an output");
    (format!("{before} {behind}"), set.parse().expect("a number"))
}

#[test]
fn sets_have_grown_and_all_else_stays() {
    let (file, lines) = GROWN_SETS;
    let text = outcomes(file);
    assert_eq!(text.lines().count(), lines);
    for line in text.lines() {
        let (call, expected) = line.split_once(" -> ").expect("a line has an outcome");
        let call = Call::parse(CallKind::Plan, call).expect("a line has a call");
        let engines: [&dyn Engine; 2] = [&REFERENCE, ENGINE];
        for engine in engines {
            let outcome = call.run(engine).expect("all canaries are whole");
            let outcome = outcome.to_string();
            let [(was, old), (is, new)] = [expected, &outcome].map(apart);
            assert_eq!(is, was, "{call}");
            assert!(old & new == old && old != new, "{call}: {old} {new}");
        }
    }
}

/// With the moves taken at layer 0 as its set, the plan of either engine is that of every line from before.
#[test]
fn the_sets_from_before_are_the_moves_taken() {
    let proved = Calls {
        plan: |table, state, layers, out| {
            let plan = proved::plan(table, state, layers, out)?;
            Ok(plan_with(taken_moves, plan, table, layers))
        },
        ..Calls::NONE
    };
    let reference = Calls {
        plan: |table, state, layers, out| {
            let plan = plan(table, state, layers, out)?;
            Ok(plan_with(taken_moves, plan, table, layers))
        },
        ..Calls::NONE
    };
    let records = CallKind::Plan.records().iter().copied();
    let before = records.filter(|(file, _)| file.starts_with("before-helpful/"));
    let files: Vec<_> = before.chain([GROWN_SETS]).collect();
    assert_eq!(files.iter().map(|(_, lines)| lines).sum::<usize>(), 519);
    for (file, lines) in files {
        let text = outcomes(file);
        for engine in [&proved, &reference] {
            let run = run_lines(engine, CallKind::Plan, file, &text);
            assert_eq!(run, Ok(lines));
        }
    }
}
