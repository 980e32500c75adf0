//! What an answer means: a yes is a list that solves the table over unlimited whole numbers with all
//! its values in range, an index the first entry behind which that is lost.

use super::ENGINE;
use campaign::answer::{Checked, Fault};
use campaign::call::Call;
use campaign::engine::Check;
use campaign::generate::{sound_check_calls, Rng};
use campaign::reference;
use campaign::reference::semantics::{real_run, RealRun, RealState};

/// What beginnings of the list come to.
fn expected(call: &Call) -> Checked {
    let run = |entries: usize| {
        let list: Vec<u64> = call.list[..entries].iter().map(|mv| (*mv).into()).collect();
        real_run(&call.table, &call.state, &list).expect("an accepted task")
    };
    for entries in 1..=call.list.len() {
        let index = entries as u64 - 1;
        let mv = call.list[entries - 1];
        let fault = match run(entries) {
            RealRun::Stuck { .. } if mv >= call.table[3] => Fault::Missing,
            RealRun::Stuck { .. } => Fault::NotAllowed,
            RealRun::Finished { state, .. } if !is_in_range(&state) => Fault::OutOfRange,
            RealRun::Finished { .. } => continue,
        };
        return Checked::Fails { index, fault };
    }
    match run(call.list.len()) {
        RealRun::Finished { goal: true, .. } => Checked::Yes {
            length: call.state.len(),
        },
        _ => Checked::GoalNotMet,
    }
}

fn is_in_range(state: &RealState) -> bool {
    let mut values = state.values.iter();
    values.all(|value| *value <= 1_000_000.into() && *value >= (-1_000_000).into())
}

/// The state that bytes stand for, and whether it meets the goal.
fn started(table: &[u8], state: &[u8]) -> (RealState, bool) {
    match real_run(table, state, &[]) {
        Ok(RealRun::Finished { state, goal }) => (state, goal),
        other => panic!("a list of no moves runs: {other:?}"),
    }
}

/// The end state that a yes has written is that of the run, and meets the goal.
fn check_end(call: &Call, out: &[u8]) {
    let list: Vec<u64> = call.list.iter().map(|mv| (*mv).into()).collect();
    let run = real_run(&call.table, &call.state, &list);
    let Ok(RealRun::Finished { state, goal: true }) = run else {
        panic!("no list that solves the table: {call}");
    };
    assert_eq!(started(&call.table, out), (state, true), "{call}");
}

/// Compares so many answers; answers how many were a yes, an index and neither.
fn check_answers(seed: u64, tables: usize, check: Check) -> Result<[usize; 3], String> {
    let mut rng = Rng::new(seed);
    let mut counts = [0; 3];
    let calls = (0..tables).flat_map(|_| sound_check_calls(&mut rng, 10));
    for call in calls.filter(|call| call.list.len() <= 16) {
        let mut out = vec![0xA5; call.state.len() + 3];
        let answer = check(&call.table, &call.state, &call.list, &mut out);
        let expected = expected(&call);
        if answer != Ok(expected) {
            return Err(format!("{call}: {answer:?}, not {expected:?}"));
        }
        counts[match expected {
            Checked::Yes { length } => {
                check_end(&call, &out[..length]);
                out.drain(..length);
                0
            }
            Checked::Fails { .. } => 1,
            Checked::GoalNotMet => 2,
        }] += 1;
        assert!(out.iter().all(|byte| *byte == 0xA5), "{call}");
    }
    Ok(counts)
}

fn expect_all(counts: Result<[usize; 3], String>) {
    let counts = counts.unwrap_or_else(|fault| panic!("{fault}"));
    println!("{counts:?}");
    assert!(counts.iter().all(|count| *count > 1_000), "{counts:?}");
}

#[test]
fn answers_are_what_they_mean() {
    expect_all(check_answers(951, 1_500, |table, state, list, out| {
        ENGINE.check(table, state, list, out)
    }));
}

#[test]
fn the_references_are_too() {
    expect_all(check_answers(952, 1_500, reference::check));
}

/// A list that comes back into range is taken, or the goal is not tested.
#[test]
fn other_meanings_are_found() {
    let forgiving: Check =
        |table, state, list, out| match reference::check(table, state, list, out)? {
            Checked::Fails {
                fault: Fault::OutOfRange,
                ..
            } => Ok(Checked::GoalNotMet),
            answer => Ok(answer),
        };
    let aimless: Check = |table, state, list, out| match reference::check(table, state, list, out)?
    {
        Checked::GoalNotMet => Ok(Checked::Yes {
            length: state.len(),
        }),
        answer => Ok(answer),
    };
    for other in [forgiving, aimless] {
        assert!(check_answers(953, 100, other).is_err());
    }
}
