//! Calls with one fault each, which the lists have to find.

use super::{check_plans, check_tiny};
use campaign::answer::{Checked, Fault, Reason, Refusal};
use campaign::engine::Check;
use campaign::generate::Task;
use campaign::real_plans::solves;
use campaign::reference::{check, step};

/// Far fewer lists than the engines are put to.
const TABLES: usize = 25;
const PLANS: usize = 100;

#[test]
fn all_are_found() {
    assert!(check_tiny(&[check], TABLES).is_ok());
    assert!(check_plans(&[check], PLANS).is_ok());
    for (name, impostor) in IMPOSTORS.iter().chain(&BEHIND) {
        assert!(check_tiny(&[*impostor], TABLES).is_err(), "{name}");
    }
    for (name, impostor) in IMPOSTORS {
        assert!(check_plans(&[impostor], PLANS).is_err(), "{name}");
    }
}

type Answer = Result<Checked, Refusal>;

const IMPOSTORS: [(&str, Check); 10] = [
    (
        "the goal is not asked for",
        |table, state, list, out| match check(table, state, list, out)? {
            Checked::GoalNotMet => run(table, state, list, out),
            answer => Ok(answer),
        },
    ),
    ("no end state is written", |table, state, list, out| {
        check(table, state, list, &mut out.to_vec())
    }),
    (
        "the state before the last move is written",
        |table, state, list, out| {
            let answer = check(table, state, list, out)?;
            if let Checked::Yes { .. } = answer {
                let before = list.split_last().map_or(list, |(_, before)| before);
                run(table, state, before, out)?;
            }
            Ok(answer)
        },
    ),
    ("a goal not met writes", |table, state, list, out| {
        let answer = check(table, state, list, out)?;
        if answer == Checked::GoalNotMet {
            run(table, state, list, out)?;
        }
        Ok(answer)
    }),
    ("indices count from 1", |table, state, list, out| {
        with_fault(check(table, state, list, out)?, |index, fault| {
            (index + 1, fault)
        })
    }),
    (
        "a missing move is not allowed",
        |table, state, list, out| {
            let answer = check(table, state, list, out)?;
            with_fault(answer, |index, fault| match fault {
                Fault::Missing => (index, Fault::NotAllowed),
                fault => (index, fault),
            })
        },
    ),
    (
        "moves that are not allowed are passed over",
        |table, state, list, out| without(Fault::NotAllowed, table, state, list, out),
    ),
    (
        "moves out of range are passed over",
        |table, state, list, out| without(Fault::OutOfRange, table, state, list, out),
    ),
    (
        "missing moves are passed over",
        |table, state, list, out| without(Fault::Missing, table, state, list, out),
    ),
    (
        "the range is asked for at the end only",
        |table, state, list, out| {
            let task = Task {
                table: table.to_vec(),
                state: state.to_vec(),
            };
            let answer = check(table, state, list, out)?;
            let range = matches!(
                answer,
                Checked::Fails {
                    fault: Fault::OutOfRange,
                    ..
                }
            );
            match range && solves(&task, list) {
                true => Ok(Checked::Yes {
                    length: state.len(),
                }),
                false => Ok(answer),
            }
        },
    ),
];

/// It takes a list with two faults.
const BEHIND: [(&str, Check); 1] = [("missing moves come first", |table, state, list, out| {
    let missing = list.iter().position(|mv| *mv >= table[3]);
    let answer = check(table, state, list, out)?;
    with_fault(answer, |index, fault| match missing {
        Some(first) => (first as u64, Fault::Missing),
        None => (index, fault),
    })
})];

/// The same answer with another index or fault.
fn with_fault(answer: Checked, other: impl FnOnce(u64, Fault) -> (u64, Fault)) -> Answer {
    Ok(match answer {
        Checked::Fails { index, fault } => {
            let (index, fault) = other(index, fault);
            Checked::Fails { index, fault }
        }
        answer => answer,
    })
}

/// Checks the list without the entries that have this fault.
fn without(passed: Fault, table: &[u8], state: &[u8], list: &[u8], out: &mut [u8]) -> Answer {
    let answer = check(table, state, list, out)?;
    let Checked::Fails { index, fault } = answer else {
        return Ok(answer);
    };
    if fault != passed {
        return Ok(answer);
    }
    let mut list = list.to_vec();
    list.remove(index as usize);
    without(passed, table, state, &list, out)
}

/// Runs a list whose moves can all be made, and writes the state at its end.
fn run(table: &[u8], state: &[u8], list: &[u8], out: &mut [u8]) -> Answer {
    let length = state.len();
    let mut state = state.to_vec();
    for mv in list {
        let mut after = vec![0; length];
        step(table, &state, (*mv).into(), &mut after)?;
        state = after;
    }
    let written = out.get_mut(..length).ok_or(Reason::OutputShort.at(0))?;
    written.copy_from_slice(&state);
    Ok(Checked::Yes { length })
}
