//! Faults in the answers.

use super::impostor;
use super::rules::{accepted, RULES};
use crate::answer::{Checked, Fault, Reason, Refusal};
use crate::impostors::{at_0, Impostor};
use crate::reference::check;

type Answer = Result<Checked, Refusal>;

pub const ANSWERS: [Impostor; 18] = [
    impostor("the index counts from 1", |table, state, list, out| {
        indexed(check(table, state, list, out), |index| index + 1)
    }),
    impostor(
        "the index is that of the entry before",
        |table, state, list, out| {
            indexed(check(table, state, list, out), |index| {
                index.saturating_sub(1)
            })
        },
    ),
    impostor(
        "the index counts from the end",
        |table, state, list, out| {
            let last = list.len().saturating_sub(1) as u64;
            indexed(check(table, state, list, out), |index| last - index)
        },
    ),
    impostor("every index is 0", |table, state, list, out| {
        indexed(check(table, state, list, out), |_| 0)
    }),
    impostor(
        "the index is that of the last entry",
        |table, state, list, out| {
            let last = list.len().saturating_sub(1) as u64;
            indexed(check(table, state, list, out), |_| last)
        },
    ),
    impostor("the index is the move", |table, state, list, out| {
        indexed(check(table, state, list, out), |index| {
            list[index as usize].into()
        })
    }),
    impostor("the index is that of the last fault", last_fault),
    impostor("the index has 8 bits", |table, state, list, out| {
        indexed(check(table, state, list, out), |index| index % 256)
    }),
    impostor(
        "an index is a refusal",
        |table, state, list, out| match check(table, state, list, out)? {
            Checked::Fails { index, fault } => Err(reason(fault).at(index as usize)),
            answer => Ok(answer),
        },
    ),
    impostor(
        "a goal not met is a refusal",
        |table, state, list, out| match check(table, state, list, out)? {
            Checked::GoalNotMet => Err(Reason::ConditionsFail.at(0)),
            answer => Ok(answer),
        },
    ),
    impostor(
        "an index comes behind the list",
        |table, state, list, out| indexed(check(table, state, list, out), |_| list.len() as u64),
    ),
    impostor("13 is told as a goal not met", |table, state, list, out| {
        check(table, state, list, out).or_else(|refusal| match refusal.reason {
            Reason::OutputShort => Ok(Checked::GoalNotMet),
            _ => Err(refusal),
        })
    }),
    impostor(
        "13 has the length as its place",
        |table, state, list, out| {
            check(table, state, list, out).map_err(|refusal| match refusal.reason {
                Reason::OutputShort => refusal.reason.at(state.len()),
                _ => refusal,
            })
        },
    ),
    impostor("every place is 0", |table, state, list, out| {
        check(table, state, list, out).map_err(at_0)
    }),
    impostor("the length is 0", |table, state, list, out| {
        lengthened(check(table, state, list, out), |_| 0)
    }),
    impostor(
        "the length is that of the output",
        |table, state, list, out| {
            let room = out.len();
            lengthened(check(table, state, list, out), |_| room)
        },
    ),
    impostor(
        "the length is that of the list",
        |table, state, list, out| lengthened(check(table, state, list, out), |_| list.len()),
    ),
    impostor("a list is cut at 255 entries", |table, state, list, out| {
        check(table, state, &list[..list.len().min(255)], out)
    }),
];

/// Those that only long lists show.
pub const LONG_SCHEDULES: [Impostor; 5] = [
    impostor("a list is cut at 256 entries", |table, state, list, out| {
        check(table, state, &list[..list.len().min(256)], out)
    }),
    impostor("a list's length has 8 bits", |table, state, list, out| {
        check(table, state, &list[..list.len() % 256], out)
    }),
    impostor(
        "a list is cut at 65,536 entries",
        |table, state, list, out| check(table, state, &list[..list.len().min(65_536)], out),
    ),
    impostor("a list's length has 16 bits", |table, state, list, out| {
        check(table, state, &list[..list.len() % 65_536], out)
    }),
    impostor("the index has 16 bits", |table, state, list, out| {
        indexed(check(table, state, list, out), |index| index % 65_536)
    }),
];

/// An answer with another index.
fn indexed(answer: Answer, other: impl Fn(u64) -> u64) -> Answer {
    answer.map(|answer| match answer {
        Checked::Fails { index, fault } => Checked::Fails {
            index: other(index),
            fault,
        },
        answer => answer,
    })
}

/// An answer with another length.
fn lengthened(answer: Answer, other: impl Fn(usize) -> usize) -> Answer {
    answer.map(|answer| match answer {
        Checked::Yes { length } => Checked::Yes {
            length: other(length),
        },
        answer => answer,
    })
}

/// Goes on behind each fault, and tells the last.
fn last_fault(table: &[u8], state: &[u8], list: &[u8], out: &mut [u8]) -> Answer {
    let honest = check(table, state, list, out)?;
    let (data, mut state) = accepted(table, state)?;
    let mut last = None;
    for (index, mv) in (0..).zip(list) {
        match RULES.states(&data, state.clone(), &[*mv]) {
            Ok(states) => state = states[1].clone(),
            Err((_, fault)) => last = Some(Checked::Fails { index, fault }),
        }
    }
    Ok(last.unwrap_or(honest))
}

/// The reason that step has for a fault.
fn reason(fault: Fault) -> Reason {
    match fault {
        Fault::Missing => Reason::NoSuchBlock,
        Fault::NotAllowed => Reason::ConditionsFail,
        Fault::OutOfRange => Reason::ResultRange,
    }
}
