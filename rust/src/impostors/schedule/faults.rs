//! Faults in why an entry cannot be made. The files of outcomes do not say it, so that only
//! comparisons show these.

use super::impostor;
use super::rules::{accepted, RULES};
use crate::answer::{Checked, Fault, Refusal};
use crate::impostors::Impostor;
use crate::reference::check;
use crate::schedule::{after, in_range};

pub const FAULTS: [Impostor; 9] = [
    impostor(
        "missing is told as not allowed",
        |table, state, list, out| {
            told(
                check(table, state, list, out),
                Fault::Missing,
                Fault::NotAllowed,
            )
        },
    ),
    impostor(
        "missing is told as out of range",
        |table, state, list, out| {
            told(
                check(table, state, list, out),
                Fault::Missing,
                Fault::OutOfRange,
            )
        },
    ),
    impostor(
        "not allowed is told as missing",
        |table, state, list, out| {
            told(
                check(table, state, list, out),
                Fault::NotAllowed,
                Fault::Missing,
            )
        },
    ),
    impostor(
        "not allowed is told as out of range",
        |table, state, list, out| {
            told(
                check(table, state, list, out),
                Fault::NotAllowed,
                Fault::OutOfRange,
            )
        },
    ),
    impostor(
        "out of range is told as missing",
        |table, state, list, out| {
            told(
                check(table, state, list, out),
                Fault::OutOfRange,
                Fault::Missing,
            )
        },
    ),
    impostor(
        "out of range is told as not allowed",
        |table, state, list, out| {
            told(
                check(table, state, list, out),
                Fault::OutOfRange,
                Fault::NotAllowed,
            )
        },
    ),
    impostor(
        "the range comes before the conditions",
        |table, state, list, out| {
            let answer = check(table, state, list, out)?;
            Ok(match (answer, beyond(table, state, list, answer)?) {
                (Checked::Fails { index, .. }, true) => Checked::Fails {
                    index,
                    fault: Fault::OutOfRange,
                },
                _ => answer,
            })
        },
    ),
    impostor(
        "a move behind move 63 is out of range",
        |table, state, list, out| {
            let answer = check(table, state, list, out)?;
            Ok(match answer {
                Checked::Fails { index, .. } if list[index as usize] > 63 => Checked::Fails {
                    index,
                    fault: Fault::OutOfRange,
                },
                _ => answer,
            })
        },
    ),
    impostor(
        "the reason is that of a later entry",
        |table, state, list, out| {
            let answer = check(table, state, list, out)?;
            let Checked::Fails { index, .. } = answer else {
                return Ok(answer);
            };
            let before = &list[..index as usize];
            let (data, start) = accepted(table, state)?;
            let states = RULES.states(&data, start, before).expect("these are made");
            let end = &states[states.len() - 1];
            let single = |mv: &u8| RULES.states(&data, end.clone(), &[*mv]).err();
            let last = list[index as usize..].iter().rev().find_map(single);
            let (_, fault) = last.expect("the first is at fault");
            Ok(Checked::Fails { index, fault })
        },
    ),
];

/// An answer with one fault told as another.
fn told(answer: Result<Checked, Refusal>, from: Fault, to: Fault) -> Result<Checked, Refusal> {
    answer.map(|answer| match answer {
        Checked::Fails { index, fault } if fault == from => Checked::Fails { index, fault: to },
        answer => answer,
    })
}

/// Whether the entry at fault, if its move exists, would lead out of range, allowed or not.
fn beyond(table: &[u8], state: &[u8], list: &[u8], answer: Checked) -> Result<bool, Refusal> {
    let Checked::Fails { index, .. } = answer else {
        return Ok(false);
    };
    let (data, start) = accepted(table, state)?;
    let (before, rest) = list.split_at(index as usize);
    let states = RULES.states(&data, start, before).expect("these are made");
    let block = data.moves.get(usize::from(rest[0]));
    Ok(block.is_some_and(|block| !in_range(&after(block, &states[states.len() - 1]))))
}
