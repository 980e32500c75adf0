//! Faults in what is written, and in how much room it needs.

use super::impostor;
use super::rules::{accepted, bytes_of, RULES};
use crate::answer::{Checked, Reason, Refusal};
use crate::impostors::Impostor;
use crate::reference::check;

type Answer = Result<Checked, Refusal>;

pub const WRITING: [Impostor; 15] = [
    impostor(
        "a goal not met has the end state",
        |table, state, list, out| {
            let answer = check(table, state, list, out);
            if answer == Ok(Checked::GoalNotMet) {
                write_end(table, state, list, out);
            }
            answer
        },
    ),
    impostor(
        "an index has the state before it",
        |table, state, list, out| {
            let answer = check(table, state, list, out);
            if let Ok(Checked::Fails { index, .. }) = answer {
                write_end(table, state, &list[..index as usize], out);
            }
            answer
        },
    ),
    impostor("an index has the start state", |table, state, list, out| {
        let answer = check(table, state, list, out);
        if let Ok(Checked::Fails { .. }) = answer {
            write(state, out);
        }
        answer
    }),
    impostor(
        "an index above 0 clears the output",
        |table, state, list, out| {
            let answer = check(table, state, list, out);
            if matches!(answer, Ok(Checked::Fails { index: 1.., .. })) {
                out.fill(0);
            }
            answer
        },
    ),
    impostor(
        "a goal not met clears the output",
        |table, state, list, out| {
            let answer = check(table, state, list, out);
            if answer == Ok(Checked::GoalNotMet) {
                out.fill(0);
            }
            answer
        },
    ),
    impostor("a refusal clears the output", |table, state, list, out| {
        check(table, state, list, out).inspect_err(|_| out.fill(0))
    }),
    impostor("a short output has what fits", |table, state, list, out| {
        let answer = check(table, state, list, out);
        if answer == Err(Reason::OutputShort.at(0)) {
            write_end(table, state, list, out);
        }
        answer
    }),
    impostor("a yes has the start state", |table, state, list, out| {
        rewritten(table, state, list, out, |end, _| end.copy_from_slice(state))
    }),
    impostor("a yes writes nothing", |table, state, list, out| {
        let before = out.to_vec();
        rewritten(table, state, list, out, |end, _| {
            end.copy_from_slice(&before[..end.len()])
        })
    }),
    impostor(
        "values are written little-endian",
        |table, state, list, out| {
            rewritten(table, state, list, out, |end, p| {
                end[p..].chunks_exact_mut(4).for_each(<[u8]>::reverse);
            })
        },
    ),
    impostor(
        "values are written before propositions",
        |table, state, list, out| rewritten(table, state, list, out, |end, p| end.rotate_left(p)),
    ),
    impostor(
        "propositions are written as they were",
        |table, state, list, out| {
            rewritten(table, state, list, out, |end, p| {
                end[..p].copy_from_slice(&state[..p])
            })
        },
    ),
    impostor(
        "bytes behind the end state are cleared",
        |table, state, list, out| {
            let answer = check(table, state, list, out)?;
            if let Checked::Yes { length } = answer {
                out[length..].fill(0);
            }
            Ok(answer)
        },
    ),
    impostor(
        "an output of just the length is short",
        |table, state, list, out| {
            roomier(table, state, list, out, |room, length| {
                0 < length && room == length
            })
        },
    ),
    impostor("a longer output is refused", |table, state, list, out| {
        roomier(table, state, list, out, |room, length| room > length)
    }),
];

/// Writes as much as there is room for.
fn write(bytes: &[u8], out: &mut [u8]) {
    out.iter_mut().zip(bytes).for_each(|(o, byte)| *o = *byte);
}

/// Writes the end state of a list that runs.
fn write_end(table: &[u8], state: &[u8], list: &[u8], out: &mut [u8]) {
    let task = accepted(table, state).ok();
    let states = task.and_then(|(table, state)| RULES.states(&table, state, list).ok());
    if let Some(end) = states.as_ref().and_then(|states| states.last()) {
        write(&bytes_of(end), out);
    }
}

/// A yes whose end state is changed afterwards; the number is how many propositions it has.
fn rewritten(
    table: &[u8],
    state: &[u8],
    list: &[u8],
    out: &mut [u8],
    change: impl FnOnce(&mut [u8], usize),
) -> Answer {
    let answer = check(table, state, list, out)?;
    if let Checked::Yes { length } = answer {
        change(&mut out[..length], table[1].into());
    }
    Ok(answer)
}

/// A yes with 13 for some rooms and lengths.
fn roomier(
    table: &[u8],
    state: &[u8],
    list: &[u8],
    out: &mut [u8],
    refused: fn(usize, usize) -> bool,
) -> Answer {
    match check(table, state, list, &mut out.to_vec())? {
        Checked::Yes { length } if refused(out.len(), length) => Err(Reason::OutputShort.at(0)),
        _ => check(table, state, list, out),
    }
}
