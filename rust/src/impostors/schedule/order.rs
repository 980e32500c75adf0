//! Faults in which check comes first, and in which tables and states are taken.

use super::impostor;
use super::rules::{accepted, RULES};
use crate::answer::{Checked, Fault, Reason, Refusal};
use crate::impostors::Impostor;
use crate::reference::table::{Kind, NUMBER_LIMIT};
use crate::reference::{check, parse_stored_table, parse_table, parse_task, State};

/// In the order of checks.
pub const CHECKED_FIRST: [Impostor; 11] = [
    impostor("13 comes before the table", |table, state, list, out| {
        short(state, out)?;
        check(table, state, list, out)
    }),
    impostor("13 comes before the state", |table, state, list, out| {
        if let Ok(data) = parse_table(table) {
            if data.kind == Kind::Written && out.len() < data.state_length() {
                return Err(Reason::OutputShort.at(0));
            }
        }
        check(table, state, list, out)
    }),
    impostor("13 comes before the list", |table, state, list, out| {
        accepted(table, state)?;
        short(state, out)?;
        check(table, state, list, out)
    }),
    impostor("13 comes before the goal", |table, state, list, out| {
        let answer = check(table, state, list, out)?;
        if answer == Checked::GoalNotMet {
            short(state, out)?;
        }
        Ok(answer)
    }),
    impostor(
        "the state comes before the table",
        |table, state, list, out| {
            if let [0x54, p, v, ..] = table {
                if state.len() != usize::from(*p) + 4 * usize::from(*v) {
                    return Err(Reason::StateLength.at(0));
                }
            }
            check(table, state, list, out)
        },
    ),
    impostor(
        "a missing move comes before the table",
        |table, state, list, out| {
            let moves = table.get(3).copied().unwrap_or(0);
            missing(list, moves.into()).map_or_else(|| check(table, state, list, out), Ok)
        },
    ),
    impostor(
        "a missing move comes before the state",
        |table, state, list, out| {
            let moves = match parse_table(table) {
                Ok(data) if data.kind == Kind::Written => data.moves.len(),
                _ => return check(table, state, list, out),
            };
            missing(list, moves).map_or_else(|| check(table, state, list, out), Ok)
        },
    ),
    impostor(
        "a missing move comes before all others",
        |table, state, list, out| {
            let (data, _) = accepted(table, state)?;
            missing(list, data.moves.len()).map_or_else(|| check(table, state, list, out), Ok)
        },
    ),
    impostor(
        "an empty list needs no accepted table",
        |table, state, list, out| match check(table, state, list, out) {
            Err(refusal) if list.is_empty() && refusal.reason != Reason::OutputShort => {
                Ok(Checked::GoalNotMet)
            }
            answer => answer,
        },
    ),
    impostor(
        "an empty list needs no accepted state",
        |table, state, list, out| match check(table, state, list, out) {
            Err(refusal) if list.is_empty() && is_states(refusal) => Ok(Checked::GoalNotMet),
            answer => answer,
        },
    ),
    impostor(
        "a goal met at the start comes before the list",
        |table, state, list, out| {
            let first = check(table, state, &[], &mut out.to_vec())?;
            match check(table, state, list, out) {
                Ok(Checked::Fails { .. }) if first == Checked::GoalNotMet => Ok(first),
                answer => answer,
            }
        },
    ),
];

/// In the tables and states that are taken.
pub const TABLES_TAKEN: [Impostor; 8] = [
    impostor(
        "a circle is no reason to turn back",
        |table, state, list, out| match check(table, state, list, out) {
            Err(refusal) if refusal.reason == Reason::Circle => Ok(Checked::GoalNotMet),
            answer => answer,
        },
    ),
    impostor(
        "moves that do nothing are taken",
        |table, state, list, out| {
            let honest = check(table, state, list, out);
            match (honest, parse_stored_table(table)) {
                (Err(refusal), Ok(data)) if refusal.reason == Reason::IdleMove => {
                    let state = State::parse(&data, state)?;
                    RULES.checked(&data, state, list, out)
                }
                _ => honest,
            }
        },
    ),
    impostor(
        "normal tables are taken",
        |table, state, list, out| match parse_task(table, state) {
            Ok((data, state)) if data.kind == Kind::Normal => {
                let values = state.signed_values();
                let state = State { values, ..state };
                RULES.checked(&data, state, list, out)
            }
            Err(refusal) if table.first() == Some(&Kind::Normal.byte()) => Err(refusal),
            _ => check(table, state, list, out),
        },
    ),
    impostor(
        "the rest of a longer state is left out",
        |table, state, list, out| {
            let length = match parse_table(table) {
                Ok(data) if data.kind == Kind::Written => data.state_length(),
                _ => state.len(),
            };
            check(table, &state[..state.len().min(length)], list, out)
        },
    ),
    impostor(
        "every other byte of a state is true",
        |table, state, list, out| {
            let Some(p) = table.get(1).map(|p| state.len().min((*p).into())) else {
                return check(table, state, list, out);
            };
            let mut taken = state.to_vec();
            taken[..p]
                .iter_mut()
                .for_each(|byte| *byte = (*byte).min(1));
            check(table, &taken, list, out)
        },
    ),
    impostor(
        "a state's values are taken as they are",
        |table, state, list, out| match check(table, state, list, out) {
            Err(refusal) if is_values(table, refusal) => {
                check(table, &clamped(table, state), list, out)
            }
            answer => answer,
        },
    ),
    impostor(
        "a refused state is told as a refused table",
        |table, state, list, out| {
            check(table, state, list, out).map_err(|refusal| match is_states(refusal) {
                true => Reason::OperandRange.at(refusal.place as usize),
                false => refusal,
            })
        },
    ),
    impostor("the rig's limits are kept", |table, state, list, out| {
        let (data, _) = accepted(table, state)?;
        match data.moves.len() > 16 || data.variables > 8 {
            true => Err(Reason::BeyondRig.at(0)),
            false => check(table, state, list, out),
        }
    }),
];

/// Those that only long tables show.
pub const LONG_TABLES: [Impostor; 2] = [
    impostor(
        "a table may have 64,000 bytes",
        |table, state, list, out| match table.len() {
            32_001..=64_000 => Ok(Checked::GoalNotMet),
            _ => check(table, state, list, out),
        },
    ),
    impostor(
        "a table may have 31,999 bytes",
        |table, state, list, out| match table.len() > 31_999 {
            true => Err(Reason::TableTooLong.at(0)),
            false => check(table, state, list, out),
        },
    ),
];

fn short(state: &[u8], out: &[u8]) -> Result<(), Refusal> {
    match out.len() < state.len() {
        true => Err(Reason::OutputShort.at(0)),
        false => Ok(()),
    }
}

fn is_states(refusal: Refusal) -> bool {
    matches!(refusal.reason, Reason::StateLength | Reason::StateRange)
}

/// Whether it is for a value of the state.
fn is_values(table: &[u8], refusal: Refusal) -> bool {
    refusal.reason == Reason::StateRange && refusal.place >= table[1].into()
}

/// A state whose values are within the range.
fn clamped(table: &[u8], state: &[u8]) -> Vec<u8> {
    let mut state = state.to_vec();
    let limit = NUMBER_LIMIT as i32;
    for four in state[table[1].into()..].chunks_exact_mut(4) {
        let value = i32::from_be_bytes([four[0], four[1], four[2], four[3]]);
        four.copy_from_slice(&value.clamp(-limit, limit).to_be_bytes());
    }
    state
}

/// The first entry that names none of so many moves.
fn missing(list: &[u8], moves: usize) -> Option<Checked> {
    let index = list.iter().position(|mv| usize::from(*mv) >= moves)?;
    Some(Checked::Fails {
        index: index as u64,
        fault: Fault::Missing,
    })
}
