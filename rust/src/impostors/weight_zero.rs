//! Engines with a fault around weight 0.

use super::changed::{each, normalised, retold};
use super::reading::{reading, Misreading, REREADING, WRITTEN};
use super::{Impostor, HONEST};
use crate::answer::{Reason, Refusal};
use crate::call::CallKind;
use crate::commands::{commands, has_zero_term, is_zero_term, without_zero_terms};
use crate::engine::Calls;
use crate::reference::table::{Block, Item, Kind, Term, TERM_LIMIT, WEIGHT_LIMIT};
use crate::reference::{decide, parse_table, plan, read, step};

/// The calls that use its normal form.
const NORMALISING: &[CallKind] = &[CallKind::Normalise, CallKind::Campaign, CallKind::Listing];

pub const WEIGHT_ZERO: [Impostor; 10] = [
    Impostor {
        trick: "weight 0 is refused",
        engine: reading::<Refused>(),
        kinds: WRITTEN,
    },
    Impostor {
        trick: "weight 0 makes an edge",
        engine: reading::<AnEdge>(),
        kinds: WRITTEN,
    },
    Impostor {
        trick: "weight 0 is not counted among the eight",
        engine: reading::<Uncounted>(),
        kinds: REREADING,
    },
    Impostor {
        trick: "weight 0 does not keep the rising order",
        engine: reading::<Unordered>(),
        kinds: REREADING,
    },
    Impostor {
        trick: "a normal table may have weight 0",
        engine: Calls {
            read: |table| read(&without_normal_zeros(table)),
            decide: |table, state, layers| decide(&without_normal_zeros(table), state, layers),
            plan: |table, state, layers, out| {
                plan(&without_normal_zeros(table), state, layers, out)
            },
            ..HONEST
        },
        kinds: &[CallKind::Read, CallKind::Decide],
    },
    Impostor {
        trick: "the normal form keeps weight 0",
        engine: Calls {
            normalise: |table, out| {
                let mark = |block: &mut Block| reweigh(block, 0, WEIGHT_LIMIT + 1);
                let unmark = |block: &mut Block| reweigh(block, WEIGHT_LIMIT + 1, 0);
                normalised(table, out, mark, unmark)
            },
            ..HONEST
        },
        kinds: NORMALISING,
    },
    Impostor {
        trick: "the normal form drops a condition whose weights are all 0",
        engine: Calls {
            normalise: |table, out| {
                let used = |item: &Item| match item {
                    Item::Condition(condition) => !all_zero(&condition.terms),
                    _ => true,
                };
                normalised(table, out, |block| block.items.retain(used), |_| ())
            },
            ..HONEST
        },
        kinds: NORMALISING,
    },
    Impostor {
        trick: "the normal form drops an effect whose weights are all 0",
        engine: Calls {
            normalise: |table, out| {
                let used = |item: &Item| match item {
                    Item::Effect(effect) => !all_zero(&effect.terms),
                    _ => true,
                };
                normalised(table, out, |block| block.items.retain(used), |_| ())
            },
            ..HONEST
        },
        kinds: NORMALISING,
    },
    Impostor {
        trick: "a step takes weight 0 for 1",
        engine: Calls {
            step: |table, state, mv, out| {
                let other = with_zeros_as(1, table);
                match parse_table(&other) {
                    Ok(_) => step(&other, state, mv, out),
                    Err(_) => step(table, state, mv, out),
                }
            },
            ..HONEST
        },
        kinds: &[CallKind::Step],
    },
    Impostor {
        trick: "the text leaves out weight 0",
        engine: Calls {
            pddl: |table, state, out| retold(table, state, out, |block| each(block, without_zeros)),
            ..HONEST
        },
        kinds: &[CallKind::Pddl],
    },
];

struct Refused;

impl Misreading for Refused {
    fn misread(table: &[u8]) -> Result<Vec<u8>, Refusal> {
        Ok(with_zeros_as(1_001, table))
    }
}

struct AnEdge;

impl Misreading for AnEdge {
    fn misread(table: &[u8]) -> Result<Vec<u8>, Refusal> {
        match parse_table(&with_zeros_as(1, table)) {
            Err(circle) if circle.reason == Reason::Circle && has_zero_term(table) => Err(circle),
            _ => Ok(table.to_vec()),
        }
    }
}

struct Uncounted;

impl Misreading for Uncounted {
    fn misread(table: &[u8]) -> Result<Vec<u8>, Refusal> {
        Ok(forgiven(table, |before| before == TERM_LIMIT))
    }
}

struct Unordered;

impl Misreading for Unordered {
    fn misread(table: &[u8]) -> Result<Vec<u8>, Refusal> {
        Ok(forgiven(table, |before| before < TERM_LIMIT))
    }
}

/// A normal table without its terms of weight 0, and any other as it is.
fn without_normal_zeros(table: &[u8]) -> Vec<u8> {
    match table.first() == Some(&Kind::Normal.byte()) {
        true => without_zero_terms(table),
        false => table.to_vec(),
    }
}

/// The table with another weight in the place of each 0.
fn with_zeros_as(weight: i16, table: &[u8]) -> Vec<u8> {
    let mut other = table.to_vec();
    for (at, _) in commands(table).filter(|(_, command)| is_zero_term(command)) {
        other[at + 2..at + 4].copy_from_slice(&weight.to_be_bytes());
    }
    other
}

/// The table without its terms of weight 0 if it is refused for a term behind so many others.
fn forgiven(table: &[u8], behind: fn(usize) -> bool) -> Vec<u8> {
    match parse_table(table) {
        Err(again)
            if again.reason == Reason::NamedAgain
                && terms_before(table, again.place as usize).is_some_and(behind) =>
        {
            without_zero_terms(table)
        }
        _ => table.to_vec(),
    }
}

/// How many terms of its sum stand before the term at a place, if there is one.
fn terms_before(table: &[u8], place: usize) -> Option<usize> {
    let mut count = 0;
    for (at, command) in commands(table) {
        let term = command[0] == 0x57;
        if at == place {
            return term.then_some(count);
        }
        count = if term { count + 1 } else { 0 };
    }
    None
}

/// Gives each term of one weight another.
fn reweigh(block: &mut Block, from: i128, to: i128) {
    let terms = block.items.iter_mut().filter_map(Item::terms_mut);
    for term in terms.flatten().filter(|term| term.weight == from) {
        term.weight = to;
    }
}

fn without_zeros(item: &mut Item) {
    if let Some(terms) = item.terms_mut() {
        terms.retain(|term| term.weight != 0);
    }
}

/// Whether there are terms, and all have weight 0.
fn all_zero(terms: &[Term]) -> bool {
    !terms.is_empty() && terms.iter().all(|term| term.weight == 0)
}
