//! The specification in plain Rust, one function a call.
//!
//! A table or a closure day is parsed into data first, and every call works on that data alone.
//! An output is written last, so a refusal leaves it as it was.

#![forbid(unsafe_code)]

mod blocking;
mod ceiling;
mod check;
mod circle;
mod closure;
mod layers;
mod listing;
mod normal;
mod parse;
mod pddl;
mod plan;
mod rewrite;
pub mod semantics;
mod state;
mod step;
pub mod table;

pub use ceiling::{Ceiling, FULL, RIG};
pub use check::check;
pub use closure::place;
pub use listing::{listing, record_line, MEMORY_ROOM, NORMAL_ROOM, PLAN_ROOM};
pub use normal::{normal_conditions, normal_form};
pub use plan::Record;
pub use state::State;

use crate::answer::{Answer, Blocking, Decision, Head, Plan, Reason, Refusal};
use crate::room;
use layers::{End, Layers};
use parse::{parse, parse_stored, Parsed, Wanted};
use table::{Kind, Table};

/// Checks a table of either kind and answers its head.
pub fn read(table: &[u8]) -> Result<Head, Refusal> {
    FULL.read(table)
}

/// The bytes of block b of a table of either kind.
pub fn block(table: &[u8], b: u64) -> Result<&[u8], Refusal> {
    FULL.block(table, b)
}

/// Writes the normal form of a written table and answers its length.
pub fn normalise(table: &[u8], out: &mut [u8]) -> Result<usize, Refusal> {
    FULL.normalise(table, out)
}

/// Writes the state after one real move of a written table and answers its length.
pub fn step(table: &[u8], state: &[u8], mv: u64, out: &mut [u8]) -> Result<usize, Refusal> {
    FULL.step(table, state, mv, out)
}

/// Writes a written table and a state as PDDL 2.1 text and answers its length.
pub fn pddl(table: &[u8], state: &[u8], out: &mut [u8]) -> Result<usize, Refusal> {
    deliver(&pddl_text(table, state)?, out)
}

/// That text.
pub fn pddl_text(table: &[u8], state: &[u8]) -> Result<Vec<u8>, Refusal> {
    let written = parse(table, Wanted::Only(Kind::Written))?.table;
    let state = State::parse(&written, state)?;
    let room = room::text_bytes(table.len());
    Ok(pddl::text(&written, &state, room))
}

/// Decides the relaxed task of a normal table.
pub fn decide(table: &[u8], state: &[u8], layers: &mut [i64]) -> Result<Decision, Refusal> {
    FULL.decide(table, state, layers)
}

/// Tells which part of a normal table's goal blocks where there is no plan.
pub fn blocking(table: &[u8], state: &[u8], layers: &mut [i64]) -> Result<Blocking, Refusal> {
    let Parsed {
        ranges,
        table: parsed,
    } = parse(table, Wanted::Only(Kind::Normal))?;
    let built = layers_of(&parsed, state, layers)?;
    if built.decision()?.answer != Answer::NoPlan {
        return Ok(Blocking::Nothing);
    }
    let goal = ranges.last().expect("the goal is the last block").clone();
    let last = built.stored.last().expect("layer 0 is stored");
    let unmet = blocking::first_unmet(&table[goal.clone()], last);
    let unmet = unmet.expect("the last layer does not meet the goal");
    let offset = (goal.start + unmet) as u64;
    Ok(Blocking::Blocks { offset })
}

/// Decides the relaxed task of a normal table and writes the records of its plan.
pub fn plan(
    table: &[u8],
    state: &[u8],
    layers: &mut [i64],
    out: &mut [u8],
) -> Result<Plan, Refusal> {
    FULL.plan(table, state, layers, out)
}

/// The same for a stored normal table, which may have moves that do nothing.
pub fn stored_plan(
    table: &[u8],
    state: &[u8],
    layers: &mut [i64],
    out: &mut [u8],
) -> Result<Plan, Refusal> {
    let table = parse_stored(table, Wanted::Only(Kind::Normal))?.table;
    plan_of(&table, state, layers, out)
}

fn plan_of(
    table: &Table,
    state: &[u8],
    layers: &mut [i64],
    out: &mut [u8],
) -> Result<Plan, Refusal> {
    let built = layers_of(table, state, layers)?;
    let decision = built.decision()?;
    let (records, first) = match built.end {
        End::Goal => plan::extract(table, &built.stored),
        End::Equal | End::Refused(_) => (Vec::new(), 0),
    };
    let bytes: Vec<u8> = records.iter().flat_map(|r| r.encode()).collect();
    deliver(&bytes, out)?;
    Ok(decision.with_plan(records.len() as u64, first))
}

/// Writes a stored table without its moves that do nothing and answers its length.
pub fn rewrite(table: &[u8], out: &mut [u8]) -> Result<usize, Refusal> {
    deliver(&rewritten(table)?, out)
}

/// That table.
pub fn rewritten(table: &[u8]) -> Result<Vec<u8>, Refusal> {
    let stored = parse_stored(table, Wanted::Either)?;
    Ok(rewrite::without_idle_moves(table, &stored))
}

/// Builds the layers of a normal table and writes them into the layer memory.
fn layers_of(table: &Table, state: &[u8], memory: &mut [i64]) -> Result<Layers, Refusal> {
    let state = State::parse(table, state)?;
    let built = Layers::build(table, &state, memory.len())?;
    built.write(memory);
    Ok(built)
}

/// Parses an accepted table and its state, of either kind.
pub fn parse_task(table: &[u8], state: &[u8]) -> Result<(Table, State), Refusal> {
    let table = parse(table, Wanted::Either)?.table;
    let state = State::parse(&table, state)?;
    Ok((table, state))
}

/// Parses an accepted table of either kind.
pub fn parse_table(table: &[u8]) -> Result<Table, Refusal> {
    parse(table, Wanted::Either).map(|parsed| parsed.table)
}

/// Parses a stored table of either kind, which may have moves that do nothing.
pub fn parse_stored_table(table: &[u8]) -> Result<Table, Refusal> {
    parse_stored(table, Wanted::Either).map(|parsed| parsed.table)
}

/// Writes a result from the start of an output and answers its length.
fn deliver(result: &[u8], out: &mut [u8]) -> Result<usize, Refusal> {
    let start = out
        .get_mut(..result.len())
        .ok_or(Reason::OutputShort.at(0))?;
    start.copy_from_slice(result);
    Ok(result.len())
}
