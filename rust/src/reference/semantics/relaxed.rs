//! Lists of relaxed moves over unlimited whole numbers.

use super::real::RealState;
use super::repeat::{Amount, Relaxed};
use crate::answer::Refusal;
use crate::reference::parse::{parse_stored, Wanted};
use crate::reference::state::State;
use crate::reference::table::{Block, Kind, Table};

/// Whether a list of moves with counts solves the relaxed task of a normal table.
///
/// Large counts are not run one by one; see `repeat`.
pub fn relaxed_solves(table: &[u8], state: &[u8], list: &[(u64, u64)]) -> Result<bool, Refusal> {
    let (table, state) = normal_task(table, state)?;
    let total: u128 = list.iter().map(|(_, count)| u128::from(*count)).sum();
    assert!(total <= Amount::MOVE_LIMIT, "the list has too many moves");
    let mut run = Relaxed::start(&state);
    for (mv, count) in list.iter().filter(|(_, count)| *count > 0) {
        match move_of(&table, *mv).filter(|block| run.meets(block)) {
            Some(block) => run.repeat(block, *count),
            None => return Ok(false),
        }
    }
    Ok(run.meets(&table.goal))
}

/// The same, every move on its own and in full; for small counts only.
pub fn relaxed_solves_one_by_one(
    table: &[u8],
    state: &[u8],
    list: &[(u64, u64)],
) -> Result<bool, Refusal> {
    let (table, state) = normal_task(table, state)?;
    let mut run = RealState::start(&table, &state);
    for (mv, count) in list {
        for _ in 0..*count {
            match move_of(&table, *mv).filter(|block| run.meets(block)) {
                Some(block) => run = relaxed_after(&run, block),
                None => return Ok(false),
            }
        }
    }
    Ok(run.meets(&table.goal))
}

/// The state after one relaxed move.
pub(super) fn relaxed_after(before: &RealState, block: &Block) -> RealState {
    let mut after = before.clone();
    block.added().for_each(|p| after.propositions[p] = true);
    for effect in block.effects() {
        let value = &mut after.values[effect.variable];
        *value = before.changed(effect).max(value.clone());
    }
    after
}

fn normal_task(table: &[u8], state: &[u8]) -> Result<(Table, State), Refusal> {
    let table = parse_stored(table, Wanted::Only(Kind::Normal))?.table;
    let state = State::parse(&table, state)?;
    Ok((table, state))
}

fn move_of(table: &Table, mv: u64) -> Option<&Block> {
    usize::try_from(mv).ok().and_then(|b| table.moves.get(b))
}
