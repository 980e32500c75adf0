//! Answers for another table than the lent one: the same with its blocks changed.

use crate::answer::{Reason, Refusal};
use crate::reference::table::{Block, Item, Kind};
use crate::reference::{normal_form, normalise, parse_table, pddl};

/// The text of an accepted table after a change of its blocks.
pub fn retold(
    table: &[u8],
    state: &[u8],
    out: &mut [u8],
    change: impl Fn(&mut Block),
) -> Result<usize, Refusal> {
    let Ok(mut changed) = parse_table(table) else {
        return pddl(table, state, out);
    };
    changed.blocks_mut().for_each(change);
    pddl(&changed.encode(), state, out)
}

/// The normal form of an accepted table after a change of its blocks, changed itself.
pub fn normalised(
    table: &[u8],
    out: &mut [u8],
    before: impl Fn(&mut Block),
    after: impl Fn(&mut Block),
) -> Result<usize, Refusal> {
    let mut written = match parse_table(table) {
        Ok(written) if written.kind == Kind::Written => written,
        _ => return normalise(table, out),
    };
    written.blocks_mut().for_each(before);
    let mut normal = normal_form(&written);
    normal.blocks_mut().for_each(after);
    delivered(&normal.encode(), out)
}

/// A result written from the start of an output, if it fits.
pub fn delivered(result: &[u8], out: &mut [u8]) -> Result<usize, Refusal> {
    let start = out.get_mut(..result.len());
    start
        .ok_or(Reason::OutputShort.at(0))?
        .copy_from_slice(result);
    Ok(result.len())
}

pub fn each(block: &mut Block, change: fn(&mut Item)) {
    block.items.iter_mut().for_each(change);
}
