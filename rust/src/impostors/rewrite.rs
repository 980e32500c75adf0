//! Engines with a fault in the rewriter of stored tables.

use super::changed::delivered;
use super::idle_moves::rows;
use super::{at_0, Impostor, HONEST};
use crate::answer::{Reason, Refusal};
use crate::call::CallKind;
use crate::engine::{Calls, Rewrite};
use crate::reference::table::{Block, Change, Item, Kind};
use crate::reference::{parse_stored_table, read, rewrite, rewritten};

pub const REWRITE: [Impostor; 19] = [
    impostor("such moves are kept", |table, out| {
        dropping(table, out, |_| false)
    }),
    impostor("the count of moves stays", |table, out| {
        with_head(table, out, |result, _| result[3] = table[3])
    }),
    impostor("the count of propositions falls", |table, out| {
        with_head(table, out, |result, dropped| {
            result[1] = result[1].saturating_sub(dropped);
        })
    }),
    impostor("the count of variables falls", |table, out| {
        with_head(table, out, |result, dropped| {
            result[2] = result[2].saturating_sub(2 * dropped);
        })
    }),
    impostor("a move of conditions alone is kept", |table, out| {
        dropping(table, out, |block| block.items.is_empty())
    }),
    impostor("a move of 50 alone is kept", |table, out| {
        dropping(table, out, |block| {
            block.is_idle() && block.required().count() == 0
        })
    }),
    impostor("the first one only is dropped", |table, out| {
        let mut found = false;
        dropping(table, out, |block| {
            let first = block.is_idle() && !found;
            found |= first;
            first
        })
    }),
    impostor("the last one is kept", |table, out| {
        let mut left = parse_stored_table(table)?.moves.len();
        dropping(table, out, |block| {
            left -= 1;
            block.is_idle() && left > 0
        })
    }),
    impostor("a move that only deletes is dropped", |table, out| {
        overlooking(table, out, |item| matches!(item, Item::Delete(_)))
    }),
    impostor("+= 0 is no effect", |table, out| {
        overlooking(table, out, |item| is_by_0(item, Change::Increase))
    }),
    impostor(":= 0 is no effect", |table, out| {
        overlooking(table, out, |item| is_by_0(item, Change::Assign))
    }),
    impostor(
        "an effect whose constant is 0 is no effect",
        |table, out| overlooking(table, out, has_constant_0),
    ),
    impostor("16 is given", |table, out| {
        read(table)?;
        rewrite(table, out)
    }),
    impostor(
        "normal tables are refused",
        |table, out| match parse_stored_table(table) {
            Ok(stored) if stored.kind == Kind::Normal => Err(Reason::Misplaced.at(0)),
            _ => rewrite(table, out),
        },
    ),
    impostor("13 is judged by the old length", |table, out| {
        rewritten(table)?;
        match out.len() < table.len() {
            true => Err(Reason::OutputShort.at(0)),
            false => rewrite(table, out),
        }
    }),
    impostor(
        "a short output has the table as far as it goes",
        |table, out| {
            let result = rewritten(table)?;
            out.iter_mut().zip(&result).for_each(|(o, byte)| *o = *byte);
            rewrite(table, out)
        },
    ),
    impostor("bytes behind the result are cleared", |table, out| {
        let length = rewrite(table, out)?;
        out[length..].fill(0);
        Ok(length)
    }),
    impostor("the old length is answered", |table, out| {
        rewrite(table, out).map(|_| table.len())
    }),
    impostor("every place is 0", |table, out| {
        rewrite(table, out).map_err(at_0)
    }),
];

/// Those that only tables near the limits of length show.
pub const LIMITS: [Impostor; 2] = [
    impostor("written tables may have 64,000 bytes", |table, out| {
        let between = Kind::Written.length_limit() + 1..=Kind::Normal.length_limit();
        match table.first() == Some(&Kind::Written.byte()) && between.contains(&table.len()) {
            true => delivered(&without_checks(table), out),
            false => rewrite(table, out),
        }
    }),
    impostor(
        "normal tables may have 32,000 bytes only",
        |table, out| match table.len() > Kind::Written.length_limit() {
            true => Err(Reason::TableTooLong.at(0)),
            false => rewrite(table, out),
        },
    ),
];

const fn impostor(trick: &'static str, rewrite: Rewrite) -> Impostor {
    Impostor {
        trick,
        engine: Calls { rewrite, ..HONEST },
        kinds: &[CallKind::Rewrite],
    }
}

/// A stored table without the moves that an engine drops.
fn dropping(
    table: &[u8],
    out: &mut [u8],
    mut drops: impl FnMut(&Block) -> bool,
) -> Result<usize, Refusal> {
    let mut stored = parse_stored_table(table)?;
    stored.moves.retain(|block| !drops(block));
    delivered(&stored.encode(), out)
}

/// A stored table without the moves all of whose changes an engine overlooks.
fn overlooking(
    table: &[u8],
    out: &mut [u8],
    overlooks: fn(&Item) -> bool,
) -> Result<usize, Refusal> {
    dropping(table, out, |block| {
        let mut changes = block.items.iter().filter(|item| item.is_change());
        changes.all(overlooks)
    })
}

/// Whether it is an effect of this kind without terms and with constant 0.
fn is_by_0(item: &Item, change: Change) -> bool {
    let Item::Effect(effect) = item else {
        return false;
    };
    effect.change == change && effect.terms.is_empty() && effect.constant == 0
}

fn has_constant_0(item: &Item) -> bool {
    matches!(item, Item::Effect(effect) if effect.constant == 0)
}

/// An honest result whose head is changed, given how many moves were dropped.
fn with_head(
    table: &[u8],
    out: &mut [u8],
    change: impl Fn(&mut [u8], u8),
) -> Result<usize, Refusal> {
    let mut result = rewritten(table)?;
    let dropped = table[3] - result[3];
    change(&mut result, dropped);
    delivered(&result, out)
}

/// The same result by bytes alone.
fn without_checks(table: &[u8]) -> Vec<u8> {
    let mut result = table.to_vec();
    for row in rows(table)
        .iter()
        .rev()
        .filter(|row| row.is_idle(|_| false))
    {
        result.drain(row.opens..row.closes);
        result[3] -= 1;
    }
    result
}

#[cfg(test)]
mod tests {
    use super::*;
    use crate::engine::REFERENCE;
    use crate::generate::{rewrite_call, Rng};
    use crate::harness::compare;

    /// What the impostors are made of gives what the reference does.
    #[test]
    fn honest_rewriters_are_the_references() {
        let honest: [Rewrite; 3] = [
            |table, out| dropping(table, out, Block::is_idle),
            |table, out| with_head(table, out, |_, _| ()),
            |table, out| {
                parse_stored_table(table)?;
                delivered(&without_checks(table), out)
            },
        ];
        let mut rng = Rng::new(722);
        for _ in 0..2_000 {
            let call = rewrite_call(&mut rng);
            for rewrite in honest {
                compare(&call, &REFERENCE, &impostor("", rewrite).engine).unwrap();
            }
        }
    }
}
