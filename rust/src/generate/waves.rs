//! Tasks with many layers.

use super::rng::Rng;
use super::task::Task;
use super::tuned::{assign, at_least, task_at};
use crate::reference::table::{Block, Item, Kind, Table, MOVE_LIMIT};

/// The counts of a task that runs in waves.
pub struct Waves {
    pub variables: usize,
    /// Those of the chain.
    pub chain: usize,
    pub gates: usize,
    /// Moves at most, more than there are gates.
    pub moves: usize,
}

/// Chains of `:=` run in waves, with hundreds of layers, over all variables.
pub fn waves(rng: &mut Rng, kind: Kind, variables: usize, gates: usize) -> Task {
    let counts = Waves {
        variables,
        chain: variables,
        gates,
        moves: MOVE_LIMIT,
    };
    waves_of(rng, kind, &counts)
}

/// The same with these counts.
///
/// A chain hands a value from its first variable to its last, one variable a layer. The
/// last one opens the next of the `gates`, which starts the following wave. The task has
/// a plan half of the time.
pub fn waves_of(rng: &mut Rng, kind: Kind, counts: &Waves) -> Task {
    let mut names: Vec<usize> = (0..counts.variables).collect();
    rng.shuffle(&mut names);
    names.truncate(counts.chain);
    let (first, last) = (names[0], names[counts.chain - 1]);
    let mut moves: Vec<Block> = chain_moves(rng, &names, counts.moves - counts.gates);
    for gate in 0..counts.gates as i128 {
        moves.push(Block {
            items: vec![at_least(last, gate), assign(first, &[], gate + 1)],
        });
    }
    rng.shuffle(&mut moves);
    let missing = i128::from(rng.chance(1, 2));
    let table = Table {
        kind,
        propositions: 0,
        variables: counts.variables,
        moves,
        goal: Block {
            items: vec![at_least(last, counts.gates as i128 + missing)],
        },
    };
    task_at(table, &[])
}

/// The links of a chain, spread over at most `limit` moves, each with one at least.
fn chain_moves(rng: &mut Rng, names: &[usize], limit: usize) -> Vec<Block> {
    let mut links: Vec<Item> = names
        .windows(2)
        .map(|pair| assign(pair[1], &[(pair[0], 1)], 0))
        .collect();
    if links.is_empty() {
        return Vec::new();
    }
    rng.shuffle(&mut links);
    let count = 1 + rng.below(limit.min(links.len()));
    let mut moves = vec![Block::default(); count];
    for (i, link) in links.into_iter().enumerate() {
        let chosen = if i < count { i } else { rng.below(count) };
        moves[chosen].items.push(link);
    }
    moves
}
