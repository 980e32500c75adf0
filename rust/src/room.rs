//! The counts in a table's head, and how much memory always suffices: for a normal table with the counts
//! P, N and A, and for text.

use crate::reference::table::Kind;

/// The counts in the head of a table of either kind, as its bytes say.
#[derive(Clone, Copy)]
pub struct Counts {
    pub kind: Kind,
    pub propositions: usize,
    /// Written variables, or half of the signed ones.
    pub values: usize,
    pub moves: usize,
}

impl Counts {
    /// None without a head.
    pub fn of(table: &[u8]) -> Option<Counts> {
        let [byte, counts @ ..] = table.first_chunk::<4>()?;
        let [propositions, variables, moves] = counts.map(usize::from);
        let kinds = [(Kind::Written, variables), (Kind::Normal, variables / 2)];
        let known = kinds.into_iter().find(|(kind, _)| kind.byte() == *byte);
        known.map(|(kind, values)| Counts {
            kind,
            propositions,
            values,
            moves,
        })
    }
}

/// P, N and A in the head of a normal table.
pub fn counts(table: &[u8]) -> [usize; 3] {
    [1, 2, 3].map(|i| usize::from(table[i]))
}

/// The most layers that are ever reported: a theorem about the definitions.
pub fn layer_bound([_, n, a]: [usize; 3]) -> usize {
    (a + n + 1) * (n + 1)
}

/// Numbers of layer memory for as many layers as the bound allows.
pub fn layer_numbers([p, n, a]: [usize; 3]) -> usize {
    p + a + n * (layer_bound([p, n, a]) + 1)
}

/// Bytes of a plan for as many layers: one record of ten bytes a move and layer at most.
pub fn record_bytes([p, n, a]: [usize; 3]) -> usize {
    10 * a * layer_bound([p, n, a])
}

/// Bytes of PDDL text for a written table of so many bytes, in any state: fewer than ten a byte
/// (a delete has 19 for two), and fewer than 10,000 for declarations, facts and frames of moves.
pub fn text_bytes(table: usize) -> usize {
    10 * table + 10_000
}
