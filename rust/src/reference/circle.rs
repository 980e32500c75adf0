//! Circles among `:=` effects.

use super::table::{contributing, Change, Table};

/// Whether the edges from each variable of a `:=` sum to its target have a circle. A term of
/// weight 0 makes no edge.
///
/// Variables without an edge from a remaining variable are taken away until none is
/// left to take; what remains then is fed by itself and holds a circle.
pub fn has_circle(table: &Table) -> bool {
    let edges = edges(table);
    let mut remains = vec![true; table.variables];
    loop {
        let free = (0..table.variables)
            .find(|&v| remains[v] && !edges.iter().any(|&(u, to)| to == v && remains[u]));
        match free {
            Some(v) => remains[v] = false,
            None => return remains.contains(&true),
        }
    }
}

fn edges(table: &Table) -> Vec<(usize, usize)> {
    let mut edges: Vec<(usize, usize)> = table
        .moves
        .iter()
        .flat_map(|block| block.effects())
        .filter(|effect| effect.change == Change::Assign)
        .flat_map(|effect| contributing(&effect.terms).map(|t| (t.variable, effect.variable)))
        .collect();
    edges.sort_unstable();
    edges.dedup();
    edges
}
