//! The entries and layers that a planning call leaves in memory, read as the specification says.

use crate::reference::table::{Block, Condition, Term};

pub struct Memory<'m> {
    /// For each proposition the first layer that has it.
    pub propositions: &'m [i64],
    /// For each move the first layer whose step used it.
    pub moves: &'m [i64],
    pub layers: Vec<&'m [i64]>,
}

impl<'m> Memory<'m> {
    /// That of a normal table with these counts, up to the number of the last layer.
    pub fn new([p, n, a]: [usize; 3], numbers: &'m [i64], last: u64) -> Memory<'m> {
        let (propositions, rest) = numbers.split_at(p);
        let (moves, values) = rest.split_at(a);
        let layer = |t: usize| &values[n * t..n * (t + 1)];
        Memory {
            propositions,
            moves,
            layers: (0..=last as usize).map(layer).collect(),
        }
    }

    pub fn has(&self, p: usize, layer: usize) -> bool {
        (0..=layer as i64).contains(&self.propositions[p])
    }

    /// A sum in a layer; the largest number stands for unbounded.
    pub fn sum(&self, terms: &[Term], constant: i128, layer: usize) -> i128 {
        let values = self.layers[layer];
        if terms.iter().any(|t| values[t.variable] == i64::MAX) {
            return i128::MAX;
        }
        let value = |t: &Term| t.weight * i128::from(values[t.variable]);
        terms.iter().map(value).sum::<i128>() + constant
    }

    /// Whether a layer meets all conditions of a block.
    pub fn meets(&self, block: &Block, layer: usize) -> bool {
        let met = |c: &Condition| self.sum(&c.terms, 0, layer) >= c.constant;
        block.required().all(|p| self.has(p, layer)) && block.conditions().all(met)
    }
}
