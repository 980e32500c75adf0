//! The parts of a table's goal as they stand in its bytes, and which of them layers in memory meet.

use crate::commands::commands;
use crate::memory::Memory;
use crate::room;
use std::ops::Range;

/// A 50 or a 43 of a goal.
#[derive(Clone, Debug, PartialEq, Eq)]
pub struct Part {
    /// Where the command stands in the table.
    pub offset: usize,
    /// Its bytes in the table, those of its terms too.
    pub range: Range<usize>,
    pub needs: Needs,
}

/// What a part asks for.
#[derive(Clone, Debug, PartialEq, Eq)]
pub enum Needs {
    Proposition(usize),
    /// Variables and weights, the comparison's number and the constant.
    Sum(Vec<(usize, i64)>, u8, i64),
}

impl Part {
    /// The terms of a condition; none for a proposition.
    pub fn terms(&self) -> &[(usize, i64)] {
        match &self.needs {
            Needs::Proposition(_) => &[],
            Needs::Sum(terms, ..) => terms,
        }
    }
}

/// The parts of an accepted table's goal, in its order.
pub fn goal_parts(table: &[u8]) -> Vec<Part> {
    let goal = commands(table).skip_while(|(_, command)| command[0] != 0x47);
    let (mut parts, mut terms, mut start) = (Vec::new(), Vec::new(), 0);
    for (offset, command) in goal {
        let needs = match *command {
            [0x50, p] => Some(Needs::Proposition(p.into())),
            [0x57, v, high, low] => {
                let weight = i16::from_be_bytes([high, low]);
                terms.push((usize::from(v), i64::from(weight)));
                None
            }
            [0x43, comparison, a, b, c, d] => {
                let constant = i32::from_be_bytes([a, b, c, d]);
                let terms = std::mem::take(&mut terms);
                Some(Needs::Sum(terms, comparison, constant.into()))
            }
            _ => None,
        };
        let end = offset + command.len();
        if let Some(needs) = needs {
            let range = start..end;
            parts.push(Part {
                offset,
                range,
                needs,
            });
        }
        if terms.is_empty() {
            start = end;
        }
    }
    parts
}

/// The layers of a normal table in the memory that `decide` was lent.
pub struct Stored<'m>(Memory<'m>);

impl<'m> Stored<'m> {
    /// Those up to the number of the last one.
    pub fn new(table: &[u8], memory: &'m [i64], last: u64) -> Stored<'m> {
        Stored(Memory::new(room::counts(table), memory, last))
    }

    /// The number of the last layer.
    pub fn last(&self) -> usize {
        self.0.layers.len() - 1
    }

    /// Whether a layer meets a part.
    pub fn meets(&self, part: &Part, layer: usize) -> bool {
        match &part.needs {
            Needs::Proposition(p) => self.0.has(*p, layer),
            Needs::Sum(terms, _, constant) => {
                let value = |(v, w): &(usize, i64)| i128::from(self.0.layers[layer][*v] * *w);
                self.unbounded(part, layer)
                    || terms.iter().map(value).sum::<i128>() >= i128::from(*constant)
            }
        }
    }

    /// Whether a part is a sum with an unbounded term.
    pub fn unbounded(&self, part: &Part, layer: usize) -> bool {
        let values = self.0.layers[layer];
        part.terms().iter().any(|(v, _)| values[*v] == i64::MAX)
    }

    /// Whether a layer meets a part if all terms are added up in 64 bits, unbounded ones too.
    pub fn meets_in_64_bits(&self, part: &Part, layer: usize) -> bool {
        match &part.needs {
            Needs::Proposition(_) => self.meets(part, layer),
            Needs::Sum(terms, _, constant) => {
                let value = |(v, w): &(usize, i64)| self.0.layers[layer][*v].wrapping_mul(*w);
                terms.iter().map(value).fold(0, i64::wrapping_add) >= *constant
            }
        }
    }

    /// The first part that a layer does not meet.
    pub fn first_unmet<'p>(&self, parts: &'p [Part], layer: usize) -> Option<&'p Part> {
        parts.iter().find(|part| !self.meets(part, layer))
    }
}

#[cfg(test)]
mod tests {
    use super::*;
    use crate::hex::bytes;

    /// The goal: p1, 2 v0 + v1 >= 5, a sum of no terms >= 1, p0.
    const TABLE: &str = "4e 02 02 00 47 50 01 57 00 0002 57 01 0001 43 00 00000005 \
                         43 00 00000001 50 00 45";

    #[test]
    fn parts_stand_where_their_commands_do() {
        let parts = goal_parts(&bytes(TABLE));
        let places: Vec<_> = parts.iter().map(|p| (p.offset, p.range.clone())).collect();
        assert_eq!(places, [(5, 5..7), (15, 7..21), (21, 21..27), (27, 27..29)]);
        assert_eq!(parts[0].needs, Needs::Proposition(1));
        assert_eq!(parts[1].needs, Needs::Sum(vec![(0, 2), (1, 1)], 0, 5));
        assert_eq!(parts[2].needs, Needs::Sum(Vec::new(), 0, 1));
    }

    #[test]
    fn layers_meet_parts() {
        let memory = [1, -1, 2, -2, i64::MAX, 1];
        let table = bytes(TABLE);
        let (stored, parts) = (Stored::new(&table, &memory, 1), goal_parts(&table));
        let met = |layer| [0, 1, 2, 3].map(|i| stored.meets(&parts[i], layer));
        assert_eq!(met(0), [false, false, false, false]);
        assert_eq!(met(1), [false, true, false, true]);
        assert!(stored.unbounded(&parts[1], 1) && !stored.unbounded(&parts[1], 0));
        assert!(!stored.meets_in_64_bits(&parts[1], 1));
        assert_eq!(stored.first_unmet(&parts[1..], 1), Some(&parts[2]));
    }
}
