//! Engines with a fault in one of the five cases by which comparisons become ≥.

use super::changed::normalised;
use super::reading::{reading, Misreading, WRITTEN};
use super::{Impostor, HONEST};
use crate::answer::Refusal;
use crate::call::CallKind;
use crate::commands::commands;
use crate::engine::{Calls, Normalise};
use crate::reference::table::Comparison::{Above, AtLeast, AtMost, Below, Equal};
use crate::reference::table::{Block, Comparison, Condition, Item, Kind};

pub const COMPARISONS: [Impostor; 11] = [
    impostor("> without the one", |table, out| {
        instead(table, out, &[(Above, &[AtLeast])])
    }),
    impostor("< without the one", |table, out| {
        instead(table, out, &[(Below, &[AtMost])])
    }),
    impostor("<= with the sum unturned", |table, out| {
        at_most(table, out, AtLeast)
    }),
    impostor("<= with the constant unturned", |table, out| {
        at_most(table, out, AtMost)
    }),
    impostor("= is its first half", |table, out| {
        instead(table, out, &[(Equal, &[AtLeast])])
    }),
    impostor("= is its second half", |table, out| {
        instead(table, out, &[(Equal, &[AtMost])])
    }),
    Impostor {
        kinds: &[CallKind::Normalise, CallKind::Campaign],
        ..impostor("the halves of = are exchanged", |table, out| {
            instead(table, out, &[(Equal, &[AtMost, AtLeast])])
        })
    },
    impostor(">= and > are exchanged", |table, out| {
        instead(table, out, &[(AtLeast, &[Above]), (Above, &[AtLeast])])
    }),
    impostor("<= and < are exchanged", |table, out| {
        instead(table, out, &[(AtMost, &[Below]), (Below, &[AtMost])])
    }),
    Impostor {
        trick: "5 is read as =",
        engine: reading::<FiveIsEqual>(),
        kinds: WRITTEN,
    },
    Impostor {
        trick: "any other number is read as =",
        engine: reading::<OtherIsEqual>(),
        kinds: WRITTEN,
    },
];

const fn impostor(trick: &'static str, normalise: Normalise) -> Impostor {
    Impostor {
        trick,
        engine: Calls {
            normalise,
            ..HONEST
        },
        kinds: &[CallKind::Normalise, CallKind::Campaign, CallKind::Listing],
    }
}

/// The normal form of a table with other comparisons in the place of some.
fn instead(
    table: &[u8],
    out: &mut [u8],
    others: &[(Comparison, &[Comparison])],
) -> Result<usize, Refusal> {
    ruled(table, out, |condition| {
        let other = others.iter().find(|(of, _)| *of == condition.comparison);
        let compared = |comparison: &Comparison| Condition {
            comparison: *comparison,
            ..condition.clone()
        };
        match other {
            Some((_, comparisons)) => comparisons.iter().map(compared).collect(),
            None => vec![condition],
        }
    })
}

/// The normal form of a table with another comparison, and the constant turned, in the place of
/// each ≤.
fn at_most(table: &[u8], out: &mut [u8], comparison: Comparison) -> Result<usize, Refusal> {
    ruled(table, out, |condition| {
        vec![match condition.comparison {
            AtMost => Condition {
                comparison,
                constant: -condition.constant,
                ..condition
            },
            _ => condition,
        }]
    })
}

/// The normal form of a table with other conditions in the place of each.
fn ruled(
    table: &[u8],
    out: &mut [u8],
    rule: impl Fn(Condition) -> Vec<Condition>,
) -> Result<usize, Refusal> {
    let others = |item: Item| match item {
        Item::Condition(condition) => rule(condition).into_iter().map(Item::Condition).collect(),
        item => vec![item],
    };
    let change = |block: &mut Block| {
        block.items = block.items.drain(..).flat_map(others).collect();
    };
    normalised(table, out, change, |_| ())
}

struct FiveIsEqual;

impl Misreading for FiveIsEqual {
    fn misread(table: &[u8]) -> Result<Vec<u8>, Refusal> {
        Ok(with_equal_for(table, |number| number == 5))
    }
}

struct OtherIsEqual;

impl Misreading for OtherIsEqual {
    fn misread(table: &[u8]) -> Result<Vec<u8>, Refusal> {
        Ok(with_equal_for(table, |number| number >= 5))
    }
}

/// The same bytes with = in the place of such numbers, if it is a written table.
fn with_equal_for(table: &[u8], number: fn(u8) -> bool) -> Vec<u8> {
    let mut other = table.to_vec();
    let written = table.first() == Some(&Kind::Written.byte());
    for (at, command) in commands(table).filter(|_| written) {
        if command[0] == 0x43 && number(command[1]) {
            other[at + 1] = Equal.code();
        }
    }
    other
}

#[cfg(test)]
mod tests {
    use super::*;
    use crate::engine::REFERENCE;
    use crate::generate::{task, Rng};
    use crate::harness::normalised;

    /// What the impostors are made of gives what the reference does.
    #[test]
    fn honest_rules_are_the_references() {
        let honest = impostor("", |table, out| {
            instead(table, out, &[(Equal, &[AtLeast, AtMost])])
        });
        let mut rng = Rng::new(820);
        for _ in 0..2_000 {
            let table = task(&mut rng, Kind::Written).table;
            let forms = [REFERENCE, honest.engine].map(|engine| normalised(&engine, &table));
            assert_eq!(forms[0], forms[1]);
        }
    }
}
