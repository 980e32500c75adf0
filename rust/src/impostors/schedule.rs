//! Engines with a fault in checking a list of moves.

/// An engine with one rule changed.
macro_rules! ruled {
    ($trick:literal, $rule:ident: $other:expr) => {
        impostor($trick, |table, state, list, out| {
            let rules = Rules {
                $rule: $other,
                ..RULES
            };
            rules.check(table, state, list, out)
        })
    };
}

mod answers;
mod faults;
mod goals;
mod moves;
mod order;
mod range;
mod rules;
mod writing;

pub use answers::LONG_SCHEDULES;
pub use faults::FAULTS;
pub use order::LONG_TABLES;

use answers::ANSWERS;
use goals::GOALS;
use moves::{CONDITIONS, EFFECTS, NAMES};
use order::{CHECKED_FIRST, TABLES_TAKEN};
use range::RANGE;
use writing::WRITING;

use super::{Impostor, HONEST};
use crate::call::CallKind;
use crate::engine::{Calls, Check};

/// All but those that only long lists, long tables or the reasons of an index show.
pub const SCHEDULES: [&[Impostor]; 9] = [
    &NAMES,
    &CONDITIONS,
    &EFFECTS,
    &RANGE,
    &GOALS,
    &ANSWERS,
    &WRITING,
    &CHECKED_FIRST,
    &TABLES_TAKEN,
];

const fn impostor(trick: &'static str, check: Check) -> Impostor {
    Impostor {
        trick,
        engine: Calls { check, ..HONEST },
        kinds: &[CallKind::Check],
    }
}

#[cfg(test)]
mod tests {
    use super::rules::RULES;
    use super::*;
    use crate::engine::REFERENCE;
    use crate::generate::{check_calls, Rng};
    use crate::harness::compare;

    /// What the impostors are made of gives what the reference does.
    #[test]
    fn honest_rules_are_the_references() {
        let mut rng = Rng::new(902);
        let honest = impostor("", |table, state, list, out| {
            RULES.check(table, state, list, out)
        });
        for call in (0..500).flat_map(|_| check_calls(&mut rng, 10)) {
            compare(&call, &REFERENCE, &honest.engine).unwrap();
        }
    }
}
