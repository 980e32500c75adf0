//! Engines with a fault in closure hours.

/// An engine with one rule changed.
macro_rules! ruled {
    ($trick:literal, $rule:ident: $other:expr) => {
        impostor($trick, |windows, durations, out| {
            let rules = Rules {
                $rule: $other,
                ..RULES
            };
            rules.place(windows, durations, out)
        })
    };
}

mod answers;
mod checks;
mod placing;
mod rules;

pub use answers::{ANSWERS, LONG_LISTS, PLACES};
pub use checks::{CHECKS, ORDER};
pub use placing::PLACING;

use super::{Impostor, HONEST};
use crate::call::CallKind;
use crate::engine::{Calls, Place};

const fn impostor(trick: &'static str, place: Place) -> Impostor {
    Impostor {
        trick,
        engine: Calls { place, ..HONEST },
        kinds: &[CallKind::Place],
    }
}

#[cfg(test)]
mod tests {
    use super::rules::RULES;
    use super::*;
    use crate::engine::REFERENCE;
    use crate::generate::{place_call, Rng};
    use crate::harness::compare;

    /// What the impostors are made of gives what the reference does.
    #[test]
    fn honest_rules_are_the_references() {
        let mut rng = Rng::new(901);
        let honest = impostor("", |windows, durations, out| {
            RULES.place(windows, durations, out)
        });
        for _ in 0..5_000 {
            compare(&place_call(&mut rng), &REFERENCE, &honest.engine).unwrap();
        }
    }
}
