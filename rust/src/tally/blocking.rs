//! What calls of `blocking` have to tell apart, counted.

use super::Shares;
use crate::call::Call;
use crate::parts::{goal_parts, Needs, Part, Stored};
use crate::reference::decide;
use crate::room;

/// Conditions that block, by their number of terms.
const TERMS: [&str; 9] = [
    "0 terms", "1 term", "2 terms", "3 terms", "4 terms", "5 terms", "6 terms", "7 terms",
    "8 terms",
];

impl Shares {
    /// Takes note of a call and its answer.
    pub(super) fn add_blocking(&mut self, call: &Call, answer: &str) {
        if let Some(offset) = answer.strip_prefix("blocks ") {
            let offset = offset.parse().expect("an offset is a number");
            self.add_blocked(call, offset);
        } else if let Some(layer) = answer.strip_prefix("refusal 14 place ") {
            self.add_one("14 at layer 0", layer == "0");
            self.add_one("14 at a later layer", layer != "0");
        } else {
            self.add_one("nothing", answer == "nothing");
            self.add_one("15", answer.starts_with("refusal 15 "));
        }
    }

    /// The same for a call that the part at an offset blocks.
    fn add_blocked(&mut self, call: &Call, offset: usize) {
        let mut memory = vec![0; call.numbers];
        let decision = decide(&call.table, &call.state, &mut memory).expect("a decision");
        let stored = Stored::new(&call.table, &memory, decision.layers);
        let parts = goal_parts(&call.table);
        let at = parts.iter().position(|part| part.offset == offset);
        let (before, rest) = parts.split_at(at.expect("a part that blocks"));
        let (part, behind) = rest.split_first().expect("a part that blocks");
        let last = stored.last();
        self.add_one("blocks", true);
        self.add_one("behind a met part", !before.is_empty());
        self.add_one(
            "before an unmet part",
            stored.first_unmet(behind, last).is_some(),
        );
        self.add_one(
            "before a met part",
            behind.iter().any(|part| stored.meets(part, last)),
        );
        self.add_one("layers", last > 0);
        self.add_one("just enough memory", call.numbers == needed(call, last));
        self.add_layers(&stored, before);
        self.add_kinds(&parts, part);
    }

    /// What the parts before the one that blocks are in other layers, or otherwise added up.
    fn add_layers(&mut self, stored: &Stored, before: &[Part]) {
        let last = stored.last();
        let unmet = |layer| stored.first_unmet(before, layer).is_some();
        self.add_one("behind a part that layer 0 does not meet", unmet(0));
        let late = unmet(last.saturating_sub(1));
        self.add_one("behind a part that only the last layer meets", late);
        let unbounded = before.iter().any(|part| stored.unbounded(part, last));
        self.add_one("behind an unbounded sum", unbounded);
        let wraps = before
            .iter()
            .any(|part| !stored.meets_in_64_bits(part, last));
        self.add_one("behind a sum that would wrap", wraps);
    }

    fn add_kinds(&mut self, parts: &[Part], part: &Part) {
        let is_sum = |part: &Part| matches!(part.needs, Needs::Sum(..));
        let sums = parts.iter().filter(|part| is_sum(part)).count();
        self.add_one("both kinds of part", 0 < sums && sums < parts.len());
        match is_sum(part) {
            true => self.add_one(TERMS[part.terms().len()], true),
            false => self.add_one("a proposition", true),
        }
    }

    /// Fails unless so many calls were blocked by a condition with each number of terms.
    ///
    /// # Panics
    /// If there are fewer.
    pub fn expect_terms(&self, least: usize) {
        self.expect(&TERMS.map(|name| (name, least)));
    }
}

/// Numbers of memory for the layers up to the last.
fn needed(call: &Call, last: usize) -> usize {
    let [p, n, a] = room::counts(&call.table);
    p + a + n * (last + 1)
}
