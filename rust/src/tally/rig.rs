//! What calls with the rig's limits have to tell apart, counted.

use super::{refusal_number, Shares};
use crate::answer::Reason;
use crate::call::{Call, Field};
use crate::engine::REFERENCE;
use crate::reference::RIG;
use crate::room::Counts;

/// Refusals that come before 17, of tables whose head is beyond the rig's limits.
const AHEAD: [(usize, &str); 8] = [
    (1, "1 before 17"),
    (2, "2 before 17"),
    (3, "3 before 17"),
    (4, "4 before 17"),
    (5, "5 before 17"),
    (6, "6 before 17"),
    (7, "7 before 17"),
    (16, "16 before 17"),
];

/// What the call without the limits gives where 17 is given.
const BEHIND: [(usize, &str); 9] = [
    (0, "17 before an answer"),
    (8, "17 before 8"),
    (9, "17 before 9"),
    (10, "17 before 10"),
    (11, "17 before 11"),
    (12, "17 before 12"),
    (13, "17 before 13"),
    (14, "17 before 14"),
    (15, "17 before 15"),
];

impl Shares {
    /// Takes note of a call and its answer.
    pub(super) fn add_rig(&mut self, call: &Call, answer: &str) {
        self.add_one(call.kind.name(), true);
        if let Some(head) = Counts::of(&call.table) {
            self.add_head(head, call, answer);
        }
        if call.kind.has(Field::Numbers) {
            self.add_memory(call, answer);
        }
    }

    /// Counts beside the limits, and what comes before 17 or behind it.
    fn add_head(&mut self, head: Counts, call: &Call, answer: &str) {
        let number = refusal_number(answer);
        if number == usize::from(Reason::BeyondRig.number()) {
            let behind = refusal_number(&full_answer(call));
            self.add_number(&BEHIND, behind);
            self.add_one("17 moves alone", head.moves == 17 && head.values <= 8);
            self.add_one("9 variables alone", head.moves <= 16 && head.values == 9);
        } else if is_beyond(head) {
            self.add_number(&AHEAD, number);
            let wrong_head = answer.starts_with("refusal 3 place 0");
            self.add_one("the wrong head before 17", wrong_head);
        } else if number == 0 {
            self.add_one("16 moves", head.moves == 16);
            self.add_one("8 variables", head.values == 8);
            self.add_one("120 propositions", head.propositions == 120);
        }
    }

    fn add_number(&mut self, names: &[(usize, &'static str)], number: usize) {
        for (other, name) in names {
            self.add_one(name, *other == number);
        }
    }

    /// Lengths of layer memory beside what the rig uses.
    fn add_memory(&mut self, call: &Call, answer: &str) {
        let needed = numbers_needed(call, answer);
        let more = call.numbers > RIG.numbers;
        self.add_one("an answer with more lent", needed.is_some() && more);
        self.add_one("2,048 needed", needed == Some(RIG.numbers));
        self.add_one("2,047 needed", needed == Some(RIG.numbers - 1));
        if refusal_number(answer) == usize::from(Reason::MemoryShort.number()) && more {
            let needed = numbers_needed(call, &full_answer(call));
            self.add_one("14 with more lent", true);
            self.add_one("14 where the full call answers", needed.is_some());
            self.add_one("2,049 needed", needed == Some(RIG.numbers + 1));
        }
    }
}

/// Whether a head is beyond the limits of the rig, and not of document 01.
fn is_beyond(head: Counts) -> bool {
    let beyond = head.values > RIG.variables || head.moves > RIG.moves;
    beyond && head.values <= 16 && head.moves <= 64
}

/// The answer of the same call without the rig's limits.
fn full_answer(call: &Call) -> String {
    let full = Call {
        kind: call.kind.full(),
        ..call.clone()
    };
    let outcome = full.run(&REFERENCE);
    outcome.expect("the reference keeps what it is lent").answer
}

/// The numbers of layer memory that an answer needed, if it reports layers.
fn numbers_needed(call: &Call, answer: &str) -> Option<usize> {
    let (_, behind) = answer.split_once(" layers ")?;
    let layers: usize = behind.split(' ').next()?.parse().ok()?;
    let head = Counts::of(&call.table)?;
    Some(head.propositions + head.moves + 2 * head.values * (layers + 1))
}
