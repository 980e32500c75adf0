//! What calls of `plan` and `campaign` have to tell apart, counted.

use super::Shares;
use crate::answer::Answer;
use crate::call::{Call, Outcome};
use crate::generate::in_normal_form;
use crate::helpful::FAULTS;
use crate::reference::parse_table;
use crate::walk::{walked, Walk};

impl Shares {
    /// Takes note of a call and its outcome.
    pub(super) fn add_planning(&mut self, call: &Call, outcome: &Outcome) {
        let words: Vec<&str> = outcome.answer.split(' ').collect();
        match words[..] {
            ["no", "plan", ..] => self.add_one("no plan", true),
            ["plan", "layer", layer, _, _, _, _, "first", set, ..] => {
                let [layer, set] = [layer, set].map(|word| word.parse().expect("a number"));
                let table = parse_table(&call.table).expect("an accepted table");
                let answer = Answer::Layer(layer);
                walked(&in_normal_form(table), outcome.layers(), answer, |walk| {
                    self.add_plan(walk, set);
                });
            }
            _ => {}
        }
    }

    /// Counts a plan by its layers, and by the faults that give another set.
    fn add_plan(&mut self, walk: &Walk, set: u64) {
        let layers = walk.taken.len();
        self.add_one("answer layer 0", layers == 0);
        self.add_one("answer layer 1", layers == 1);
        self.add_one("a later answer layer", layers > 1);
        for fault in &FAULTS {
            self.add_one(fault.trick, (fault.set)(walk) != set);
        }
    }

    /// Fails unless each fault gives another set than the helpful moves in so many calls.
    ///
    /// # Panics
    /// If there are fewer.
    pub fn expect_faults(&self, least: usize) {
        self.expect(&FAULTS.map(|fault| (fault.trick, least)));
    }
}
