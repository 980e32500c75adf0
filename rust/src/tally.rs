//! Two engines compared on many calls, counted by what they answer.

mod blocking;
mod closure;
mod planning;
mod rewriting;
mod rig;
mod schedule;
mod shares;

pub use shares::Shares;

use crate::answer::Reason;
use crate::call::{Call, CallKind, Fill};
use crate::commands::has_zero_term;
use crate::engine::{Engine, REFERENCE};
use crate::generate::Rng;
use crate::harness::compare_over;

/// Every reason to turn back, and 0 for none.
const REASONS: usize = Reason::ALL.len() + 1;

/// An engine compared with the reference, and how its calls went.
pub struct Tally<'e> {
    engine: &'e dyn Engine,
    rng: Rng,
    /// Calls by the number of their refusal; 0 for accepted ones.
    counts: [usize; REASONS],
    /// Calls of a written table with a term of weight 0.
    zeros: usize,
    blocking: Shares,
    planning: Shares,
    rewriting: Shares,
    closure: Shares,
    schedules: Shares,
    rig: Shares,
}

impl<'e> Tally<'e> {
    pub fn new(engine: &'e dyn Engine, seed: u64) -> Tally<'e> {
        Tally {
            engine,
            rng: Rng::new(seed),
            counts: [0; REASONS],
            zeros: 0,
            blocking: Shares::default(),
            planning: Shares::default(),
            rewriting: Shares::default(),
            closure: Shares::default(),
            schedules: Shares::default(),
            rig: Shares::default(),
        }
    }

    /// Compares one call, over contents of the outputs that differ from call to call.
    ///
    /// # Panics
    /// If the outcomes differ; the message has the call in hexadecimal and both outcomes.
    pub fn check(&mut self, call: &Call) {
        let fill = Fill::Seeded(self.rng.next_u64());
        self.zeros += usize::from(has_zero_term(&call.table));
        let outcome = match compare_over(call, fill, &REFERENCE, self.engine) {
            Ok(outcome) => outcome,
            Err(difference) => panic!("{difference}\n  before: {fill:?}"),
        };
        self.counts[refusal_number(&outcome.answer)] += 1;
        match call.kind {
            CallKind::Blocking => self.blocking.add_blocking(call, &outcome.answer),
            CallKind::Plan | CallKind::Campaign => self.planning.add_planning(call, &outcome),
            CallKind::Rewrite => self.rewriting.add_rewriting(call),
            CallKind::Place => self.closure.add_closure(call, &outcome),
            CallKind::Check => self.schedules.add_schedule(call, &outcome),
            kind if kind.is_rig() => self.rig.add_rig(call, &outcome.answer),
            _ => {}
        }
    }

    /// Calls by the number of their refusal; 0 for accepted ones.
    pub fn counts(&self) -> &[usize; REASONS] {
        &self.counts
    }

    pub fn inputs(&self) -> usize {
        self.counts.iter().sum()
    }

    /// Fails unless there were at least so many calls, and each of these numbers came up.
    ///
    /// # Panics
    /// If there were fewer, or a number is missing.
    pub fn expect(&self, inputs: usize, numbers: &[usize]) {
        let counts = self.counts;
        println!("{} inputs, by refusal {counts:?}", self.inputs());
        println!("{} with a written weight 0", self.zeros);
        assert!(self.inputs() >= inputs, "{} inputs only", self.inputs());
        for number in numbers {
            assert!(counts[*number] >= 5, "refusal {number}: {counts:?}");
        }
    }

    /// What calls of `blocking` had to tell apart.
    pub fn blocking(&self) -> &Shares {
        &self.blocking
    }

    /// What calls of `plan` and `campaign` had to tell apart.
    pub fn planning(&self) -> &Shares {
        &self.planning
    }

    /// What calls of `rewrite` had to tell apart.
    pub fn rewriting(&self) -> &Shares {
        &self.rewriting
    }

    /// What calls of `place` had to tell apart.
    pub fn closure(&self) -> &Shares {
        &self.closure
    }

    /// What calls of `check` had to tell apart.
    pub fn schedules(&self) -> &Shares {
        &self.schedules
    }

    /// What calls with the rig's limits had to tell apart.
    pub fn rig(&self) -> &Shares {
        &self.rig
    }

    /// Fails unless at least so many calls were refused for a move that does nothing.
    ///
    /// # Panics
    /// If there were fewer.
    pub fn expect_idle_moves(&self, calls: usize) {
        let refused = self.counts[usize::from(Reason::IdleMove.number())];
        assert!(refused >= calls, "{refused} with an idle move only");
    }

    /// Fails unless at least so many calls had a written table with a term of weight 0.
    ///
    /// # Panics
    /// If there were fewer.
    pub fn expect_zero_terms(&self, calls: usize) {
        assert!(self.zeros >= calls, "{} with a weight 0 only", self.zeros);
    }
}

/// The number of a refusal, 0 for any other outcome.
fn refusal_number(outcome: &str) -> usize {
    let refusal = outcome.strip_prefix("refusal ");
    let number = refusal.and_then(|rest| rest.split(' ').next());
    number.map_or(0, |number| number.parse().expect("a refusal has a number"))
}

#[cfg(test)]
mod tests {
    use super::*;

    #[test]
    fn refusals_have_numbers() {
        assert_eq!(refusal_number("refusal 14 place 2 memory -"), 14);
        assert_eq!(refusal_number("ok 54 0 0 0"), 0);
    }
}
