//! One relaxed move run many times in a row, fast and exactly.
//!
//! In a relaxed run of a normal table no value falls and no weight is below 0, so
//! conditions stay true once they hold: a move that may run once may run any number
//! of times. Its own effects pass only forward through four phases:
//!
//! * waiting: it would give less than the variable has (`:=`) or nothing (`+=`);
//! * active: it sets its variable. Its value never falls, so it stays active;
//! * bursting: it reads a huge variable, and its own is huge after the next run;
//! * done: its variable is huge.
//!
//! While no effect changes its phase, the increases d of the active variables follow a
//! fixed linear rule: after one more run they are M d, where M has the weights, and 1
//! more on the diagonal for `+=`. After n runs the values have grown by
//! (I + M + ... + M^(n-1)) d. Powers of M for n = 1, 2, 4, ... give the longest stretch
//! in which all phases at its end are those at its start; phases pass forward only, so
//! they are the same throughout. One plain run follows, and then the next stretch.
//!
//! All of M and d is at least 0. Cutting such numbers off at a bound and then adding or
//! multiplying gives the same as cutting off at the end, so a result below the bound is
//! exact.
//!
//! A value of 10^33 or more is huge and no longer followed. A sum that reads a huge
//! variable takes at most 8 * 1000 * 10^6 + 10^6 away from it, as no value is below
//! -10^6. A variable that is huge for that reason is at least 10^33 less 10^10 for
//! every move run, so with at most 10^22 moves it is above 10^32: every condition that
//! reads it holds in the unlimited run as well.

use crate::reference::state::State;
use crate::reference::table::{Block, Change, Effect, Term};

const HUGE: i128 = 1_000_000_000_000_000_000_000_000_000_000_000;

/// Where entries of matrices and increases are cut off. A value grown by this is huge.
const CUT: i128 = 2 * HUGE;

/// A value of a relaxed run.
#[derive(Clone, Copy, Debug, PartialEq, Eq, PartialOrd, Ord)]
pub(super) enum Amount {
    Exact(i128),
    Huge,
}

impl Amount {
    /// The most moves of a list for which huge values are sure to stay so.
    pub(super) const MOVE_LIMIT: u128 = 10_000_000_000_000_000_000_000;

    fn of(value: i128) -> Amount {
        if value < HUGE {
            Amount::Exact(value)
        } else {
            Amount::Huge
        }
    }
}

#[derive(Clone, Copy, Debug, PartialEq, Eq)]
enum Phase {
    Waiting,
    Active,
    Bursting,
    Done,
}

/// A relaxed run of a normal table.
pub(super) struct Relaxed {
    propositions: Vec<bool>,
    values: Vec<Amount>,
}

impl Relaxed {
    pub(super) fn start(state: &State) -> Relaxed {
        let values = state.signed_values().into_iter().map(Amount::Exact);
        Relaxed {
            propositions: state.propositions.clone(),
            values: values.collect(),
        }
    }

    pub(super) fn meets(&self, block: &Block) -> bool {
        block.required().all(|p| self.propositions[p])
            && block
                .conditions()
                .all(|c| self.sum(&c.terms, 0) >= Amount::Exact(c.constant))
    }

    /// Runs a move, whose conditions hold, this many times.
    pub(super) fn repeat(&mut self, block: &Block, count: u64) {
        block.added().for_each(|p| self.propositions[p] = true);
        let effects: Vec<&Effect> = block.effects().collect();
        let mut left = count;
        while left > 0 && self.moves_on(&effects) {
            left -= self.stretch(&effects, left - 1);
            self.run_once(&effects);
            left -= 1;
        }
    }

    /// The exact sum, not cut off: at most 8 * 1000 * 10^33 in size.
    fn sum(&self, terms: &[Term], constant: i128) -> Amount {
        let mut total = constant;
        for term in terms {
            match self.values[term.variable] {
                Amount::Exact(value) => total += term.weight * value,
                Amount::Huge => return Amount::Huge,
            }
        }
        Amount::Exact(total)
    }

    /// By how much an effect would raise its variable now.
    fn increase(&self, effect: &Effect) -> Amount {
        let (Amount::Exact(value), Amount::Exact(old)) = (
            self.sum(&effect.terms, effect.constant),
            self.values[effect.variable],
        ) else {
            return Amount::Huge;
        };
        match effect.change {
            Change::Assign => Amount::Exact((value - old).max(0)),
            _ => Amount::Exact(value.max(0)),
        }
    }

    fn phase(&self, effect: &Effect) -> Phase {
        let Amount::Exact(old) = self.values[effect.variable] else {
            return Phase::Done;
        };
        match (effect.change, self.sum(&effect.terms, effect.constant)) {
            (_, Amount::Huge) => Phase::Bursting,
            (Change::Assign, Amount::Exact(value)) if value >= old => Phase::Active,
            (Change::Increase, Amount::Exact(value)) if value > 0 => Phase::Active,
            _ => Phase::Waiting,
        }
    }

    fn phases(&self, effects: &[&Effect]) -> Vec<Phase> {
        effects.iter().map(|effect| self.phase(effect)).collect()
    }

    /// Whether another run changes any value.
    fn moves_on(&self, effects: &[&Effect]) -> bool {
        effects.iter().any(|effect| match self.phase(effect) {
            Phase::Waiting | Phase::Done => false,
            Phase::Bursting => true,
            Phase::Active => self.increase(effect) > Amount::Exact(0),
        })
    }

    /// One plain run.
    fn run_once(&mut self, effects: &[&Effect]) {
        let increases: Vec<Amount> = effects.iter().map(|e| self.increase(e)).collect();
        for (effect, increase) in effects.iter().zip(increases) {
            let value = &mut self.values[effect.variable];
            *value = match (*value, increase) {
                (Amount::Exact(old), Amount::Exact(more)) => Amount::of(old + more),
                _ => Amount::Huge,
            };
        }
    }

    /// Runs on while all phases stay the same, at most `limit` times; how often it ran.
    fn stretch(&mut self, effects: &[&Effect], limit: u64) -> u64 {
        let phases = self.phases(effects);
        if limit == 0 || phases.contains(&Phase::Bursting) {
            return 0;
        }
        let active: Vec<&Effect> = effects
            .iter()
            .zip(&phases)
            .filter(|(_, phase)| **phase == Phase::Active)
            .map(|(effect, _)| *effect)
            .collect();
        let mut growth = self.growth(&active);
        let mut doublings = vec![Doubling::first(&active)];
        while let Some(next) = doublings.last().filter(|d| d.runs <= limit / 2) {
            let fits = self.grown(&active, next, &growth).phases(effects) == phases;
            if !fits {
                break;
            }
            doublings.push(next.doubled());
        }
        let mut ran = 0;
        for doubling in doublings.iter().rev() {
            let later = self.grown(&active, doubling, &growth);
            if ran + doubling.runs <= limit && later.phases(effects) == phases {
                *self = later;
                growth = doubling.power.times_vector(&growth);
                ran += doubling.runs;
            }
        }
        ran
    }

    /// What each active effect raises its variable by in the next run, cut off.
    fn growth(&self, active: &[&Effect]) -> Vec<i128> {
        let cut = |amount| match amount {
            Amount::Exact(more) => CUT.min(more),
            Amount::Huge => CUT,
        };
        active.iter().map(|e| cut(self.increase(e))).collect()
    }

    /// The run after all runs of a doubling.
    fn grown(&self, active: &[&Effect], doubling: &Doubling, growth: &[i128]) -> Relaxed {
        let mut values = self.values.clone();
        let more = doubling.total.times_vector(growth);
        for (effect, more) in active.iter().zip(more) {
            if let Amount::Exact(old) = self.values[effect.variable] {
                values[effect.variable] = Amount::of(old + more);
            }
        }
        Relaxed {
            propositions: self.propositions.clone(),
            values,
        }
    }
}

/// The linear rule over a number n of runs: M^n, and I + M + ... + M^(n-1).
struct Doubling {
    runs: u64,
    power: Matrix,
    total: Matrix,
}

impl Doubling {
    fn first(active: &[&Effect]) -> Doubling {
        Doubling {
            runs: 1,
            power: Matrix::rule(active),
            total: Matrix::identity(active.len()),
        }
    }

    fn doubled(&self) -> Doubling {
        Doubling {
            runs: 2 * self.runs,
            power: self.power.times(&self.power),
            total: self.total.plus(&self.power.times(&self.total)),
        }
    }
}

/// A square matrix of numbers from 0 to the cut.
struct Matrix {
    rows: Vec<Vec<i128>>,
}

impl Matrix {
    fn identity(size: usize) -> Matrix {
        let row = |i| (0..size).map(|j| i128::from(i == j)).collect();
        Matrix {
            rows: (0..size).map(row).collect(),
        }
    }

    /// How the increases of one run depend on those of the run before.
    fn rule(active: &[&Effect]) -> Matrix {
        let entry = |of: &Effect, on: &Effect| {
            let kept = of.change == Change::Increase && of.variable == on.variable;
            let terms = of.terms.iter().filter(|t| t.variable == on.variable);
            i128::from(kept) + terms.map(|t| t.weight).sum::<i128>()
        };
        let row = |of: &&Effect| active.iter().map(|on| entry(of, on)).collect();
        Matrix {
            rows: active.iter().map(row).collect(),
        }
    }

    fn plus(&self, other: &Matrix) -> Matrix {
        let add = |(a, b): (&Vec<i128>, &Vec<i128>)| {
            a.iter().zip(b).map(|(a, b)| CUT.min(a + b)).collect()
        };
        Matrix {
            rows: self.rows.iter().zip(&other.rows).map(add).collect(),
        }
    }

    fn times(&self, other: &Matrix) -> Matrix {
        let size = self.rows.len();
        let column = |j: usize| other.rows.iter().map(|row| row[j]).collect::<Vec<_>>();
        let columns: Vec<Vec<i128>> = (0..size).map(column).collect();
        let row = |r: &Vec<i128>| columns.iter().map(|c| product(r, c)).collect();
        Matrix {
            rows: self.rows.iter().map(row).collect(),
        }
    }

    fn times_vector(&self, vector: &[i128]) -> Vec<i128> {
        self.rows.iter().map(|row| product(row, vector)).collect()
    }
}

/// The product of two vectors of numbers from 0 to the cut, cut off.
fn product(one: &[i128], other: &[i128]) -> i128 {
    one.iter().zip(other).fold(0, |sum, (a, b)| {
        CUT.min(sum + CUT.min(a.saturating_mul(*b)))
    })
}

#[cfg(test)]
mod tests {
    use super::*;
    use crate::generate::{task, Rng};
    use crate::hex::unhex;
    use crate::reference::parse_task;
    use crate::reference::semantics::real::RealState;
    use crate::reference::semantics::relaxed::relaxed_after;
    use crate::reference::semantics::whole::Whole;
    use crate::reference::table::{Kind, Table};

    /// One normal move on v0, v2, v4 from 0: v0 += 1, v2 += v0, v4 += v2.
    fn rising_powers() -> (Table, State) {
        let table = unhex(concat!(
            "4e000601",
            "41",
            "46010000000001",
            "5700000146010200000000",
            "5702000146010400000000",
            "4745"
        ));
        parse_task(&table.unwrap(), &[0; 12]).unwrap()
    }

    #[test]
    fn long_runs_have_the_known_values() {
        let (table, state) = rising_powers();
        for n in [1, 2, 3, 1_000, 999_999, 10_000_000_000] {
            let mut run = Relaxed::start(&state);
            run.repeat(&table.moves[0], n);
            let n = i128::from(n);
            let expected = [n, n * (n - 1) / 2, n * (n - 1) * (n - 2) / 6];
            let got = [0, 2, 4].map(|v| run.values[v]);
            assert_eq!(got, expected.map(Amount::Exact), "{n} runs");
        }
    }

    #[test]
    fn values_past_the_bound_are_huge() {
        let (table, state) = rising_powers();
        let mut run = Relaxed::start(&state);
        run.repeat(&table.moves[0], u64::MAX);
        assert_eq!(run.values[0], Amount::Exact(i128::from(u64::MAX)));
        assert_eq!(run.values[2], Amount::Huge);
        assert_eq!(run.values[4], Amount::Huge);
    }

    /// Runs of a random task agree with runs of one move at a time.
    #[test]
    fn runs_agree_with_single_moves() {
        let mut rng = Rng::new(7);
        let (mut changed, mut huge) = (0, 0);
        for _ in 0..600 {
            let task = task(&mut rng, Kind::Normal);
            let (table, state) = parse_task(&task.table, &task.state).unwrap();
            let mut fast = Relaxed::start(&state);
            let mut slow = RealState::start(&table, &state);
            for _ in 0..if table.moves.is_empty() { 0 } else { 5 } {
                let block = rng.pick(&table.moves);
                assert_eq!(fast.meets(block), slow.meets(block), "{task}");
                if !fast.meets(block) {
                    continue;
                }
                let count = 1 + rng.below(150);
                fast.repeat(block, count as u64);
                let before = slow.clone();
                for _ in 0..count {
                    slow = relaxed_after(&slow, block);
                }
                changed += usize::from(slow != before);
                huge += usize::from(fast.values.contains(&Amount::Huge));
                assert!(agree(&fast, &slow), "{task}");
            }
        }
        assert!(changed > 300, "only {changed} runs changed anything");
        assert!(huge > 30, "only {huge} runs had huge values");
    }

    fn agree(fast: &Relaxed, slow: &RealState) -> bool {
        let large = Whole::from(HUGE / 10);
        fast.propositions == slow.propositions
            && fast.values.iter().zip(&slow.values).all(|(f, s)| match f {
                Amount::Exact(value) => *s == Whole::from(*value),
                Amount::Huge => *s > large,
            })
    }
}
