//! The way down a plan, worked out from a table and from the layers in memory: what is wanted at each
//! layer, and which moves are taken for it.
//!
//! Without the reference's planner, whose rules stand here a second time: an error in one of the two shows.

use crate::answer::Answer;
use crate::memory::Memory;
use crate::reference::table::{Block, Change, Effect, Table, Term};
use std::collections::{BTreeMap, BTreeSet};

/// Wanted propositions, and the largest target of each variable.
#[derive(Clone, Debug, Default, PartialEq, Eq)]
pub struct Wants {
    pub propositions: BTreeSet<usize>,
    pub targets: BTreeMap<usize, i128>,
}

impl Wants {
    fn aim(&mut self, variable: usize, target: i128) {
        let largest = self.targets.entry(variable).or_insert(target);
        *largest = target.max(*largest);
    }
}

/// Moves and their counts.
type Taken = BTreeMap<u64, u64>;

/// What happens on the way down, by layer.
pub struct Walk<'w> {
    pub table: &'w Table,
    pub memory: &'w Memory<'w>,
    /// What is wanted at each layer up to the answer layer.
    pub wanted: Vec<Wants>,
    /// The same without what the layer above hands down.
    pub own: Vec<Wants>,
    /// The moves taken at each layer below the answer layer.
    pub taken: Vec<Taken>,
}

/// Shows the way down from the answer of a planning call, with the layers that it left in memory;
/// there is none with "no plan".
///
/// # Panics
/// If no usable move brings about what a layer has and the one below it does not.
pub fn walked<R>(
    table: &Table,
    numbers: &[i64],
    answer: Answer,
    look: impl FnOnce(&Walk) -> R,
) -> Option<R> {
    let Answer::Layer(last) = answer else {
        return None;
    };
    let memory = Memory::new(table.counts(), numbers, last);
    Some(look(&Walk::new(table, &memory)))
}

impl<'w> Walk<'w> {
    /// Down from the last layer in memory, which meets the goal.
    fn new(table: &'w Table, memory: &'w Memory<'w>) -> Walk<'w> {
        let answer = memory.layers.len() - 1;
        let mut walk = Walk {
            table,
            memory,
            wanted: vec![Wants::default(); answer + 1],
            own: vec![Wants::default(); answer + 1],
            taken: vec![Taken::new(); answer],
        };
        walk.want_block(&table.goal, answer);
        for layer in (0..answer).rev() {
            walk.descend_to(layer);
        }
        walk
    }

    /// The records of the plan.
    pub fn records(&self) -> Vec<(u64, u64)> {
        let records = self.taken.iter().flatten();
        records.map(|(mv, count)| (*mv, *count)).collect()
    }

    /// The value of a variable in a layer; the largest number of 64 bits stands for unbounded.
    pub fn value(&self, variable: usize, layer: usize) -> i128 {
        self.memory.layers[layer][variable].into()
    }

    fn want_proposition(&mut self, p: usize, layer: usize) {
        self.wanted[layer].propositions.insert(p);
        self.own[layer].propositions.insert(p);
    }

    fn want_value(&mut self, variable: usize, target: i128, layer: usize) {
        self.wanted[layer].aim(variable, target);
        self.own[layer].aim(variable, target);
    }

    fn want_block(&mut self, block: &Block, layer: usize) {
        block
            .required()
            .for_each(|p| self.want_proposition(p, layer));
        for condition in block.conditions() {
            self.want_sum(&condition.terms, condition.constant, layer);
        }
    }

    /// Wants a sum to be at least the constant in a layer.
    fn want_sum(&mut self, terms: &[Term], constant: i128, layer: usize) {
        let unbounded = |term: &&Term| self.memory.layers[layer][term.variable] == i64::MAX;
        let (growing, finite): (Vec<&Term>, Vec<&Term>) = terms.iter().partition(unbounded);
        let mut rest = constant;
        for term in &finite {
            let value = self.value(term.variable, layer);
            self.want_value(term.variable, value, layer);
            rest -= term.weight * value;
        }
        if let Some((lowest, others)) = growing.split_first() {
            let at_start = |term: &&Term| term.weight * self.value(term.variable, 0);
            rest -= others.iter().map(at_start).sum::<i128>();
            self.want_value(lowest.variable, rounded_up(rest, lowest.weight), layer);
        }
    }

    /// Hands down to a layer what it has of the wants above, and takes moves in it for the others.
    fn descend_to(&mut self, layer: usize) {
        let above = self.wanted[layer + 1].clone();
        for p in above.propositions {
            match self.memory.has(p, layer) {
                true => drop(self.wanted[layer].propositions.insert(p)),
                false => self.take_adding(p, layer),
            }
        }
        for (variable, target) in above.targets {
            match self.value(variable, layer) >= target {
                true => self.wanted[layer].aim(variable, target),
                false => self.take_reaching(variable, target, layer),
            }
        }
    }

    /// The moves usable in a layer, rising.
    fn usable(&self, layer: usize) -> impl Iterator<Item = (usize, &'w Block)> + '_ {
        let moves = self.table.moves.iter().enumerate();
        moves.filter(move |(_, block)| self.memory.meets(block, layer))
    }

    fn take_adding(&mut self, p: usize, layer: usize) {
        let found = self.usable(layer).find(|(_, m)| m.added().any(|q| q == p));
        let (mv, block) = found.expect("a usable move adds the proposition");
        self.take(mv, block, 1, layer);
    }

    fn take_reaching(&mut self, variable: usize, target: i128, layer: usize) {
        let effects = self
            .usable(layer)
            .flat_map(|(mv, block)| block.effects().map(move |effect| (mv, block, effect)));
        let (mv, block, effect) = effects
            .filter(|(.., effect)| effect.variable == variable)
            .find(|(.., effect)| self.reaches(effect, target, layer))
            .expect("a usable move reaches the target");
        let (least, count) = match effect.change {
            Change::Assign => (target, 1),
            _ => {
                let each = match self.effect_value(effect, layer) {
                    i128::MAX => 1,
                    value => value,
                };
                (1, rounded_up(target - self.value(variable, 0), each))
            }
        };
        self.take(mv, block, count as u64, layer);
        self.want_sum(&effect.terms, least - effect.constant, layer);
    }

    fn take(&mut self, mv: usize, block: &Block, count: u64, layer: usize) {
        let larger = self.taken[layer].entry(mv as u64).or_insert(count);
        *larger = count.max(*larger);
        self.want_block(block, layer);
    }

    /// The value of an effect in a layer; the largest number stands for unbounded.
    pub fn effect_value(&self, effect: &Effect, layer: usize) -> i128 {
        self.memory.sum(&effect.terms, effect.constant, layer)
    }

    /// Whether a move would be taken for its effect: its value is at least the target, or above 0
    /// for `+=`.
    pub fn reaches(&self, effect: &Effect, target: i128, layer: usize) -> bool {
        let value = self.effect_value(effect, layer);
        match effect.change {
            Change::Assign => value >= target,
            _ => value > 0,
        }
    }
}

/// The quotient rounded up to a whole number; the divisor is above 0.
fn rounded_up(number: i128, divisor: i128) -> i128 {
    number.div_euclid(divisor) + i128::from(number.rem_euclid(divisor) > 0)
}
