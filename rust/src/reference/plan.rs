//! The plan read off the layers, from the answer layer down, and its helpful moves.

use super::layers::{Layer, Value};
use super::table::{Block, Change, Effect, Table, Term};
use std::collections::BTreeMap;
use std::mem;

/// A move and how many times in a row it runs.
#[derive(Clone, Copy, Debug, PartialEq, Eq)]
pub struct Record {
    pub mv: u8,
    pub count: u64,
}

impl Record {
    pub fn encode(self) -> Vec<u8> {
        let mut bytes = vec![0x52, self.mv];
        bytes.extend(self.count.to_be_bytes());
        bytes
    }
}

/// The moves taken at one layer, rising, with their counts.
type Taken = BTreeMap<usize, u64>;

/// The records of the plan and the set of its helpful moves.
pub fn extract(table: &Table, layers: &[Layer]) -> (Vec<Record>, u64) {
    let walk = Walk::down(table, layers);
    let helpful = match &walk.wanted_at_1 {
        Some(wants) => helpful_moves(table, &layers[0], wants),
        None => 0,
    };
    let records = walk
        .taken
        .iter()
        .flatten()
        .map(|(mv, count)| Record {
            mv: u8::try_from(*mv).expect("moves are few"),
            count: *count,
        })
        .collect();
    (records, helpful)
}

/// The way from the answer layer down to layer 0.
struct Walk {
    /// What is taken at each layer below the answer layer.
    taken: Vec<Taken>,
    /// What is wanted at layer 1, none if the answer layer is 0.
    wanted_at_1: Option<Wants>,
}

impl Walk {
    fn down(table: &Table, layers: &[Layer]) -> Walk {
        let start = &layers[0];
        let answer = layers.len() - 1;
        let mut wants = Wants::none(table);
        wants.want_conditions(&table.goal, &layers[answer], start);
        let (mut taken, mut wanted_above) = (Vec::new(), None);
        for below in layers[..answer].iter().rev() {
            let mut descent = Descent::new(table, start, below);
            descent.pass(&wants);
            taken.push(descent.taken);
            wanted_above = Some(mem::replace(&mut wants, descent.wants));
        }
        taken.reverse();
        Walk {
            taken,
            wanted_at_1: wanted_above,
        }
    }
}

/// The moves usable in layer 0 that help with something wanted at layer 1, as bits.
fn helpful_moves(table: &Table, start: &Layer, wants: &Wants) -> u64 {
    let mut set = 0;
    for (b, block) in table.moves.iter().enumerate() {
        if start.meets(block) && helps(block, start, wants) {
            set |= 1 << b;
        }
    }
    set
}

/// Whether a move adds a wanted proposition that layer 0 does not have, or has an effect that
/// reaches a target that layer 0 does not.
fn helps(block: &Block, start: &Layer, wants: &Wants) -> bool {
    let adds = |p: usize| wants.propositions[p] && !start.propositions[p];
    let reaches = |effect: &Effect| match wants.targets[effect.variable] {
        Some(target) => {
            start.values[effect.variable] < Value::Finite(target) && reaches(effect, target, start)
        }
        None => false,
    };
    block.added().any(adds) || block.effects().any(reaches)
}

/// Whether the value of an effect in a layer is at least the target, or above 0 for `+=`.
fn reaches(effect: &Effect, target: i128, layer: &Layer) -> bool {
    let value = layer.effect_value(effect);
    match effect.change {
        Change::Assign => value >= Value::Finite(target),
        _ => value > Value::Finite(0),
    }
}

/// Wanted propositions and the largest target of each variable.
struct Wants {
    propositions: Vec<bool>,
    targets: Vec<Option<i128>>,
}

impl Wants {
    fn none(table: &Table) -> Wants {
        Wants {
            propositions: vec![false; table.propositions],
            targets: vec![None; table.variables],
        }
    }

    fn want_conditions(&mut self, block: &Block, layer: &Layer, start: &Layer) {
        block.required().for_each(|p| self.propositions[p] = true);
        for condition in block.conditions() {
            self.want_sum(&condition.terms, condition.constant, layer, start);
        }
    }

    /// Wants the sum of the terms to be at least `constant` in a layer.
    fn want_sum(&mut self, terms: &[Term], constant: i128, layer: &Layer, start: &Layer) {
        let mut lowest_unbounded = None;
        let mut rest = 0;
        for term in terms {
            match layer.values[term.variable] {
                Value::Finite(value) => {
                    self.want_value(term.variable, value);
                    rest += term.weight * value;
                }
                Value::Unbounded if lowest_unbounded.is_none() => lowest_unbounded = Some(term),
                Value::Unbounded => rest += term.weight * state_value(start, term.variable),
            }
        }
        if let Some(term) = lowest_unbounded {
            self.want_value(term.variable, ceiling(constant - rest, term.weight));
        }
    }

    fn want_value(&mut self, variable: usize, target: i128) {
        let largest = &mut self.targets[variable];
        *largest = (*largest).max(Some(target));
    }
}

/// The way from one layer to the layer below it.
struct Descent<'t> {
    table: &'t Table,
    start: &'t Layer,
    below: &'t Layer,
    usable: Vec<(usize, &'t Block)>,
    wants: Wants,
    taken: Taken,
}

impl<'t> Descent<'t> {
    fn new(table: &'t Table, start: &'t Layer, below: &'t Layer) -> Descent<'t> {
        let moves = table.moves.iter().enumerate();
        Descent {
            table,
            start,
            below,
            usable: moves.filter(|(_, block)| below.meets(block)).collect(),
            wants: Wants::none(table),
            taken: Taken::new(),
        }
    }

    /// Carries down what the layer below has and takes a move for all else.
    fn pass(&mut self, wants: &Wants) {
        for p in (0..self.table.propositions).filter(|p| wants.propositions[*p]) {
            self.pass_proposition(p);
        }
        for (variable, target) in wants.targets.iter().enumerate() {
            if let Some(target) = target {
                self.pass_target(variable, *target);
            }
        }
    }

    fn pass_proposition(&mut self, p: usize) {
        if self.below.propositions[p] {
            self.wants.propositions[p] = true;
            return;
        }
        let found = self.usable.iter().find(|(_, m)| m.added().any(|q| q == p));
        let (mv, block) = *found.expect("a usable move adds the proposition");
        self.take(mv, block, 1);
    }

    fn pass_target(&mut self, variable: usize, target: i128) {
        if self.below.values[variable] >= Value::Finite(target) {
            self.wants.want_value(variable, target);
            return;
        }
        let (mv, block, effect) = self.reaching(variable, target);
        let (least, count) = match effect.change {
            Change::Assign => (target, 1),
            _ => (1, self.increase_count(effect, target)),
        };
        self.take(mv, block, count);
        let constant = least - effect.constant;
        self.wants
            .want_sum(&effect.terms, constant, self.below, self.start);
    }

    /// The first usable move whose effect on the variable reaches the target.
    fn reaching(&self, variable: usize, target: i128) -> (usize, &'t Block, &'t Effect) {
        self.usable
            .iter()
            .flat_map(|(mv, block)| block.effects().map(move |effect| (*mv, *block, effect)))
            .filter(|(_, _, effect)| effect.variable == variable)
            .find(|(_, _, effect)| reaches(effect, target, self.below))
            .expect("a usable move reaches the target")
    }

    fn increase_count(&self, effect: &Effect, target: i128) -> u64 {
        let each = match self.below.effect_value(effect) {
            Value::Finite(value) => value,
            Value::Unbounded => 1,
        };
        let missing = target - state_value(self.start, effect.variable);
        u64::try_from(ceiling(missing, each)).expect("a count has eight bytes")
    }

    fn take(&mut self, mv: usize, block: &Block, count: u64) {
        let larger = self.taken.entry(mv).or_insert(count);
        *larger = count.max(*larger);
        self.wants.want_conditions(block, self.below, self.start);
    }
}

fn state_value(start: &Layer, variable: usize) -> i128 {
    match start.values[variable] {
        Value::Finite(value) => value,
        Value::Unbounded => unreachable!("layer 0 is the state"),
    }
}

/// The quotient rounded up to a whole number; the divisor is above 0.
fn ceiling(number: i128, divisor: i128) -> i128 {
    -(-number).div_euclid(divisor)
}

#[cfg(test)]
mod tests {
    use super::*;

    #[test]
    fn rounding_goes_up() {
        assert_eq!(ceiling(-7, 2), -3);
        assert_eq!(ceiling(7, 2), 4);
        assert_eq!(ceiling(-8, 2), -4);
        assert_eq!(ceiling(8, 2), 4);
        assert_eq!(ceiling(0, 5), 0);
        assert_eq!(ceiling(-1, 1_000), 0);
        assert_eq!(ceiling(1, 1_000), 1);
    }
}
