//! The layers of the relaxed task and the memory that holds them.

use super::state::State;
use super::table::{Block, Change, Effect, Table, Term};
use crate::answer::{Answer, Decision, Reason, Refusal};

/// The largest finite value of a layer.
const VALUE_LIMIT: i128 = 1_000_000_000_000;

/// A value of a layer. Unbounded is above every number.
#[derive(Clone, Copy, Debug, PartialEq, Eq, PartialOrd, Ord)]
pub enum Value {
    Finite(i128),
    Unbounded,
}

impl Value {
    fn as_number(self) -> i64 {
        match self {
            Value::Finite(value) => i64::try_from(value).expect("a stored value is in range"),
            Value::Unbounded => i64::MAX,
        }
    }
}

/// The propositions and the value of each signed variable.
#[derive(Clone, Debug, PartialEq, Eq)]
pub struct Layer {
    pub propositions: Vec<bool>,
    pub values: Vec<Value>,
}

impl Layer {
    fn start(state: &State) -> Layer {
        let values = state.signed_values().into_iter().map(Value::Finite);
        Layer {
            propositions: state.propositions.clone(),
            values: values.collect(),
        }
    }

    /// The terms and the constant summed; unbounded with an unbounded term.
    fn sum(&self, terms: &[Term], constant: i128) -> Value {
        let mut total = constant;
        for term in terms {
            match self.values[term.variable] {
                Value::Finite(value) => total += term.weight * value,
                Value::Unbounded => return Value::Unbounded,
            }
        }
        Value::Finite(total)
    }

    /// The value of an effect in this layer.
    pub fn effect_value(&self, effect: &Effect) -> Value {
        self.sum(&effect.terms, effect.constant)
    }

    /// Whether all conditions of a block hold in this layer.
    pub fn meets(&self, block: &Block) -> bool {
        block.required().all(|p| self.propositions[p])
            && block
                .conditions()
                .all(|c| self.sum(&c.terms, 0) >= Value::Finite(c.constant))
    }

    fn usable_moves(&self, table: &Table) -> Vec<usize> {
        (0..table.moves.len())
            .filter(|b| self.meets(&table.moves[*b]))
            .collect()
    }

    /// The layer made from this one by the usable moves.
    fn next(&self, table: &Table, usable: &[usize]) -> Layer {
        let mut next = self.clone();
        for block in usable.iter().map(|b| &table.moves[*b]) {
            block.added().for_each(|p| next.propositions[p] = true);
            for effect in block.effects() {
                let raised = self.raised(effect);
                let value = &mut next.values[effect.variable];
                *value = raised.max(*value);
            }
        }
        next
    }

    /// What an effect makes of its variable, taken alone.
    fn raised(&self, effect: &Effect) -> Value {
        let old = self.values[effect.variable];
        let value = self.effect_value(effect);
        match effect.change {
            Change::Assign => value.max(old),
            Change::Increase if value > Value::Finite(0) => Value::Unbounded,
            Change::Increase => old,
            Change::Decrease => unreachable!("a normal table has no decrease"),
        }
    }

    fn is_too_large(&self) -> bool {
        self.values
            .iter()
            .any(|v| matches!(v, Value::Finite(value) if *value > VALUE_LIMIT))
    }
}

/// How the building of layers ended.
#[derive(Clone, Copy, Debug, PartialEq, Eq)]
pub enum End {
    /// The last stored layer meets the goal.
    Goal,
    /// The step from the last stored layer changes nothing.
    Equal,
    /// The next layer could not be stored.
    Refused(Refusal),
}

/// All stored layers.
pub struct Layers {
    pub stored: Vec<Layer>,
    /// For each move the first layer whose step used it.
    first_used: Vec<Option<usize>>,
    pub end: End,
}

impl Layers {
    /// Builds layers as far as `room` numbers of memory allow.
    pub fn build(table: &Table, state: &State, room: usize) -> Result<Layers, Refusal> {
        if room < numbers_needed(table, 1) {
            return Err(Reason::MemoryShort.at(0));
        }
        let mut layers = Layers {
            stored: vec![Layer::start(state)],
            first_used: vec![None; table.moves.len()],
            end: End::Goal,
        };
        layers.end = loop {
            if let Some(end) = layers.grow(table, room) {
                break end;
            }
        };
        Ok(layers)
    }

    /// Stores one more layer, or tells why there is none.
    fn grow(&mut self, table: &Table, room: usize) -> Option<End> {
        let number = self.stored.len();
        let last = &self.stored[number - 1];
        if last.meets(&table.goal) {
            return Some(End::Goal);
        }
        let usable = last.usable_moves(table);
        let next = last.next(table, &usable);
        if next == *last {
            self.mark_used(&usable, number - 1);
            return Some(End::Equal);
        }
        if next.is_too_large() {
            return Some(End::Refused(Reason::ValueRange.at(number)));
        }
        if room < numbers_needed(table, number + 1) {
            return Some(End::Refused(Reason::MemoryShort.at(number)));
        }
        self.mark_used(&usable, number - 1);
        self.stored.push(next);
        None
    }

    fn mark_used(&mut self, usable: &[usize], layer: usize) {
        for b in usable {
            self.first_used[*b].get_or_insert(layer);
        }
    }

    /// Writes the entries and the stored layers; numbers past them are kept.
    pub fn write(&self, memory: &mut [i64]) {
        let numbers = self.numbers();
        memory[..numbers.len()].copy_from_slice(&numbers);
    }

    fn numbers(&self) -> Vec<i64> {
        let propositions = 0..self.stored[0].propositions.len();
        let had = propositions.map(|p| self.stored.iter().position(|l| l.propositions[p]));
        let used = self.first_used.iter().copied();
        let values = self.stored.iter().flat_map(|l| &l.values);
        had.chain(used)
            .map(layer_number)
            .chain(values.map(|v| v.as_number()))
            .collect()
    }

    /// The answer of `decide`.
    pub fn decision(&self) -> Result<Decision, Refusal> {
        let layers = self.stored.len() as u64 - 1;
        let answer = match self.end {
            End::Goal => Answer::Layer(layers),
            End::Equal => Answer::NoPlan,
            End::Refused(refusal) => return Err(refusal),
        };
        Ok(Decision { answer, layers })
    }
}

/// The memory for the entries and this many layers.
fn numbers_needed(table: &Table, layers: usize) -> usize {
    table.propositions + table.moves.len() + table.variables * layers
}

fn layer_number(layer: Option<usize>) -> i64 {
    layer.map_or(-1, |t| i64::try_from(t).expect("layers are few"))
}
