//! The sizes of layer memory and of a plan that make a difference.

use super::rng::Rng;
use super::task::Task;
use crate::answer::Plan;
use crate::reference::{parse_table, plan};
use crate::room;

/// Up to this many layers, lengths around the end of each are tried.
const ALL_LAYERS: usize = 40;

/// What the memory and the plan of a task need.
#[derive(Clone, Copy, Debug, PartialEq, Eq)]
pub struct Sizes {
    /// Numbers before layer 0.
    pub entries: usize,
    /// Numbers of a layer.
    pub layer: usize,
    /// Plan's answer, if it is no refusal.
    pub plan: Option<Plan>,
    /// Layers stored with room for all.
    stored: usize,
    /// Bytes of the plan.
    records: usize,
}

impl Sizes {
    /// As if a task had one layer and no plan.
    const REFUSED: Sizes = Sizes {
        entries: 3,
        layer: 2,
        plan: None,
        stored: 1,
        records: 0,
    };

    /// By the reference; for a refused task as said above.
    pub fn of(task: &Task) -> Sizes {
        let Ok(table) = parse_table(&task.table) else {
            return Sizes::REFUSED;
        };
        let [p, n, a] = table.counts();
        let mut memory = vec![0; room::layer_numbers([p, n, a])];
        let mut out = vec![0; room::record_bytes([p, n, a])];
        let answer = plan(&task.table, &task.state, &mut memory, &mut out);
        let (last, records) = match answer {
            Ok(plan) => (plan.layers, plan.records),
            Err(refusal) => (refusal.place, 0),
        };
        Sizes {
            entries: p + a,
            layer: n,
            plan: answer.ok(),
            stored: last as usize + 1,
            records: 10 * records as usize,
        }
    }

    /// Numbers of memory for all layers.
    pub fn memory(&self) -> usize {
        self.end(self.stored)
    }

    /// Numbers of memory for the first layers.
    fn end(&self, layers: usize) -> usize {
        self.entries + self.layer * layers
    }

    /// Lengths one short of each layer's end, at it and past it, up to one layer too many.
    pub fn memories(&self, rng: &mut Rng) -> Vec<usize> {
        let last = self.stored + 1;
        let layers = match last <= ALL_LAYERS {
            true => (0..=last).collect(),
            false => some_layers(rng, last),
        };
        let ends = layers.into_iter().map(|layers| self.end(layers));
        let around = ends.flat_map(|end| [end.saturating_sub(1), end, end + 1]);
        let mut lengths: Vec<usize> = around.collect();
        lengths.sort_unstable();
        lengths.dedup();
        lengths
    }

    /// Such lengths with any output, and outputs around the records with enough memory.
    pub fn plans(&self, rng: &mut Rng) -> Vec<(usize, usize)> {
        let outputs = self.outputs(rng);
        let memories = self.memories(rng).into_iter();
        let mut pairs: Vec<(usize, usize)> = memories
            .map(|numbers| (numbers, *rng.pick(&outputs)))
            .collect();
        let enough = outputs
            .into_iter()
            .map(|room| (self.memory() + rng.below(2), room));
        pairs.extend(enough);
        pairs
    }

    /// Lengths of an output around those of the records.
    fn outputs(&self, rng: &mut Rng) -> Vec<usize> {
        let records = self.records;
        let mut lengths = vec![records, records + 1, records + 1 + rng.below(30)];
        if records > 0 {
            lengths.extend([0, records - 1, records - 10, rng.below(records)]);
        }
        lengths
    }
}

/// The first layers, the last ones and some between.
fn some_layers(rng: &mut Rng, last: usize) -> Vec<usize> {
    let between = (0..6).map(|_| rng.below(last));
    (0..2).chain(last - 2..=last).chain(between).collect()
}
