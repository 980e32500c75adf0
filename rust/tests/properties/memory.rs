//! The layers that a plan leaves in memory, checked against the text of the specification.

use campaign::answer::Answer;
use campaign::generate::Task;
use campaign::harness::Planned;
use campaign::memory::Memory;
use campaign::reference::parse_task;
use campaign::reference::table::{Block, Change, Effect, Table};

/// Whether an effect of a usable move makes this value of its variable.
fn makes(memory: &Memory, effect: &Effect, value: i64, layer: usize) -> bool {
    let given = memory.sum(&effect.terms, effect.constant, layer);
    match effect.change {
        Change::Assign => given == i128::from(value) || given == i128::MAX && value == i64::MAX,
        _ => given > 0 && value == i64::MAX,
    }
}

/// Whether an effect leaves this value of its variable possible in the next layer.
fn allows(memory: &Memory, effect: &Effect, value: i64, layer: usize) -> bool {
    let given = memory.sum(&effect.terms, effect.constant, layer);
    value == i64::MAX
        || match effect.change {
            Change::Assign => given <= i128::from(value),
            _ => given <= 0,
        }
}

/// Checks the step from a layer to the next, or to itself after the last.
fn check_step(memory: &Memory, table: &Table, layer: usize, next: usize) {
    let usable: Vec<&Block> = table
        .moves
        .iter()
        .filter(|block| memory.meets(block, layer))
        .collect();
    for p in 0..table.propositions {
        let added = usable.iter().any(|block| block.added().any(|q| q == p));
        assert_eq!(memory.has(p, next), memory.has(p, layer) || added);
    }
    for v in 0..table.variables {
        let (old, new) = (memory.layers[layer][v], memory.layers[next][v]);
        let effects: Vec<&Effect> = usable
            .iter()
            .flat_map(|block| block.effects())
            .filter(|effect| effect.variable == v)
            .collect();
        let made = effects.iter().any(|e| makes(memory, e, new, layer));
        assert!(effects.iter().all(|e| allows(memory, e, new, layer)));
        assert!(new == old || new > old && made);
    }
}

/// Checks all of the layer memory against the text, layer by layer.
pub fn check_memory(task: &Task, planned: &Planned) {
    let (table, state) = parse_task(&task.table, &task.state).unwrap();
    let last = planned.plan.layers as usize;
    let memory = Memory::new(table.counts(), &planned.memory, planned.plan.layers);
    let start: Vec<i128> = memory.layers[0].iter().map(|v| i128::from(*v)).collect();
    assert_eq!(start, state.signed_values());
    for (p, truth) in state.propositions.iter().enumerate() {
        assert_eq!(memory.has(p, 0), *truth);
    }
    let no_plan = planned.plan.answer == Answer::NoPlan;
    let steps = if no_plan { last + 1 } else { last };
    for layer in 0..steps {
        let next = last.min(layer + 1);
        assert!(!memory.meets(&table.goal, layer), "{task}");
        check_step(&memory, &table, layer, next);
        assert!(layer == last || differ(&memory, &table, layer), "{task}");
    }
    assert_eq!(memory.meets(&table.goal, last), !no_plan, "{task}");
    for (b, block) in table.moves.iter().enumerate() {
        let first = (0..steps).find(|layer| memory.meets(block, *layer));
        assert_eq!(memory.moves[b], first.map_or(-1, |t| t as i64), "{task}");
    }
}

/// Whether a layer and the next one differ.
fn differ(memory: &Memory, table: &Table, layer: usize) -> bool {
    memory.layers[layer] != memory.layers[layer + 1]
        || (0..table.propositions).any(|p| memory.has(p, layer) != memory.has(p, layer + 1))
}
