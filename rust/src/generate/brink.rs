//! Tables whose values stand at ±1,000,000 or near it, with moves that lead beyond and back.

use super::rng::Rng;
use super::task::Task;
use crate::reference::table::{
    Block, Change, Comparison, Condition, Effect, Item, Kind, Table, Term, NUMBER_LIMIT,
};
use crate::reference::State;

/// A small task on the brink of the range: moves that change one or more variables, each mostly with
/// one that undoes it, some with conditions that fail where a result would be out of range.
pub fn brink(rng: &mut Rng) -> Task {
    let (propositions, variables) = (rng.below(4), 1 + rng.below(4));
    let state = State {
        propositions: (0..propositions).map(|_| rng.chance(1, 2)).collect(),
        values: (0..variables).map(|_| value(rng)).collect(),
    };
    let mut moves = Vec::new();
    for _ in 0..=rng.below(3) {
        let there = changing(rng, &state);
        if rng.chance(3, 4) {
            moves.push(undoing(&there));
        }
        moves.push(there);
    }
    for block in &mut moves {
        dress(rng, &state, block);
    }
    rng.shuffle(&mut moves);
    let table = Table {
        kind: Kind::Written,
        propositions,
        variables,
        moves,
        goal: Block::default(),
    };
    Task {
        table: table.encode(),
        state: state.encode(),
    }
}

/// A value at either end of the range, near it, or small.
fn value(rng: &mut Rng) -> i128 {
    let end = *rng.pick(&[-NUMBER_LIMIT, NUMBER_LIMIT]);
    match rng.below(6) {
        0 | 1 => end,
        2 => end - end.signum() * rng.between(1, 3),
        3 => rng.between(-NUMBER_LIMIT, NUMBER_LIMIT),
        _ => rng.between(-5, 5),
    }
}

/// A step of a variable: to either end of its range, one beyond, or any.
fn step(rng: &mut Rng, value: i128) -> i128 {
    let end = *rng.pick(&[-NUMBER_LIMIT, NUMBER_LIMIT]);
    let step = match rng.below(6) {
        0 => end - value,
        1 => end - value + end.signum(),
        2 => *rng.pick(&[-1, 1]),
        3 => end,
        _ => rng.between(-4, 4),
    };
    step.clamp(-NUMBER_LIMIT, NUMBER_LIMIT)
}

/// A move that raises or lowers some variables, in any order.
fn changing(rng: &mut Rng, state: &State) -> Block {
    let count = state.values.len();
    let some = 1 + rng.below(count);
    let mut chosen = rng.subset(some, count);
    rng.shuffle(&mut chosen);
    let effects = chosen.into_iter().map(|variable| {
        Item::Effect(Effect {
            terms: terms(rng, count),
            change: *rng.pick(&[Change::Increase, Change::Decrease]),
            variable,
            constant: step(rng, state.values[variable]),
        })
    });
    Block {
        items: effects.collect(),
    }
}

/// Mostly none; otherwise one or two, small or as large as they may be.
fn terms(rng: &mut Rng, variables: usize) -> Vec<Term> {
    if rng.chance(2, 3) {
        return Vec::new();
    }
    let some = 1 + rng.below(2);
    let chosen = rng.subset(some, variables).into_iter();
    let term = |variable| Term {
        variable,
        weight: *rng.pick(&[1, -1, 1, -1, 2, 1_000, -1_000]),
    };
    chosen.map(term).collect()
}

/// The move that takes what the other gives, from the state before it; where its effects read no
/// variable it leads back.
fn undoing(block: &Block) -> Block {
    let mut back = block.clone();
    for item in &mut back.items {
        if let Item::Effect(effect) = item {
            effect.change = match effect.change {
                Change::Increase => Change::Decrease,
                _ => Change::Increase,
            };
        }
    }
    back
}

/// Gives a move conditions and propositions now and then.
fn dress(rng: &mut Rng, state: &State, block: &mut Block) {
    let (propositions, variables) = (state.propositions.len(), state.values.len());
    if propositions > 0 && rng.chance(1, 2) {
        let p = rng.below(propositions);
        block.items.push(match rng.below(4) {
            0 => Item::Require(p),
            1 => Item::Delete(p),
            _ => Item::Add(p),
        });
    }
    if rng.chance(1, 3) {
        let variable = rng.below(variables);
        let beside = rng.between(-1, 1);
        let constant = state.values[variable] + beside;
        block.items.push(Item::Condition(Condition {
            terms: vec![Term {
                variable,
                weight: 1,
            }],
            comparison: *rng.pick(&Comparison::ALL),
            constant: constant.clamp(-NUMBER_LIMIT, NUMBER_LIMIT),
        }));
    }
    if rng.chance(1, 8) {
        block.items.push(wide(rng, variables));
    }
    rng.shuffle(&mut block.items);
}

/// A sum as large as can be, against any constant.
fn wide(rng: &mut Rng, variables: usize) -> Item {
    let weight = |_| *rng.pick(&[1_000, -1_000, 999]);
    let weights: Vec<i128> = (0..variables).map(weight).collect();
    let terms = weights.into_iter().enumerate();
    Item::Condition(Condition {
        terms: terms
            .map(|(variable, weight)| Term { variable, weight })
            .collect(),
        comparison: *rng.pick(&[Comparison::AtLeast, Comparison::AtMost]),
        constant: rng.between(-NUMBER_LIMIT, NUMBER_LIMIT),
    })
}
