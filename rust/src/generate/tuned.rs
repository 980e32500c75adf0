//! Tasks at the edges: many records, large values, full length; and M1.

use super::rng::Rng;
use super::task::Task;
use crate::hex::bytes;
use crate::reference::table::{
    Block, Change, Comparison, Condition, Effect, Item, Kind, Table, Term, MOVE_LIMIT,
    NUMBER_LIMIT, PROPOSITION_LIMIT, WEIGHT_LIMIT,
};
use crate::reference::State;

/// The trial campaign M1.
pub fn m1() -> Task {
    let table = bytes(
        "54 01 02 03; 41 46 01 00 00000005; 41 57 00 0001 43 00 00000003 46 01 01 00000002 \
         46 02 00 00000003; 41 57 00 0001 43 00 0000000A 2B 00; \
         47 50 00 57 01 0001 43 00 00000007; 45",
    );
    Task {
        table,
        state: vec![0; 9],
    }
}

/// A normal table whose plan has `adders` + 2 × `twice` records.
///
/// Each adder adds a proposition of the goal. Each of the other moves sets a variable and
/// hands its value on to the next variable, which the goal wants: it is taken in two layers.
pub fn many_records(adders: usize, twice: usize) -> Task {
    let mut moves = Vec::new();
    let mut goal = Vec::new();
    for p in 0..adders {
        moves.push(Block {
            items: vec![Item::Add(p)],
        });
        goal.push(Item::Require(p));
    }
    for v in (0..2 * twice).step_by(2) {
        moves.push(Block {
            items: vec![assign(v, &[], 1), assign(v + 1, &[(v, 1)], 0)],
        });
        goal.push(at_least(v + 1, 1));
    }
    let table = Table {
        kind: Kind::Normal,
        propositions: adders,
        variables: 2 * twice,
        moves,
        goal: Block { items: goal },
    };
    let state = State {
        propositions: vec![false; adders],
        values: vec![0; table.state_values()],
    };
    Task {
        table: table.encode(),
        state: state.encode(),
    }
}

/// A chain of two `:=` whose last value is 10^12 or next to it.
///
/// v2 is the state's value, v1 := 1000 v2 + c1 and v0 := 1000 v1 + c0. The goal is out of
/// reach, so the layer with that value is made.
pub fn at_value_limit(rng: &mut Rng) -> Task {
    let below = rng.between(0, 1);
    let miss = *rng.pick(&[-1, 0, 0, 1, 2, 999]);
    let c1 = rng.between(1, 998);
    let c0 = below * NUMBER_LIMIT + miss - 1_000 * c1;
    let mut moves = vec![
        Block {
            items: vec![assign(1, &[(2, 1_000)], c1)],
        },
        Block {
            items: vec![assign(0, &[(1, 1_000)], c0)],
        },
    ];
    rng.shuffle(&mut moves);
    let table = Table {
        kind: Kind::Written,
        propositions: 0,
        variables: 3,
        moves,
        goal: Block {
            items: vec![Item::Condition(Condition {
                terms: Vec::new(),
                comparison: Comparison::AtLeast,
                constant: 1,
            })],
        },
    };
    task_at(table, &[0, 0, NUMBER_LIMIT - below])
}

/// A normal table whose `:=` hand up values near 10^12 and past it, with sums of them beside
/// unbounded variables in conditions, so that targets are far above or below all values.
pub fn large_values(rng: &mut Rng) -> Task {
    let variables = 12 + 2 * rng.below(11);
    let third = variables / 3;
    let mut moves = Vec::new();
    for v in third..variables {
        let below = if v < 2 * third { 0 } else { third };
        let terms = random_sum(rng, below, third);
        let c = rng.between(-NUMBER_LIMIT, NUMBER_LIMIT);
        let mut items = vec![assign(v, &terms, c)];
        if rng.chance(1, 8) {
            items = vec![increase(v, &[], rng.between(1, 3))];
        }
        if rng.chance(1, 2) {
            items.push(sum_at_least(random_sum(rng, 0, v), -NUMBER_LIMIT));
        }
        moves.push(Block { items });
    }
    rng.shuffle(&mut moves);
    let goal = (0..3).map(|_| {
        let c = *rng.pick(&[-NUMBER_LIMIT, 0, NUMBER_LIMIT + 1]);
        sum_at_least(random_sum(rng, third, variables - third), c)
    });
    let table = Table {
        kind: Kind::Normal,
        propositions: 0,
        variables,
        goal: Block {
            items: goal.collect(),
        },
        moves,
    };
    let sizes = [NUMBER_LIMIT, -NUMBER_LIMIT, 500_000, 1_000];
    let values: Vec<i128> = (0..variables / 2).map(|_| *rng.pick(&sizes)).collect();
    task_at(table, &values)
}

/// One to three terms over `count` variables from `first` on, most with weight 1000.
fn random_sum(rng: &mut Rng, first: usize, count: usize) -> Vec<(usize, i128)> {
    let terms = 1 + rng.below(3);
    let chosen = rng.subset(terms, count).into_iter();
    chosen
        .map(|v| (first + v, *rng.pick(&[1, 700, 1_000, 1_000])))
        .collect()
}

/// A chain whose targets grow with every link, to hundreds of thousands of millions.
///
/// Each `:=` waits until the next variable is unbounded. It reads that one with weight 1 and
/// others, unbounded too, with weight 1000 and a state value of -10^6.
pub fn steep(rng: &mut Rng) -> Task {
    let variables = 8 + 2 * rng.below(13);
    let values: Vec<i128> = (0..variables / 2)
        .map(|_| *rng.pick(&[NUMBER_LIMIT, -NUMBER_LIMIT]))
        .collect();
    let state = |v: usize| [values[v / 2], -values[v / 2]][v % 2];
    let last = variables - 1;
    let mut moves = vec![Block {
        items: vec![increase(last, &[], rng.between(1, 3))],
    }];
    for v in 0..last {
        let low = (v + 2..variables).filter(|u| state(*u) < 0).take(7);
        let mut terms = vec![(v + 1, 1)];
        terms.extend(low.map(|u| (u, 1_000)));
        let effect = match rng.below(12) {
            0 => increase(v, &terms, -NUMBER_LIMIT),
            _ => assign(v, &terms, -NUMBER_LIMIT),
        };
        moves.push(Block {
            items: vec![at_least(v + 1, NUMBER_LIMIT + 1), effect],
        });
    }
    rng.shuffle(&mut moves);
    let table = Table {
        kind: Kind::Normal,
        propositions: 0,
        variables,
        moves,
        goal: Block {
            items: vec![at_least(0, NUMBER_LIMIT + 1)],
        },
    };
    task_at(table, &values)
}

/// Variables of a dense table that stay 0; the chain is made of the others.
const LEVEL: usize = 8;

/// A table of exactly `length` bytes with 64 moves and all variables, full of long sums.
///
/// A chain raises one variable a layer up to the goal. All else is true and changes
/// nothing. The shortest such table has about 700 bytes.
pub fn dense(rng: &mut Rng, kind: Kind, length: usize) -> Task {
    dense_of(rng, kind, length, |rng| random_weight(rng, kind))
}

/// The same, with these weights in its long sums.
pub(super) fn dense_of(
    rng: &mut Rng,
    kind: Kind,
    length: usize,
    weight: impl Fn(&mut Rng) -> i128,
) -> Task {
    let variables = kind.variable_limit();
    let mut moves = vec![Block::default(); MOVE_LIMIT];
    moves[0].items.push(assign(LEVEL, &[], 1));
    for (block, v) in moves.iter_mut().zip(LEVEL + 1..variables) {
        block.items.push(assign(v, &[(v - 1, 1)], 1));
    }
    for block in moves.iter_mut().filter(|block| block.is_idle()) {
        block.items.push(Item::Add(0));
    }
    let mut table = Table {
        kind,
        propositions: PROPOSITION_LIMIT,
        variables,
        moves,
        goal: Block {
            items: vec![at_least(variables - 1, (variables - LEVEL) as i128)],
        },
    };
    fill_up(rng, &mut table, length, weight);
    task_at(table, &[])
}

/// Adds conditions and effects that change nothing until the table has its length.
fn fill_up(rng: &mut Rng, table: &mut Table, length: usize, weight: impl Fn(&mut Rng) -> i128) {
    let kind = table.kind;
    let mut left = length - table.encode().len();
    for i in 0.. {
        if left < 60 {
            break;
        }
        let block = &mut table.moves[i % MOVE_LIMIT];
        let round = i / MOVE_LIMIT;
        let terms = (0..LEVEL).map(|v| (v, weight(rng)));
        let terms: Vec<(usize, i128)> = terms.collect();
        let effect = (1..LEVEL).contains(&round);
        block.items.push(match effect {
            true => increase(round, &terms, 0),
            false => true_condition(*rng.pick(comparisons(kind)), &terms),
        });
        left -= 4 * LEVEL + if effect { 7 } else { 6 };
    }
    if left % 2 == 1 {
        table.moves[0].items.push(increase(0, &[], 0));
        left -= 7;
    }
    let items = (0..left / 2).map(Item::Require);
    table.goal.items.extend(items);
}

fn random_weight(rng: &mut Rng, kind: Kind) -> i128 {
    let size = rng.between(1, WEIGHT_LIMIT);
    match kind {
        Kind::Written if rng.chance(1, 2) => -size,
        _ => size,
    }
}

fn comparisons(kind: Kind) -> &'static [Comparison] {
    match kind {
        Kind::Written => &Comparison::ALL,
        Kind::Normal => &[Comparison::AtLeast],
    }
}

/// A table of exactly `length` bytes, nearly all of them true conditions without terms.
pub fn full_length(rng: &mut Rng, kind: Kind, length: usize) -> Task {
    let moves = 2 - length % 2;
    let adds = Block {
        items: vec![Item::Add(0)],
    };
    let left = length - 6 - 3 * moves;
    let mut blocks = vec![adds; moves];
    let conditions = (0..left / 6).map(|_| true_condition(*rng.pick(comparisons(kind)), &[]));
    blocks[0].items.extend(conditions);
    let table = Table {
        kind,
        propositions: 2,
        variables: 0,
        moves: blocks,
        goal: Block {
            items: (0..left % 6 / 2).map(Item::Require).collect(),
        },
    };
    task_at(table, &[])
}

/// A condition that holds where all variables of the terms are 0.
fn true_condition(comparison: Comparison, terms: &[(usize, i128)]) -> Item {
    let constant = match comparison {
        Comparison::AtLeast | Comparison::AtMost | Comparison::Equal => 0,
        Comparison::Above => -1,
        Comparison::Below => 1,
    };
    Item::Condition(Condition {
        terms: terms_of(terms),
        comparison,
        constant,
    })
}

pub(super) fn at_least(variable: usize, constant: i128) -> Item {
    sum_at_least(vec![(variable, 1)], constant)
}

fn sum_at_least(terms: Vec<(usize, i128)>, constant: i128) -> Item {
    Item::Condition(Condition {
        terms: terms_of(&terms),
        comparison: Comparison::AtLeast,
        constant,
    })
}

pub(super) fn assign(variable: usize, terms: &[(usize, i128)], constant: i128) -> Item {
    effect(Change::Assign, variable, terms, constant)
}

pub(super) fn increase(variable: usize, terms: &[(usize, i128)], constant: i128) -> Item {
    effect(Change::Increase, variable, terms, constant)
}

fn effect(change: Change, variable: usize, terms: &[(usize, i128)], constant: i128) -> Item {
    Item::Effect(Effect {
        terms: terms_of(terms),
        change,
        variable,
        constant,
    })
}

pub(super) fn terms_of(terms: &[(usize, i128)]) -> Vec<Term> {
    let term = |&(variable, weight)| Term { variable, weight };
    terms.iter().map(term).collect()
}

/// The task that starts with all propositions true and these values, then 0.
pub(super) fn task_at(table: Table, values: &[i128]) -> Task {
    let mut state = State {
        propositions: vec![true; table.propositions],
        values: vec![0; table.state_values()],
    };
    state.values[..values.len()].copy_from_slice(values);
    Task {
        table: table.encode(),
        state: state.encode(),
    }
}
