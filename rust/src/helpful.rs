//! Plan's helpful moves by the rule of document 02, and by rules with one fault each.

use crate::answer::{bits, Plan};
use crate::reference::parse_table;
use crate::reference::table::{Block, Change, Effect, Item, Table};
use crate::walk::{walked, Walk, Wants};

/// What makes a move helpful.
struct Rule {
    /// What is wanted, if there is anything.
    wants: fn(&Walk) -> Option<Wants>,
    /// Whether a move may be in the set at all.
    usable: fn(&Walk, usize) -> bool,
    /// Whether a wanted proposition needs a move.
    lacks: fn(&Walk, usize) -> bool,
    /// Whether a target needs a move.
    misses: fn(&Walk, usize, i128) -> bool,
    /// Whether an effect reaches a target.
    reaches: fn(&Walk, &Effect, i128) -> bool,
}

/// Each move usable in layer 0 that adds a proposition wanted at layer 1 and not in layer 0, or whose
/// effect reaches in layer 0 a target of layer 1 that layer 0 does not.
const RULE: Rule = Rule {
    wants: |walk| walk.wanted.get(1).cloned(),
    usable: |walk, b| walk.memory.moves[b] == 0,
    lacks: |walk, p| !walk.memory.has(p, 0),
    misses: |walk, variable, target| walk.value(variable, 0) < target,
    reaches: |walk, effect, target| walk.reaches(effect, target, 0),
};

impl Rule {
    fn set(&self, walk: &Walk) -> u64 {
        self.set_of(walk, &walk.table.moves)
    }

    /// The same with other moves in the place of the table's.
    fn set_of(&self, walk: &Walk, moves: &[Block]) -> u64 {
        let Some(wants) = (self.wants)(walk) else {
            return 0;
        };
        let moves = moves.iter().enumerate();
        let helpful =
            moves.filter(|(b, block)| (self.usable)(walk, *b) && self.helps(walk, &wants, block));
        bits(helpful.map(|(b, _)| b as u64))
    }

    fn helps(&self, walk: &Walk, wants: &Wants, block: &Block) -> bool {
        let adds = |p| wants.propositions.contains(&p) && (self.lacks)(walk, p);
        let reaches = |effect: &Effect| match wants.targets.get(&effect.variable) {
            Some(target) => {
                (self.misses)(walk, effect.variable, *target)
                    && (self.reaches)(walk, effect, *target)
            }
            None => false,
        };
        block.added().any(adds) || block.effects().any(reaches)
    }
}

/// The helpful moves of a plan.
pub fn helpful_moves(walk: &Walk) -> u64 {
    RULE.set(walk)
}

/// The moves that the plan takes at layer 0.
pub fn taken_moves(walk: &Walk) -> u64 {
    let taken = walk.taken.first().into_iter().flatten();
    bits(taken.map(|(mv, _)| *mv))
}

/// A plan of an accepted normal table with another set.
///
/// # Panics
/// If the table is refused, or as `walked`.
pub fn plan_with(set: fn(&Walk) -> u64, plan: Plan, table: &[u8], layers: &[i64]) -> Plan {
    let table = parse_table(table).expect("an accepted table");
    let first = walked(&table, layers, plan.answer, set).unwrap_or(0);
    Plan { first, ..plan }
}

/// Another set than that of the helpful moves.
pub struct Fault {
    pub trick: &'static str,
    pub set: fn(&Walk) -> u64,
}

pub const FAULTS: [Fault; 23] = [
    fault("the moves that the plan takes", taken_moves),
    fault("the set has 32 bits", |walk| {
        RULE.set(walk) & u64::from(u32::MAX)
    }),
    fault("a move need not be usable", |walk| {
        let usable = |_: &Walk, _| true;
        Rule { usable, ..RULE }.set(walk)
    }),
    fault("a move may be usable in a later layer", |walk| {
        let usable = |walk: &Walk, b: usize| walk.memory.moves[b] >= 0;
        Rule { usable, ..RULE }.set(walk)
    }),
    fault("a proposition that layer 0 has counts", |walk| {
        let lacks = |_: &Walk, _| true;
        Rule { lacks, ..RULE }.set(walk)
    }),
    fault("a target that layer 0 reaches counts", |walk| {
        let misses = |_: &Walk, _, _| true;
        Rule { misses, ..RULE }.set(walk)
    }),
    fault("a target that layer 0 just reaches counts", |walk| {
        let misses = |walk: &Walk, variable, target| walk.value(variable, 0) <= target;
        Rule { misses, ..RULE }.set(walk)
    }),
    // The same as asking whether layer 1 misses a target: it reaches all that are wanted there.
    fault("propositions only", |walk| {
        let misses = |_: &Walk, _, _| false;
        Rule { misses, ..RULE }.set(walk)
    }),
    fault("targets only", |walk| {
        let lacks = |_: &Walk, _| false;
        Rule { lacks, ..RULE }.set(walk)
    }),
    fault("effects have their values of layer 1", |walk| {
        let reaches =
            |walk: &Walk, effect: &Effect, target| walk.reaches(effect, target, walk.first());
        Rule { reaches, ..RULE }.set(walk)
    }),
    fault("effects have values of 32 bits", |walk| {
        let reaches = |walk: &Walk, effect: &Effect, target| {
            let value = i128::from(walk.given(effect) as i32);
            match is_increase(effect) {
                true => value > 0,
                false => value >= target,
            }
        };
        Rule { reaches, ..RULE }.set(walk)
    }),
    fault("+= 0 reaches a target", |walk| {
        let reaches = |walk: &Walk, effect: &Effect, target| {
            walk.reaches(effect, target, 0) || is_increase(effect) && walk.given(effect) == 0
        };
        Rule { reaches, ..RULE }.set(walk)
    }),
    fault("every += reaches a target", |walk| {
        let reaches = |walk: &Walk, effect: &Effect, target| {
            walk.reaches(effect, target, 0) || is_increase(effect)
        };
        Rule { reaches, ..RULE }.set(walk)
    }),
    fault("+= has to give as much as the target", |walk| {
        let reaches = |walk: &Walk, effect: &Effect, target| walk.given(effect) >= target;
        Rule { reaches, ..RULE }.set(walk)
    }),
    fault(":= has to be above 0 only", |walk| {
        let reaches = |walk: &Walk, effect: &Effect, _| walk.given(effect) > 0;
        Rule { reaches, ..RULE }.set(walk)
    }),
    fault(":= has to exceed its target", |walk| {
        let reaches = |walk: &Walk, effect: &Effect, target| {
            walk.reaches(effect, target, 0) && (is_increase(effect) || walk.given(effect) > target)
        };
        Rule { reaches, ..RULE }.set(walk)
    }),
    fault("the wants are the goal's", |walk| {
        let wants = |walk: &Walk| walk.wanted.last().cloned();
        Rule { wants, ..RULE }.set(walk)
    }),
    fault(
        "what is handed down to layer 1 is not wanted there",
        |walk| {
            let wants = |walk: &Walk| walk.own.get(1).cloned();
            Rule { wants, ..RULE }.set(walk)
        },
    ),
    fault("a target is the value of layer 1", |walk| {
        Rule {
            wants: raised_wants,
            ..RULE
        }
        .set(walk)
    }),
    fault("whatever a move brings counts", |walk| {
        Rule {
            wants: all_wants,
            ..RULE
        }
        .set(walk)
    }),
    fault("only the first effect of a move counts", |walk| {
        RULE.set_of(
            walk,
            &with_first(walk.table, |item| matches!(item, Item::Effect(_))),
        )
    }),
    fault("only the first addition of a move counts", |walk| {
        RULE.set_of(
            walk,
            &with_first(walk.table, |item| matches!(item, Item::Add(_))),
        )
    }),
    fault("a set at answer layer 0", |walk| {
        let rule = Rule {
            wants: |walk| walk.wanted.get(walk.first()).cloned(),
            usable: |walk, b| walk.memory.meets(&walk.table.moves[b], 0),
            lacks: |walk, p| walk.first() == 0 || !walk.memory.has(p, 0),
            misses: |walk, v, target| walk.first() == 0 || walk.value(v, 0) < target,
            ..RULE
        };
        rule.set(walk)
    }),
];

const fn fault(trick: &'static str, set: fn(&Walk) -> u64) -> Fault {
    Fault { trick, set }
}

impl Walk<'_> {
    /// Layer 1, or the answer layer if that is 0.
    fn first(&self) -> usize {
        self.taken.len().min(1)
    }

    /// The value of an effect in layer 0.
    fn given(&self, effect: &Effect) -> i128 {
        self.effect_value(effect, 0)
    }
}

fn is_increase(effect: &Effect) -> bool {
    effect.change == Change::Increase
}

/// The wants of layer 1 with its finite values as targets.
fn raised_wants(walk: &Walk) -> Option<Wants> {
    let mut wants = walk.wanted.get(1).cloned()?;
    for (variable, target) in &mut wants.targets {
        let value = walk.memory.layers[1][*variable];
        if value != i64::MAX {
            *target = value.into();
        }
    }
    Some(wants)
}

/// All propositions, and more of each variable than layer 0 has.
fn all_wants(walk: &Walk) -> Option<Wants> {
    let more = |variable| (variable, walk.value(variable, 0) + 1);
    Some(Wants {
        propositions: (0..walk.table.propositions).collect(),
        targets: (0..walk.table.variables).map(more).collect(),
    })
}

/// The moves of a table, each with only the first of such items.
fn with_first(table: &Table, is_such: fn(&Item) -> bool) -> Vec<Block> {
    let mut moves = table.moves.clone();
    for block in &mut moves {
        let first = block.items.iter().position(is_such);
        let mut at = 0..;
        block
            .items
            .retain(|item| at.next() == first || !is_such(item));
    }
    moves
}
