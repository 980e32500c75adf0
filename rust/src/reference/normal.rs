//! The linear normal form.

use super::table::{
    contributing, Block, Change, Comparison, Condition, Effect, Item, Kind, Table, Term,
};

/// The normal form of a written table.
pub fn normal_form(written: &Table) -> Table {
    Table {
        kind: Kind::Normal,
        propositions: written.propositions,
        variables: 2 * written.variables,
        moves: written.moves.iter().map(normal_block).collect(),
        goal: normal_block(&written.goal),
    }
}

fn normal_block(block: &Block) -> Block {
    Block {
        items: block.items.iter().flat_map(normal_item).collect(),
    }
}

fn normal_item(item: &Item) -> Vec<Item> {
    match item {
        Item::Require(_) | Item::Add(_) | Item::Delete(_) => vec![item.clone()],
        Item::Condition(condition) => normal_conditions(condition)
            .into_iter()
            .map(Item::Condition)
            .collect(),
        Item::Effect(effect) => normal_effects(effect).map(Item::Effect).into(),
    }
}

/// The normal conditions that together say what a written one says.
pub fn normal_conditions(condition: &Condition) -> Vec<Condition> {
    let c = condition.constant;
    let sum = |constant| at_least(signed(&condition.terms), constant);
    let negative = |constant| at_least(signed(&negated(&condition.terms)), constant);
    match condition.comparison {
        Comparison::AtLeast => vec![sum(c)],
        Comparison::Above => vec![sum(c + 1)],
        Comparison::AtMost => vec![negative(-c)],
        Comparison::Below => vec![negative(1 - c)],
        Comparison::Equal => vec![sum(c), negative(-c)],
    }
}

fn at_least(terms: Vec<Term>, constant: i128) -> Condition {
    Condition {
        terms,
        comparison: Comparison::AtLeast,
        constant,
    }
}

/// The effect on v_i as one on 2i, then its mirror on 2i+1.
fn normal_effects(effect: &Effect) -> [Effect; 2] {
    let change = match effect.change {
        Change::Assign => Change::Assign,
        Change::Increase | Change::Decrease => Change::Increase,
    };
    let on = |variable, terms: &[Term], constant| Effect {
        terms: signed(terms),
        change,
        variable,
        constant,
    };
    let terms = &effect.terms;
    let opposite = negated(terms);
    let c = effect.constant;
    let [even, odd] = [2 * effect.variable, 2 * effect.variable + 1];
    match effect.change {
        Change::Assign | Change::Increase => [on(even, terms, c), on(odd, &opposite, -c)],
        Change::Decrease => [on(even, &opposite, -c), on(odd, terms, c)],
    }
}

fn negated(terms: &[Term]) -> Vec<Term> {
    terms
        .iter()
        .map(|t| Term {
            variable: t.variable,
            weight: -t.weight,
        })
        .collect()
}

/// A weight above 0 stands on 2i; one below 0 stands, turned, on 2i+1; one of 0 is dropped.
fn signed(terms: &[Term]) -> Vec<Term> {
    contributing(terms)
        .map(|t| Term {
            variable: 2 * t.variable + usize::from(t.weight < 0),
            weight: t.weight.abs(),
        })
        .collect()
}
