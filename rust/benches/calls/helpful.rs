//! Tables with many moves for each want, for plan's helpful moves.

use crate::bench::Bench;
use campaign::generate::Task;
use campaign::reference::table::{
    Block, Change, Comparison, Condition, Effect, Item, Kind, Table, Term, MOVE_LIMIT, TERM_LIMIT,
};
use campaign::reference::State;

/// The variables with a target.
const TARGETS: usize = 16;

/// 64 moves set each of 16 variables to a value that a long sum gives, by the number of the move; the
/// goal wants more of each than the state has.
fn task(value: fn(usize) -> i128) -> Task {
    let moves = (0..MOVE_LIMIT).map(|b| Block {
        items: (0..TARGETS).map(|i| becomes(2 * i, value(b))).collect(),
    });
    let goal = (0..TARGETS).map(|i| {
        Item::Condition(Condition {
            terms: vec![term(2 * i)],
            comparison: Comparison::AtLeast,
            constant: 50,
        })
    });
    let table = Table {
        kind: Kind::Normal,
        propositions: 0,
        variables: 2 * TARGETS,
        moves: moves.collect(),
        goal: Block {
            items: goal.collect(),
        },
    };
    let state = State {
        propositions: Vec::new(),
        values: vec![1; TARGETS],
    };
    Task {
        table: table.encode(),
        state: state.encode(),
    }
}

/// The variable becomes this value where the negated ones are -1.
fn becomes(variable: usize, value: i128) -> Item {
    Item::Effect(Effect {
        terms: (0..TERM_LIMIT).map(|i| term(2 * i + 1)).collect(),
        change: Change::Assign,
        variable,
        constant: value + TERM_LIMIT as i128,
    })
}

fn term(variable: usize) -> Term {
    Term {
        variable,
        weight: 1,
    }
}

/// With 64 moves that help with every target, and with one behind 63 that miss them all by 1.
pub fn campaigns() -> Vec<Bench> {
    let nearly = |b| 99 + i128::from(b + 1 == MOVE_LIMIT);
    vec![
        Bench::new("64 helpful moves", task(|_| 100)),
        Bench::new("1 helpful, 63 nearly", task(nearly)),
    ]
}
