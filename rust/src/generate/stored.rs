//! Stored tables: some of their moves do nothing.

use super::rng::Rng;
use super::task::Task;
use crate::reference::table::{
    Block, Comparison, Condition, Item, Kind, Table, Term, MOVE_LIMIT, NUMBER_LIMIT,
    PROPOSITION_LIMIT, TERM_LIMIT, WEIGHT_LIMIT,
};
use crate::reference::{parse_table, rewritten};

/// The task with moves that do nothing among those of its table: none, some, or as many as there is
/// room for; all before the others, all behind them, or anywhere. Now and then there are no others.
/// A task with a refused table, or with one that would be too long, comes back as it is.
pub fn stored(rng: &mut Rng, task: &Task) -> Task {
    let Ok(mut table) = parse_table(&task.table) else {
        return task.clone();
    };
    if rng.chance(1, 10) {
        table.moves.clear();
    }
    put_idle_moves(rng, &mut table);
    let changed = Task {
        table: table.encode(),
        state: task.state.clone(),
    };
    match changed.table.len() <= table.kind.length_limit() {
        true => changed,
        false => task.clone(),
    }
}

fn put_idle_moves(rng: &mut Rng, table: &mut Table) {
    let free = MOVE_LIMIT - table.moves.len();
    let count = match rng.below(8) {
        0 => 0,
        1 => free,
        2 => rng.below(free + 1),
        _ => free.min(1 + rng.below(4)),
    };
    let side = rng.below(4);
    for _ in 0..count {
        let at = match side {
            0 => 0,
            1 => table.moves.len(),
            _ => rng.below(table.moves.len() + 1),
        };
        let idle = idle_move(rng, table);
        table.moves.insert(at, idle);
    }
}

/// Nothing at all, propositions alone, sums alone, or both.
fn idle_move(rng: &mut Rng, table: &Table) -> Block {
    let most = rng.below(4);
    let [needs, sums] = *rng.pick(&[[0, 0], [most, 0], [0, most], [most, most]]);
    let names = rng.subset(needs, table.propositions).into_iter();
    let mut items: Vec<Item> = names.map(Item::Require).collect();
    for _ in 0..sums {
        let terms = rng.below(3);
        items.push(Item::Condition(condition(rng, table, terms)));
    }
    rng.shuffle(&mut items);
    Block { items }
}

/// A condition with so many terms, often true. Some constants have bytes that look like commands.
fn condition(rng: &mut Rng, table: &Table, terms: usize) -> Condition {
    let written = table.kind == Kind::Written;
    let weight = |rng: &mut Rng| match written {
        true => *rng.pick(&[1, -1, 0, 2, WEIGHT_LIMIT, -WEIGHT_LIMIT]),
        false => *rng.pick(&[1, 1, 2, WEIGHT_LIMIT]),
    };
    let variables = rng.subset(terms, table.variables).into_iter();
    let term = |variable| Term {
        variable,
        weight: weight(rng),
    };
    let terms = variables.map(term).collect();
    let comparison = match written {
        true => *rng.pick(&Comparison::ALL),
        false => Comparison::AtLeast,
    };
    let constants = [
        0,
        0,
        1,
        -1,
        -NUMBER_LIMIT,
        NUMBER_LIMIT,
        0x4147,
        0x2B00,
        0x4_4600,
    ];
    Condition {
        terms,
        comparison,
        constant: *rng.pick(&constants),
    }
}

/// A stored table of exactly `length` bytes, at least 300, with 63 or 64 moves, most of it conditions.
/// Of its moves few, about half or nearly all do nothing.
pub fn long_stored(rng: &mut Rng, kind: Kind, length: usize) -> Task {
    let share = *rng.pick(&[2, 32, 62]);
    let moves = (0..MOVE_LIMIT - length % 2).map(|_| match rng.chance(share, MOVE_LIMIT) {
        true => Vec::new(),
        false => vec![Item::Add(0)],
    });
    let mut table = Table {
        kind,
        propositions: PROPOSITION_LIMIT,
        variables: kind.variable_limit(),
        moves: moves.map(|items| Block { items }).collect(),
        goal: Block::default(),
    };
    let mut left = length - table.encode().len();
    while left >= 6 {
        let terms = rng.below(TERM_LIMIT + 1).min((left - 6) / 4);
        let item = Item::Condition(condition(rng, &table, terms));
        let chosen = rng.below(table.moves.len());
        table.moves[chosen].items.push(item);
        left -= 6 + 4 * terms;
    }
    table.goal.items = (0..left / 2).map(Item::Require).collect();
    Task {
        state: vec![0; table.state_length()],
        table: table.encode(),
    }
}

/// The length of what the rewriter writes, or that of the table itself if it is refused.
pub fn rewritten_length(table: &[u8]) -> usize {
    rewritten(table).map_or(table.len(), |result| result.len())
}

#[cfg(test)]
mod tests {
    use super::*;
    use crate::generate::task;
    use crate::reference::parse_stored_table;

    #[test]
    fn stored_tables_have_moves_that_do_nothing_everywhere() {
        let mut rng = Rng::new(29);
        let (mut all, mut none, mut full, mut first, mut last) = (0, 0, 0, 0, 0);
        for i in 0..2_000 {
            let kind = [Kind::Written, Kind::Normal][i % 2];
            let whole = task(&mut rng, kind);
            let table = parse_stored_table(&stored(&mut rng, &whole).table);
            let moves = table.expect("all checks but 16 pass").moves;
            let idle: Vec<bool> = moves.iter().map(Block::is_idle).collect();
            all += usize::from(!idle.is_empty() && !idle.contains(&false));
            none += usize::from(!idle.contains(&true));
            full += usize::from(idle.len() == MOVE_LIMIT && idle.contains(&true));
            first += usize::from(idle.first() == Some(&true) && idle.contains(&false));
            last += usize::from(idle.last() == Some(&true) && idle.contains(&false));
        }
        for count in [all, none, full, first, last] {
            assert!(count > 100, "{all} {none} {full} {first} {last}");
        }
    }

    #[test]
    fn long_tables_have_their_length() {
        let mut rng = Rng::new(30);
        for (kind, limit) in [(Kind::Written, 32_000), (Kind::Normal, 64_000)] {
            for length in [300, 301, limit - 1, limit, limit + 1] {
                let task = long_stored(&mut rng, kind, length);
                assert_eq!(task.table.len(), length);
                assert_eq!(parse_stored_table(&task.table).is_ok(), length <= limit);
            }
        }
    }
}
