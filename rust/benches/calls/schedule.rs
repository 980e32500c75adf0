//! Schedules: M1's, and long lists on a small table and on large ones.

use crate::engines::PROVED;
use crate::timing::{compare, micros, Times};
use campaign::answer::Checked;
use campaign::engine::{Engine, REFERENCE};
use campaign::generate::{dense, long_schedule, m1, Rng, Task};
use campaign::reference::table::{
    Block, Change, Comparison, Condition, Effect, Item, Kind, Table, Term,
};
use campaign::reference::State;

/// A task and a list that solves it.
type Schedule = (Task, Vec<u8>);

fn m1_schedule() -> Schedule {
    (m1(), vec![0, 0, 2, 0, 1, 1, 1, 1])
}

/// A table of so many bytes with 120 propositions, 16 variables and 64 moves, all made in turn.
fn dense_schedule(rng: &mut Rng, length: usize, entries: usize) -> Schedule {
    let task = dense(rng, Kind::Written, length);
    (task, (0..64).cycle().take(entries).collect())
}

/// 120 propositions, 16 variables and 64 moves, each with four needs, two sums of two terms, three
/// propositions to add and three to delete, and three effects; all made in turn.
fn wide_schedule(entries: usize) -> Schedule {
    let table = Table {
        kind: Kind::Written,
        propositions: 120,
        variables: 16,
        moves: (0..64).map(wide_move).collect(),
        goal: Block::default(),
    };
    let state = State {
        propositions: (0..120).map(|p| p < 60).collect(),
        values: vec![0; 16],
    };
    let task = Task {
        table: table.encode(),
        state: state.encode(),
    };
    (task, (0..64).cycle().take(entries).collect())
}

/// It needs some of the first 60 propositions, which stay true, and changes some of the others; sets
/// one variable to a small number, and two to a sum of that one.
fn wide_move(i: usize) -> Block {
    let some = |count: usize, step: usize| (0..count).map(move |k| (i + step * k) % 60);
    let mut items: Vec<Item> = some(4, 13).map(Item::Require).collect();
    items.extend((1..3).map(|k| {
        let [low, high] = [0, 1 + (i + k) % 15];
        Item::Condition(Condition {
            terms: [(low, 1), (high, -2)].map(term).to_vec(),
            comparison: Comparison::Below,
            constant: 1_000,
        })
    }));
    items.extend(some(3, 20).map(|p| Item::Add(60 + p)));
    items.extend(some(3, 20).map(|p| Item::Delete(60 + (p + 7) % 60)));
    items.push(assign(0, &[], i as i128));
    items.extend((0..2).map(|k| assign(1 + (i + 7 * k) % 15, &[(0, 3)], k as i128)));
    Block { items }
}

fn term((variable, weight): (usize, i128)) -> Term {
    Term { variable, weight }
}

fn assign(variable: usize, terms: &[(usize, i128)], constant: i128) -> Item {
    Item::Effect(Effect {
        terms: terms.iter().copied().map(term).collect(),
        change: Change::Assign,
        variable,
        constant,
    })
}

/// The time on tables from small to the largest.
pub fn table() {
    println!(
        "\ncheck: table bytes  propositions  variables  entries     engine µs  reference µs  ratio  engine ns an entry"
    );
    let mut rng = Rng::new(15);
    row(&m1_schedule());
    row(&long_schedule(&mut rng, 1_000_000));
    row(&wide_schedule(200_000));
    row(&dense_schedule(&mut rng, 8_000, 20_000));
    row(&dense_schedule(&mut rng, 32_000, 10_000));
}

fn row(schedule: &Schedule) {
    let times = checked(schedule);
    let (Task { table, .. }, list) = schedule;
    println!(
        "{:18} {:13} {:10} {:8} {:>13} {:>13} {:>6.2} {:19.2}",
        table.len(),
        table[1],
        table[2],
        list.len(),
        micros(times.engine),
        micros(times.reference),
        times.engine / times.reference,
        times.engine * 1e9 / list.len() as f64
    );
}

/// The time an entry on lists of several lengths.
pub fn growth_table() {
    println!("\ncheck: entries   engine ns an entry  reference ns an entry");
    let mut rng = Rng::new(16);
    for entries in [1_000, 10_000, 100_000, 1_000_000] {
        let times = checked(&long_schedule(&mut rng, entries));
        let [engine, reference] =
            [times.engine, times.reference].map(|seconds| seconds * 1e9 / entries as f64);
        println!("{entries:14} {engine:20.2} {reference:22.2}");
    }
}

/// With an output of just the length of the state.
///
/// # Panics
/// If the list does not solve the table.
fn checked((task, list): &Schedule) -> Times {
    let Task { table, state } = task;
    let [mut out, mut others] = [state.clone(), state.clone()];
    let yes = Ok(Checked::Yes {
        length: state.len(),
    });
    assert_eq!(PROVED.check(table, state, list, &mut out), yes);
    assert_eq!(REFERENCE.check(table, state, list, &mut others), yes);
    compare(
        || PROVED.check(table, state, list, &mut out).is_ok(),
        || REFERENCE.check(table, state, list, &mut others).is_ok(),
    )
}
