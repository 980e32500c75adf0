//! The proved engine's other calls on stored tables: each gives 16 where the reference does.

use crate::common::refused::{roomy, NORMAL, WRITTEN};
use campaign::call::{Call, CallKind, Field};
use campaign::generate::{damage, spoil, stored, task, Rng, Task};
use campaign::proved::PROVED;
use campaign::reference::parse_stored_table;
use campaign::reference::table::Kind;
use campaign::tally::Tally;

/// A call of a task, with memory and output that mostly suffice.
fn call(rng: &mut Rng, kind: CallKind, task: &Task) -> Call {
    let mut call = roomy(kind, &task.table, 0);
    if kind.has(Field::State) {
        call.state = task.state.clone();
    }
    if kind.has(Field::Index) {
        call.index = rng.below(usize::from(task.table[3]) + 2) as u64;
    }
    if kind.has(Field::Normal) {
        call.normal = 2 * task.table.len();
    }
    if kind.has(Field::Numbers) {
        call.numbers = 300;
    }
    call
}

/// A stored table with one entry spoilt: that one, or a move that does nothing, comes first.
fn spoilt(rng: &mut Rng, task: &Task) -> Task {
    let mut table = parse_stored_table(&task.table).expect("all checks but 16 pass");
    spoil(rng, &mut table);
    Task {
        table: table.encode(),
        state: task.state.clone(),
    }
}

/// Stored tables of a kind, spoilt ones and damaged ones.
fn check(seed: u64, kinds: &[CallKind], of: Kind) {
    for (i, kind) in (0..).zip(kinds) {
        let mut rng = Rng::new(seed + 2 * i);
        let mut tally = Tally::new(&PROVED, seed + 2 * i + 1);
        for _ in 0..1_500 {
            let whole = task(&mut rng, of);
            let task = stored(&mut rng, &whole);
            tally.check(&call(&mut rng, *kind, &whole));
            tally.check(&call(&mut rng, *kind, &task));
            let other = spoilt(&mut rng, &task);
            let mut other = call(&mut rng, *kind, &other);
            tally.check(&other);
            damage(&mut rng, &mut other);
            tally.check(&other);
        }
        tally.expect(6_000, &[0, 3, 4, 5, 16]);
        tally.expect_idle_moves(2_000);
    }
}

#[test]
fn written_tables() {
    check(741, &WRITTEN, Kind::Written);
}

#[test]
fn normal_tables() {
    check(761, &NORMAL, Kind::Normal);
}
