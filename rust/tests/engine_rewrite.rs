//! The proved engine's rewriter of stored tables, over its C function.

mod cases;
mod others;

use crate::common::rooms::rooms;
use campaign::call::CallKind;
use campaign::engine::{Calls, Engine};
use campaign::fenced::Fenced;
use campaign::generate::{
    command_string, damage, deletions, full_length, insertions, long_stored, random_bytes,
    rewrite_call, rewritten_length, single_byte_changes, stored, task, task_of, truncations, Rng,
    Task,
};
use campaign::harness::check_lines;
use campaign::hex::bytes;
use campaign::proved;
use campaign::reference::table::Kind;
use campaign::tally::Tally;

const CALLS: Calls = Calls {
    rewrite: proved::rewrite,
    ..Calls::NONE
};

const ENGINE: &dyn Engine = &CALLS;

#[test]
fn recorded_answers() {
    check_lines(ENGINE, CallKind::Rewrite);
}

/// With outputs of lengths at, below and above that of the result, and of none.
fn check_rooms(tally: &mut Tally, rng: &mut Rng, task: &Task) {
    for room in rooms(rng, rewritten_length(&task.table)) {
        tally.check(&task.rewrite(room));
    }
}

/// Stored tables of both kinds and of all sizes.
fn stored_tasks(seed: u64, count: usize) -> impl Iterator<Item = Task> {
    let mut rng = Rng::new(seed);
    (0..count).map(move |i| {
        let kind = [Kind::Written, Kind::Normal][i % 2];
        let whole = match i % 3 {
            0 => task(&mut rng, kind),
            _ => {
                let counts = [rng.below(5), 2 * rng.below(3), rng.below(6)];
                task_of(&mut rng, kind, counts)
            }
        };
        stored(&mut rng, &whole)
    })
}

#[test]
fn stored_tables() {
    let mut rng = Rng::new(731);
    let mut tally = Tally::new(ENGINE, 732);
    for task in stored_tasks(733, 13_500) {
        check_rooms(&mut tally, &mut rng, &task);
    }
    tally.expect(100_000, &[0, 13]);
    tally.rewriting().expect(&[
        ("no move does nothing", 8_000),
        ("all moves do nothing", 12_000),
        ("the first does nothing", 25_000),
        ("the last does nothing", 25_000),
        ("several in a row", 25_000),
        ("one between others", 10_000),
        ("64 moves", 8_000),
        ("nothing at all", 50_000),
        ("propositions alone", 20_000),
        ("sums alone", 25_000),
        ("both", 15_000),
        ("written", 30_000),
        ("normal", 30_000),
        ("no room", 10_000),
        ("one byte short", 10_000),
        ("just enough", 10_000),
        ("bytes behind", 25_000),
        ("enough, and shorter than the table", 25_000),
    ]);
}

/// Some are cut, and in some another check than 16 fails.
#[test]
fn damaged_tables() {
    let mut rng = Rng::new(734);
    let engine = Fenced(CALLS);
    let mut tally = Tally::new(&engine, 735);
    for _ in 0..12_000 {
        let mut call = rewrite_call(&mut rng);
        tally.check(&call);
        damage(&mut rng, &mut call);
        tally.check(&call);
        let table = command_string(&mut rng);
        let room = rng.below(table.len() + 3);
        let state = Vec::new();
        tally.check(&Task { table, state }.rewrite(room));
    }
    for _ in 0..1_000 {
        let table = random_bytes(&mut rng, 60);
        let state = Vec::new();
        tally.check(&Task { table, state }.rewrite(70));
    }
    tally.expect(35_000, &[0, 2, 3, 4, 5, 6, 7, 13]);
    tally.rewriting().expect(&[
        ("a refused table", 20_000),
        ("the first does nothing", 1_000),
        ("the last does nothing", 1_000),
        ("one byte short", 1_000),
    ]);
}

/// M1 with a move of each kind that does nothing: every byte changed, put in and taken out.
#[test]
fn single_changes_of_a_stored_table() {
    let table = bytes(
        "54 01 02 06; 41; 41 46 01 00 00000005; 41 50 00; \
         41 57 00 0001 43 00 00000003 46 01 01 00000002 46 02 00 00000003; \
         41 57 00 0001 43 00 0000000A 2B 00; 41 57 01 0001 43 04 00002B41 50 00; \
         47 50 00 57 01 0001 43 00 00000007; 45",
    );
    let mut rng = Rng::new(736);
    let mut tally = Tally::new(ENGINE, 737);
    let damaged = single_byte_changes(&table).chain(truncations(&table));
    let damaged = damaged.chain(insertions(&table)).chain(deletions(&table));
    for table in damaged {
        let room = table.len().saturating_sub(rng.below(30));
        let state = Vec::new();
        tally.check(&Task { table, state }.rewrite(room));
    }
    tally.expect(40_000, &[0, 2, 3, 4, 5, 6, 13]);
}

#[test]
fn lengths_at_the_limits() {
    let mut rng = Rng::new(738);
    let mut tally = Tally::new(ENGINE, 739);
    for length in [31_999, 32_000, 32_001, 63_999, 64_000, 64_001, 70_000] {
        for kind in [Kind::Written, Kind::Normal] {
            for _ in 0..3 {
                let task = long_stored(&mut rng, kind, length);
                check_rooms(&mut tally, &mut rng, &task);
            }
            let whole = full_length(&mut rng, kind, length);
            check_rooms(&mut tally, &mut rng, &whole);
            let mut other = whole;
            other.table[0] = rng.byte();
            check_rooms(&mut tally, &mut rng, &other);
        }
    }
    tally.expect(500, &[0, 1, 3, 13]);
    tally.rewriting().expect(&[
        ("written", 30),
        ("normal", 60),
        ("64 moves", 50),
        ("no move does nothing", 30),
        ("enough, and shorter than the table", 50),
    ]);
}
