//! The proved engine's checker of lists, over its C function.

mod cases;
mod long;
mod meaning;

use campaign::call::{Call, CallKind};
use campaign::engine::{Calls, Engine};
use campaign::fenced::Fenced;
use campaign::generate::{
    check_calls, damaged_check_calls, deletions, insertions, m1, refused_check_calls,
    single_byte_changes, sound_check_calls, truncations, Rng,
};
use campaign::harness::check_lines;
use campaign::proved;
use campaign::tally::Tally;

const CALLS: Calls = Calls {
    check: proved::check,
    ..Calls::NONE
};

const ENGINE: &dyn Engine = &CALLS;

#[test]
fn recorded_answers() {
    check_lines(ENGINE, CallKind::Check);
}

/// What `check` refuses, but for tables that are too long, and 0 for what it accepts.
const REFUSALS: [usize; 11] = [0, 2, 3, 4, 5, 6, 7, 8, 9, 13, 16];

type Make = fn(&mut Rng, usize) -> Vec<Call>;

/// How many calls are of one table.
const EACH: usize = 10;

/// Compares so many calls with the reference.
fn compared(engine: &dyn Engine, seed: u64, calls: usize, make: Make) -> Tally<'_> {
    let mut rng = Rng::new(seed);
    let mut tally = Tally::new(engine, seed + 1);
    for _ in 0..calls / EACH {
        for call in make(&mut rng, EACH) {
            tally.check(&call);
        }
    }
    tally
}

/// The least shares of 80,000 schedules of accepted tables and states, about 70 % of what is found.
const SOUND: [(&str, usize); 51] = [
    ("yes", 20_000),
    ("yes to no moves", 8_600),
    ("yes of no bytes", 1_200),
    ("yes to more than 255 moves", 110),
    ("yes to 1,000 moves", 22),
    ("yes, and another state than before", 10_000),
    ("yes, and the goal on the way", 9_200),
    ("just enough", 10_000),
    ("bytes behind", 9_100),
    ("one byte short", 3_400),
    ("no room", 440),
    ("missing", 14_000),
    ("missing by one", 4_700),
    ("missing by two", 2_400),
    ("missing behind move 63", 6_700),
    ("missing 255", 2_400),
    ("missing from a table without moves", 1_500),
    ("not allowed", 5_400),
    ("not allowed, and out of range", 1_300),
    ("out of range", 3_600),
    ("out of range by one", 410),
    ("out of range above", 1_900),
    ("out of range below", 1_600),
    ("out of range behind the first effect", 960),
    ("out of range before the last effect", 940),
    ("comes back into range", 890),
    ("comes back and meets the goal", 760),
    ("index 0", 10_000),
    ("index in the middle", 5_000),
    ("index of the last entry", 7_800),
    ("index above 255", 39),
    ("an index and a short output", 5_200),
    ("an index behind a met goal", 18_000),
    ("another fault behind", 4_200),
    ("solved without that entry", 15_000),
    ("goal not met", 6_400),
    ("goal not met by no moves", 2_500),
    ("goal met at the start only", 950),
    ("goal met on the way only", 840),
    ("goal met but for one part", 5_000),
    ("goal not met, and a short output", 1_500),
    ("an empty goal", 5_900),
    ("no propositions", 7_200),
    ("no variables", 3_600),
    ("no moves in the table", 3_600),
    ("120 propositions", 570),
    ("16 variables", 570),
    ("64 moves in the table", 520),
    ("ends at 1,000,000", 4_200),
    ("ends at -1,000,000", 4_300),
    ("a move again at once", 9_000),
];

#[test]
fn sound_schedules() {
    let tally = compared(ENGINE, 931, 80_000, sound_check_calls);
    tally.expect(80_000, &[0, 13]);
    assert_eq!(tally.counts()[0] + tally.counts()[13], 80_000);
    tally.schedules().expect(&SOUND);
}

#[test]
fn refused_tables_and_states() {
    let tally = compared(ENGINE, 933, 30_000, refused_check_calls);
    tally.expect(30_000, &REFUSALS);
    tally.expect_idle_moves(3_000);
    tally.schedules().expect(&[
        ("a refused table and a list", 7_700),
        ("a refused table and no list", 5_200),
        ("a refused table and a missing move", 1_100),
        ("a refused state and no list", 1_400),
        ("a refused state and a missing move", 400),
        ("a refusal and a short output", 3_700),
    ]);
}

#[test]
fn damaged_schedules() {
    let tally = compared(ENGINE, 935, 30_000, damaged_check_calls);
    tally.expect(30_000, &REFUSALS);
    tally.schedules().expect(&[
        ("a refused table and a list", 7_500),
        ("a refused state and a missing move", 340),
        ("missing", 3_500),
        ("not allowed", 880),
        ("out of range", 520),
        ("goal not met", 770),
        ("yes", 1_900),
        ("yes, and another state than before", 370),
        ("another fault behind", 2_700),
        ("solved without that entry", 1_500),
        ("one byte short", 290),
    ]);
}

#[test]
fn schedules_of_all_sorts_behind_fences() {
    let engine = Fenced(CALLS);
    let tally = compared(&engine, 937, 20_000, check_calls);
    tally.expect(20_000, &REFUSALS);
    tally.schedules().expect(&[
        ("yes", 3_500),
        ("yes of no bytes", 240),
        ("yes to more than 255 moves", 23),
        ("120 propositions", 110),
        ("16 variables", 120),
        ("no moves in the table", 680),
        ("just enough", 1_800),
        ("bytes behind", 1_600),
        ("one byte short", 600),
        ("no room", 86),
        ("missing 255", 420),
        ("out of range", 600),
        ("index above 255", 7),
        ("a refused table and no list", 1_100),
        ("a refused state and no list", 300),
        ("a refusal and a short output", 880),
    ]);
}

/// Every byte of M1's table, state and list changed, put in and taken out, and their ends cut off.
#[test]
fn single_changes_of_a_schedule() {
    let whole = m1().check(&[0, 0, 2, 0, 1, 1, 1, 1], 9);
    let changes = |bytes: &[u8]| -> Vec<Vec<u8>> {
        let changed = single_byte_changes(bytes).chain(truncations(bytes));
        let changed = changed.chain(insertions(bytes)).chain(deletions(bytes));
        changed.collect()
    };
    let with = |set: fn(&mut Call, Vec<u8>)| {
        let whole = whole.clone();
        move |bytes: Vec<u8>| {
            let mut call = whole.clone();
            set(&mut call, bytes);
            call
        }
    };
    let tables = changes(&whole.table).into_iter();
    let tables = tables.map(with(|call, table| call.table = table));
    let states = changes(&whole.state).into_iter();
    let states = states.map(with(|call, state| call.state = state));
    let lists = changes(&whole.list).into_iter();
    let lists = lists.map(with(|call, list| call.list = list));
    let mut rng = Rng::new(939);
    let mut tally = Tally::new(ENGINE, 940);
    for mut call in tables.chain(states).chain(lists) {
        call.room = 8 + rng.below(5);
        tally.check(&call);
    }
    tally.expect(42_000, &[0, 2, 3, 4, 5, 6, 8, 9, 13, 16]);
    tally.schedules().expect(&[
        ("yes", 1_600),
        ("missing", 3_000),
        ("not allowed", 1_100),
        ("out of range", 15),
        ("index 0", 350),
        ("index in the middle", 3_400),
        ("index of the last entry", 360),
        ("goal not met", 380),
        ("goal met but for one part", 380),
        ("solved without that entry", 1_600),
        ("a refused table and a list", 20_000),
        ("one byte short", 390),
    ]);
}
