//! The proved engine's closure hours, over its C function.

mod long;

use crate::common::closure::check_small_days;
use campaign::call::{Call, CallKind};
use campaign::engine::{Calls, Engine};
use campaign::fenced::Fenced;
use campaign::generate::{
    damaged_place_call, deletions, faulty_place_call, insertions, place_call, single_byte_changes,
    sound_place_call, truncations, Day, Rng,
};
use campaign::harness::check_lines;
use campaign::proved;
use campaign::tally::Tally;

const CALLS: Calls = Calls {
    place: proved::place,
    ..Calls::NONE
};

const ENGINE: &dyn Engine = &CALLS;

#[test]
fn recorded_answers() {
    check_lines(ENGINE, CallKind::Place);
}

#[test]
fn small_days_with_all_their_placements() {
    check_small_days(proved::place);
}

/// Compares so many calls with the reference.
fn compared(engine: &dyn Engine, seed: u64, calls: usize, make: fn(&mut Rng) -> Call) -> Tally<'_> {
    let mut rng = Rng::new(seed);
    let mut tally = Tally::new(engine, seed + 1);
    for _ in 0..calls {
        tally.check(&make(&mut rng));
    }
    tally
}

/// The least shares of 150,000 sound days, about 70 % of what is found.
const SOUND: [(&str, usize); 32] = [
    ("no entries", 15_000),
    ("no entries and no windows", 2_200),
    ("64 windows", 1_400),
    ("30 entries or more", 830),
    ("1 minute", 26_000),
    ("1,440 minutes", 6_700),
    ("just enough", 22_000),
    ("bytes behind", 25_000),
    ("no room", 690),
    ("one byte short", 7_900),
    ("starts at an opening", 43_000),
    ("starts at an end", 26_000),
    ("starts at both", 12_000),
    ("a gap between entries", 20_000),
    ("ends at a shutting minute", 30_000),
    ("ends at the last one", 16_000),
    ("ends at 1,000,000", 2_600),
    ("fills a window", 19_000),
    ("misses a window by a minute", 11_000),
    ("passes over a window", 12_000),
    ("passes over several windows", 8_100),
    ("would reach across touching windows", 12_000),
    ("would fit a window passed over before", 11_000),
    ("19 at entry 0", 5_200),
    ("19 at a later entry", 27_000),
    ("19 at the last entry", 13_000),
    ("19 before others", 18_000),
    ("19 without windows", 2_100),
    ("19 with a short output", 7_900),
    ("19 by a minute", 3_100),
    ("19 across touching windows", 9_200),
    ("19 where a window passed over would do", 9_400),
];

#[test]
fn sound_days() {
    let tally = compared(ENGINE, 911, 150_000, sound_place_call);
    tally.expect(150_000, &[0, 13, 19]);
    assert_eq!(tally.counts()[18], 0);
    tally.closure().expect(&SOUND);
}

/// The least shares of 80,000 days with a window or a duration at fault.
const FAULTS: [(&str, usize); 23] = [
    ("a 65th window", 4_800),
    ("a window of no minutes", 3_100),
    ("a window that shuts before it opens", 5_600),
    ("an overlap of a minute", 2_100),
    ("a longer overlap", 3_800),
    ("minute 1,000,001", 3_200),
    ("a later minute", 7_700),
    ("opens at a negative minute", 1_700),
    ("a cut window", 5_200),
    ("a window behind sound ones", 25_000),
    ("a window before another at fault", 6_800),
    ("a window, and no entries", 3_200),
    ("a window, and a duration", 16_000),
    ("a window, and a duration at an earlier place", 8_300),
    ("a duration of 0", 3_100),
    ("a duration of 1,441", 3_100),
    ("a longer duration", 4_600),
    ("a negative duration", 4_800),
    ("a cut duration", 2_100),
    ("a duration behind sound ones", 8_900),
    ("a duration before another at fault", 4_100),
    ("a duration behind entries without a placement", 1_000),
    ("18 with a short output", 11_000),
];

#[test]
fn windows_and_durations_at_fault() {
    let tally = compared(ENGINE, 913, 80_000, faulty_place_call);
    tally.expect(80_000, &[0, 13, 18, 19]);
    tally.closure().expect(&FAULTS);
}

#[test]
fn damaged_days() {
    let tally = compared(ENGINE, 915, 80_000, damaged_place_call);
    tally.expect(80_000, &[0, 13, 18, 19]);
    tally.closure().expect(&[
        ("a window of no minutes", 680),
        ("an overlap of a minute", 2_100),
        ("a cut window", 1_300),
        ("a cut duration", 1_200),
        ("a window before another at fault", 11_000),
        ("a duration before another at fault", 7_300),
        ("19 by a minute", 1_600),
        ("misses a window by a minute", 1_100),
        ("would reach across touching windows", 1_600),
    ]);
}

#[test]
fn days_of_all_sorts_behind_fences() {
    let engine = Fenced(CALLS);
    let tally = compared(&engine, 917, 40_000, place_call);
    tally.expect(40_000, &[0, 13, 18, 19]);
    tally.closure().expect(&[
        ("no room", 160),
        ("one byte short", 1_300),
        ("just enough", 4_000),
        ("no entries and no windows", 430),
        ("64 windows", 260),
        ("a 65th window", 650),
        ("a cut window", 730),
        ("a cut duration", 330),
    ]);
}

/// Every byte of a day changed, put in and taken out, and its ends cut off.
#[test]
fn single_changes_of_a_day() {
    let day = Day {
        windows: vec![(0, 10), (10, 14), (270, 281), (999_990, 1_000_000)],
        durations: vec![4, 6, 5, 7],
    };
    let whole = day.place(day.length());
    let changes = |bytes: &[u8]| -> Vec<Vec<u8>> {
        let changed = single_byte_changes(bytes).chain(truncations(bytes));
        let changed = changed.chain(insertions(bytes)).chain(deletions(bytes));
        changed.collect()
    };
    let windows = changes(&whole.windows).into_iter().map(|windows| Call {
        windows,
        ..whole.clone()
    });
    let durations = changes(&whole.durations).into_iter().map(|durations| Call {
        durations,
        ..whole.clone()
    });
    let mut rng = Rng::new(919);
    let mut tally = Tally::new(ENGINE, 920);
    for mut call in windows.chain(durations) {
        call.room = whole.room - 1 + rng.below(6);
        tally.check(&call);
    }
    tally.expect(25_000, &[0, 13, 18, 19]);
    tally.closure().expect(&[
        ("a window behind sound ones", 8_800),
        ("a cut window", 220),
        ("a duration behind sound ones", 4_100),
        ("a cut duration", 370),
        ("opens at a negative minute", 440),
        ("misses a window by a minute", 400),
        ("19 by a minute", 10),
        ("one byte short", 110),
    ]);
}
