//! Moves that do nothing: 16 in every call that takes a table but the rewriter, and what comes before it
//! and behind.

use super::bytes;
use crate::common::refused::{refused, roomy, NORMAL, WRITTEN};
use campaign::call::CallKind;
use campaign::engine::{Engine, REFERENCE};
use campaign::generate::{long_stored, Rng};
use campaign::proved::PROVED;
use campaign::reference::table::Kind;

const ENGINES: [&dyn Engine; 2] = [&REFERENCE, &PROVED];

/// Both engines, with each of these calls.
fn check_calls(kinds: &[CallKind], table: &[u8], number: u8, place: usize) {
    for kind in kinds {
        let call = roomy(*kind, table, 0);
        for engine in ENGINES {
            let outcome = call.run(engine).map(|outcome| outcome.to_string());
            let expected = refused(&call, number, place);
            assert_eq!(outcome, Ok(expected), "{} {call}", kind.name());
        }
    }
}

/// What follows the first byte of a written and of a normal table: every call that takes a table
/// refuses both.
fn check(rest: &str, number: u8, place: usize) {
    for (head, kinds) in [("54", &WRITTEN[..]), ("4e", &NORMAL)] {
        check_calls(kinds, &bytes(&format!("{head} {rest}")), number, place);
    }
}

/// The rewriter refuses both.
fn check_rewriter(rest: &str, number: u8, place: usize) {
    for head in ["54", "4e"] {
        let table = bytes(&format!("{head} {rest}"));
        check_calls(&[CallKind::Rewrite], &table, number, place);
    }
}

/// The rewriter gives this, and no byte behind it.
fn check_rewritten(rest: &str, expected: &str) {
    for head in ["54", "4e"] {
        let [table, expected] = [rest, expected].map(|rest| bytes(&format!("{head} {rest}")));
        for engine in ENGINES {
            let mut out = [0xA5; 100];
            assert_eq!(
                engine.rewrite(&table, &mut out),
                Ok(expected.len()),
                "{rest}"
            );
            assert_eq!(out[..expected.len()], expected, "{rest}");
            assert!(out[expected.len()..].iter().all(|byte| *byte == 0xA5));
        }
    }
}

/// Both kinds of table are read.
fn check_accepted(rest: &str) {
    for head in ["54", "4e"] {
        let table = bytes(&format!("{head} {rest}"));
        for engine in ENGINES {
            assert!(engine.read(&table).is_ok(), "{head} {rest}");
        }
    }
    check_rewritten(rest, rest);
}

#[test]
fn a_move_beyond_the_count_comes_first() {
    check("00 00 01 41 41", 6, 5);
    check_rewriter("00 00 01 41 41", 6, 5);
}

#[test]
fn a_goal_before_all_moves_comes_first() {
    check("00 00 02 41 47", 6, 5);
    check_rewriter("00 00 02 41 47", 6, 5);
}

#[test]
fn the_next_move_closes_it() {
    check("00 00 02 41 41", 16, 5);
    check_rewriter("00 00 02 41 41", 2, 6);
}

#[test]
fn the_end_does_not_close_it() {
    check("00 00 01 41 45", 3, 5);
    check_rewriter("00 00 01 41 45", 3, 5);
}

#[test]
fn a_move_that_no_command_closes_is_cut() {
    check("00 00 01 41", 2, 5);
    check_rewriter("00 00 01 41", 2, 5);
}

#[test]
fn terms_left_open_come_first() {
    check_calls(&WRITTEN, &bytes("54 00 01 01 41 57 00 0001 47"), 3, 9);
    check("00 02 01 41 57 00 0001 47", 3, 9);
    check("00 02 02 41 57 00 0001 41", 3, 9);
    check_rewriter("00 02 01 41 57 00 0001 47", 3, 9);
}

#[test]
fn the_goal_closes_the_last_one() {
    check("00 00 01 41 47", 16, 5);
    check("00 00 01 41 47 45", 16, 5);
    check("01 00 02 41 2b 00 41 47 45", 16, 8);
    check("01 00 03 41 2d 00 41 2b 00 41 47 45", 16, 11);
    check_rewriter("00 00 01 41 47", 2, 6);
    check_rewritten("00 00 01 41 47 45", "00 00 00 47 45");
    check_rewritten("01 00 02 41 2b 00 41 47 45", "01 00 01 41 2b 00 47 45");
}

/// The place is the command behind, and not the 41 that opens it.
#[test]
fn the_place_is_where_it_closes() {
    check("01 00 02 41 50 00 41 2b 00 47 45", 16, 7);
    check("01 00 02 41 2b 00 41 50 00 47 45", 16, 10);
    check(
        "01 02 02 41 2b 00 41 57 00 0001 43 00 00000000 47 45",
        16,
        18,
    );
    check_rewritten(
        "01 00 02 41 50 00 41 2b 00 47 45",
        "01 00 01 41 2b 00 47 45",
    );
}

#[test]
fn conditions_alone_do_nothing() {
    check("01 00 01 41 50 00 47 45", 16, 7);
    check("00 00 01 41 43 00 00000000 47 45", 16, 11);
    check("00 02 01 41 57 00 0001 43 00 00000000 47 45", 16, 15);
    check("01 00 01 41 50 00 43 00 00000000 47 45", 16, 13);
    check_rewritten("01 00 01 41 50 00 43 00 00000000 47 45", "01 00 00 47 45");
}

/// It is the bytes that count, and not what they do.
#[test]
fn every_add_delete_and_effect_is_something() {
    for does in [
        "2b 00",
        "2d 00",
        "46 01 00 00000000",
        "46 00 00 00000000",
        "57 00 0001 46 01 01 00000000",
        "50 00 2b 00",
        "2b 00 50 00",
        "43 00 00000001 2d 00",
        "46 01 01 00000000 43 00 00000000",
    ] {
        check_accepted(&format!("01 02 01 41 {does} 47 45"));
        check(
            &format!("01 02 02 41 {does} 41 47 45"),
            16,
            6 + bytes(does).len(),
        );
    }
    for does in ["46 02 00 00000000", "57 00 0000 46 01 00 00000000"] {
        let table = bytes(&format!("54 00 01 01 41 {does} 47 45"));
        assert!(ENGINES.iter().all(|engine| engine.read(&table).is_ok()));
    }
}

#[test]
fn the_goal_is_no_move() {
    check_accepted("00 00 00 47 45");
    check_accepted("01 00 00 47 50 00 45");
    check_accepted("01 00 01 41 2b 00 47 43 00 00000001 45");
}

/// The first fault in the order of commands wins.
#[test]
fn it_comes_before_what_stands_behind_it() {
    check("01 00 02 41 41 50 01 47 45", 16, 5);
    check("01 00 01 41 47 50 00 50 00 45", 16, 5);
    check("00 00 01 41 47 45 45", 16, 5);
    check("00 00 01 41 47 50", 16, 5);
    check("00 00 01 41 47 41", 16, 5);
    check("00 00 01 41 47 47", 16, 5);
    check("00 02 02 41 57 00 0001 46 00 00 00000000 41 47 45", 16, 17);
    check_rewriter("01 00 02 41 41 50 01 47 45", 4, 7);
    check_rewriter("01 00 01 41 47 50 00 50 00 45", 5, 8);
    check_rewriter("00 00 01 41 47 45 45", 3, 7);
    check_rewriter("00 02 02 41 57 00 0001 46 00 00 00000000 41 47 45", 7, 0);
}

#[test]
fn it_comes_behind_what_stands_before_it() {
    check("01 00 01 41 50 01 47 45", 4, 6);
    check("01 00 01 41 50 00 50 00 47 45", 5, 7);
    check("01 00 01 41 41 50 01 47 45", 6, 5);
    check(
        "00 02 01 41 57 01 0001 57 00 0001 43 00 00000000 47 45",
        5,
        9,
    );
}

#[test]
fn a_table_too_long_comes_first() {
    let mut rng = Rng::new(730);
    let long = |rng: &mut Rng, kind, length| long_stored(rng, kind, length).table;
    let written = long(&mut rng, Kind::Written, 32_001);
    check_calls(&WRITTEN, &written, 1, 0);
    check_calls(&[CallKind::Rewrite], &written, 1, 0);
    let normal = long(&mut rng, Kind::Normal, 64_001);
    check_calls(&NORMAL, &normal, 1, 0);
    check_calls(&[CallKind::Rewrite], &normal, 1, 0);
}
