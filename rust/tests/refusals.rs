//! Every refusal of every call that takes a table, its place, and which comes first.

mod calls;
mod idle_moves;
mod weight_zero;

use campaign::answer::Refusal;
use campaign::engine::{Engine, REFERENCE};
use campaign::hex::bytes;

const ENGINE: &dyn Engine = &REFERENCE;

/// The number and the place of what `read` answers, or none.
fn refusal(table: &str) -> Option<(u8, u64)> {
    pair(ENGINE.read(&bytes(table)))
}

fn pair<T>(answer: Result<T, Refusal>) -> Option<(u8, u64)> {
    answer.err().map(|r| (r.reason.number(), r.place))
}

fn check(cases: &[(&str, u8, u64)]) {
    for (table, number, place) in cases {
        assert_eq!(refusal(table), Some((*number, *place)), "{table}");
    }
}

fn check_accepted(tables: &[&str]) {
    for table in tables {
        assert_eq!(refusal(table), None, "{table}");
    }
}

#[test]
fn unknown_and_misplaced_commands() {
    check(&[
        ("00", 3, 0),
        ("41", 3, 0),
        ("45", 3, 0),
        ("54000000 00", 3, 4),
        ("54000000 54", 3, 4),
        ("54000000 47 4e", 3, 5),
        ("54000000 45", 3, 4),
        ("54000001 41 45", 3, 5),
        ("54010000 50", 3, 4),
        ("54010000 2b 00", 3, 4),
        ("54010000 2d 00", 3, 4),
        ("54000100 57 00 0001", 3, 4),
        ("54000000 43 00 00000000", 3, 4),
        ("54000100 46 00 00 00000000", 3, 4),
        ("54010000 47 2b 00", 3, 5),
        ("54010000 47 2d 00", 3, 5),
        ("54000100 47 46 00 00 00000000", 3, 5),
        ("54000100 47 57 00 0001 46 00 00 00000000", 3, 9),
        ("54000000 47 47", 3, 5),
        ("54000000 47 45 00", 3, 6),
        ("54000000 47 45 45", 3, 6),
        ("54000000 47 45 41", 3, 6),
    ]);
}

#[test]
fn terms_left_open() {
    check(&[
        ("54000101 41 57 00 0001 41", 3, 9),
        ("54000101 41 57 00 0001 47", 3, 9),
        ("54010101 41 57 00 0001 50 00", 3, 9),
        ("54010101 41 57 00 0001 2b 00", 3, 9),
        ("54010101 41 57 00 0001 2d 00", 3, 9),
        ("54000100 47 57 00 0001 45", 3, 9),
        ("54000100 47 57 00 0001 41", 3, 9),
    ]);
}

#[test]
fn cut_operands_and_missing_commands() {
    check(&[
        ("", 2, 0),
        ("54", 2, 0),
        ("540000", 2, 0),
        ("4eff", 2, 0),
        ("54000000", 2, 4),
        ("54000000 47", 2, 5),
        ("54010000 47 50", 2, 5),
        ("54000100 47 57 00 00", 2, 5),
        ("54000100 47 57 00 0001", 2, 9),
        ("54000000 47 43 00 000000", 2, 5),
        ("54000101 41 46 00 00 000000", 2, 5),
        ("54000101 41 2b", 2, 5),
    ]);
}

#[test]
fn moves_beyond_the_count_and_an_early_goal() {
    check(&[
        ("54000000 41", 6, 4),
        ("54000001 41 41", 6, 5),
        ("54010001 41 2b 00 47 41", 6, 8),
        ("54000000 47 41", 6, 5),
        ("54000001 47", 6, 4),
        ("54000002 41 47", 6, 5),
    ]);
}

#[test]
fn heads_out_of_range() {
    check(&[
        ("54790000", 4, 1),
        ("54001100", 4, 2),
        ("54000041", 4, 3),
        ("54ffffff", 4, 1),
        ("5400ffff", 4, 2),
        ("4e790000", 4, 1),
        ("4e002100", 4, 2),
        ("4e002200", 4, 2),
        ("4e000100", 4, 2),
        ("4e001f00", 4, 2),
        ("4e000041", 4, 3),
    ]);
    check_accepted(&["54781000 4745", "4e782000 4745"]);
    let moves = "41 2b 00".repeat(64);
    check_accepted(&[&format!("54010040 {moves} 4745")]);
}

#[test]
fn written_operands_out_of_range() {
    check(&[
        ("54010000 47 50 01", 4, 6),
        ("54000000 47 50 00", 4, 6),
        ("54010001 41 2b 01", 4, 6),
        ("54010001 41 2d ff", 4, 6),
        ("54000100 47 57 01 0001", 4, 6),
        ("54000100 47 57 01 03e9", 4, 6),
        ("54000100 47 57 00 03e9", 4, 7),
        ("54000100 47 57 00 fc17", 4, 7),
        ("54000000 47 43 05 00000000", 4, 6),
        ("54000000 47 43 05 7fffffff", 4, 6),
        ("54000000 47 43 00 000f4241", 4, 7),
        ("54000000 47 43 00 fff0bdbf", 4, 7),
        ("54000101 41 46 03 00 00000000", 4, 6),
        ("54000101 41 46 03 01 7fffffff", 4, 6),
        ("54000101 41 46 00 01 7fffffff", 4, 7),
        ("54000101 41 46 00 00 000f4241", 4, 8),
        ("54000101 41 46 00 00 fff0bdbf", 4, 8),
    ]);
    check_accepted(&[
        "54000101 41 57 00 fc18 46 02 00 fff0bdc0 47 57 00 03e8 43 04 000f4240 45",
        "54000101 41 46 00 00 000f4240 47 43 01 fff0bdc0 45",
    ]);
}

#[test]
fn normal_operands_out_of_range() {
    check(&[
        ("4e000200 47 57 00 ffff", 4, 7),
        ("4e000200 47 57 00 0000", 4, 7),
        ("4e000200 47 57 00 03e9", 4, 7),
        ("4e000000 47 43 01 00000000", 4, 6),
        ("4e000000 47 43 04 00000000", 4, 6),
        ("4e000000 47 43 00 000f4242", 4, 7),
        ("4e000000 47 43 00 fff0bdbf", 4, 7),
        ("4e000201 41 46 02 00 00000000", 4, 6),
        ("4e000201 41 46 00 00 000f4241", 4, 8),
        ("4e000201 41 46 00 02 00000000", 4, 7),
    ]);
    check_accepted(&[
        "4e000200 47 57 01 03e8 43 00 000f4241 45",
        "4e000200 47 57 01 0001 43 00 fff0bdc0 45",
        "4e000201 41 46 01 01 000f4240 47 45",
        "4e000201 41 46 00 01 fff0bdc0 47 45",
    ]);
}

#[test]
fn names_used_again() {
    check(&[
        ("54020000 47 50 01 50 01", 5, 7),
        ("54020001 41 50 01 50 01", 5, 7),
        ("54020001 41 2b 01 2b 01", 5, 7),
        ("54020001 41 2b 01 2d 01", 5, 7),
        ("54020001 41 2d 01 2b 01", 5, 7),
        ("54020001 41 2d 01 50 01 2d 01", 5, 9),
        ("54000201 41 46 00 01 00000000 46 01 01 00000000", 5, 12),
        (
            "54000201 41 46 01 01 00000000 57 00 0001 46 01 01 00000000",
            5,
            16,
        ),
        ("54000200 47 57 01 0001 57 01 0001", 5, 9),
        ("54000200 47 57 01 0001 57 00 0001", 5, 9),
    ]);
    check_accepted(&[
        "54010001 41 50 00 2b 00 47 50 00 45",
        "54010001 41 50 00 2d 00 47 50 00 45",
        "54010002 41 2b 00 41 2d 00 47 45",
        "54000101 41 46 01 00 00000000 47 45",
        "54000102 41 46 01 00 00000000 41 46 01 00 00000000 47 45",
        "54000200 47 57 01 0001 43 00 00000000 57 00 0001 43 00 00000000 45",
        "54000200 47 57 01 0001 43 00 00000000 57 01 0001 43 00 00000000 45",
    ]);
}

#[test]
fn a_ninth_term() {
    let terms =
        |count: usize| -> String { (0..count).map(|v| format!("57 {v:02x} 0001 ")).collect() };
    let table = |count| format!("54000900 47 {} 43 00 00000000 45", terms(count));
    assert_eq!(refusal(&table(8)), None);
    assert_eq!(refusal(&table(9)), Some((5, 5 + 8 * 4)));
}

#[test]
fn earlier_checks_of_a_command_come_first() {
    check(&[
        ("54000000 50", 3, 4),
        ("54000100 47 46", 3, 5),
        ("54000100 47 57 00 0001 50", 3, 9),
        ("54000001 41 57 00", 2, 5),
        ("54000100 47 57 00 0001 57 05", 2, 9),
        ("54000100 47 57 00 0001 57 00 fc17", 4, 11),
        ("54000200 47 57 01 0001 57 00 03e9", 4, 11),
        ("54000101 41 46 00 00 00000000 46 00 00 000f4241", 4, 15),
        ("54000001 41 57 00 0001", 4, 6),
        ("54000101 41 57 00 0001 41", 3, 9),
    ]);
}

#[test]
fn an_earlier_command_comes_first() {
    check(&[
        ("54010000 47 50 01 ff", 4, 6),
        ("54010000 47 50 00 50 00 ff", 5, 7),
        ("54000001 47 ff", 6, 4),
        ("54000101 41 57 00 0001 46 00 00 00000000 47 45 ff", 3, 18),
        ("54000101 41 57 00 0001 46 00 00 00000000 47", 2, 17),
    ]);
}

#[test]
fn circles() {
    let edge = |from: u8, to: u8| format!("57 {from:02x} 0001 46 00 {to:02x} 00000000 ");
    let table = |head: &str, edges: &[(u8, u8)]| {
        let moves: String = edges
            .iter()
            .map(|(u, v)| "41".to_owned() + &edge(*u, *v))
            .collect();
        format!("{head} {:02x} {moves} 47 45", edges.len())
    };
    for head in ["54 00 04", "4e 00 04"] {
        assert_eq!(refusal(&table(head, &[(0, 0)])), Some((7, 0)));
        assert_eq!(refusal(&table(head, &[(0, 1), (1, 0)])), Some((7, 0)));
        assert_eq!(
            refusal(&table(head, &[(3, 0), (0, 1), (1, 2), (2, 0)])),
            Some((7, 0))
        );
        assert_eq!(
            refusal(&table(head, &[(0, 1), (0, 2), (1, 3), (2, 3)])),
            None
        );
        assert_eq!(
            refusal(&table(head, &[(3, 2), (2, 1), (1, 0), (3, 0)])),
            None
        );
    }
    check_accepted(&["54000101 41 57 00 0001 46 01 00 00000000 47 45"]);
    check_accepted(&["54000201 41 57 00 0001 46 00 01 00000000 57 01 0001 46 01 00 00000000 4745"]);
}

/// Bytes of a table of the given kind with this many empty conditions.
fn long_table(kind: u8, conditions: usize) -> Vec<u8> {
    let mut table = vec![kind, 0, 0, 0, 0x47];
    for _ in 0..conditions {
        table.extend([0x43, 0, 0, 0, 0, 0]);
    }
    table.push(0x45);
    table
}

#[test]
fn too_long_tables() {
    let written = long_table(0x54, 5_332);
    let normal = long_table(0x4E, 5_332);
    assert_eq!((written.len(), normal.len()), (31_998, 31_998));
    assert!(ENGINE.read(&written).is_ok() && ENGINE.read(&normal).is_ok());
    let written = long_table(0x54, 5_333);
    let normal = long_table(0x4E, 10_665);
    assert_eq!((written.len(), normal.len()), (32_004, 63_996));
    assert_eq!(pair(ENGINE.read(&written)), Some((1, 0)));
    assert_eq!(pair(ENGINE.block(&written, 0)), Some((1, 0)));
    assert_eq!(pair(ENGINE.read(&normal)), None);
    assert_eq!(pair(ENGINE.block(&normal, 0)), None);
    assert_eq!(pair(ENGINE.decide(&normal, &[], &mut [])), None);
    let normal = long_table(0x4E, 10_666);
    assert_eq!(pair(ENGINE.read(&normal)), Some((1, 0)));
    assert_eq!(pair(ENGINE.decide(&normal, &[], &mut [])), Some((1, 0)));
}

/// Other calls have the limit of the head they want, whatever the first byte is.
#[test]
fn the_length_limit_is_that_of_the_wanted_head() {
    let normal = long_table(0x4E, 6_000);
    assert_eq!(pair(ENGINE.normalise(&normal, &mut [])), Some((1, 0)));
    assert_eq!(pair(ENGINE.step(&normal, &[], 0, &mut [])), Some((1, 0)));
    let written = long_table(0x54, 6_000);
    assert_eq!(pair(ENGINE.decide(&written, &[], &mut [])), Some((3, 0)));
    assert_eq!(
        pair(ENGINE.plan(&written, &[], &mut [], &mut [])),
        Some((3, 0))
    );
    let other = vec![0; 64_000];
    assert_eq!(pair(ENGINE.read(&other)), Some((3, 0)));
    assert_eq!(pair(ENGINE.read(&[0; 64_001])), Some((1, 0)));
    assert_eq!(pair(ENGINE.normalise(&other, &mut [])), Some((1, 0)));
    assert_eq!(pair(ENGINE.decide(&other, &[], &mut [])), Some((3, 0)));
}

#[test]
fn the_wrong_head_for_the_call() {
    let written = bytes("54 00 00 00 47 45");
    let normal = bytes("4e 00 00 00 47 45");
    assert_eq!(pair(ENGINE.normalise(&normal, &mut [0; 9])), Some((3, 0)));
    assert_eq!(pair(ENGINE.step(&normal, &[], 0, &mut [])), Some((3, 0)));
    assert_eq!(pair(ENGINE.decide(&written, &[], &mut [])), Some((3, 0)));
    assert_eq!(
        pair(ENGINE.plan(&written, &[], &mut [], &mut [])),
        Some((3, 0))
    );
    assert_eq!(
        pair(ENGINE.decide(&bytes("54"), &[], &mut [])),
        Some((3, 0))
    );
    assert_eq!(pair(ENGINE.decide(&[], &[], &mut [])), Some((2, 0)));
    assert_eq!(ENGINE.listing(&normal, &[]), "refusal 3 place 0\n");
    assert_eq!(ENGINE.listing(&[], &[]), "refusal 2 place 0\n");
}
