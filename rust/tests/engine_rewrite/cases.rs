//! Stored tables by hand, on the proved engine and on the reference.

use super::ENGINE;
use campaign::answer::{Reason, Refusal};
use campaign::engine::{Engine, REFERENCE};
use campaign::generate::m1;
use campaign::hex::bytes;

/// What both engines answer, and what they leave in an output of so many bytes.
fn both(table: &[u8], room: usize) -> (Result<usize, Refusal>, Vec<u8>) {
    let [one, other] = [&REFERENCE, ENGINE].map(|engine: &dyn Engine| {
        let mut out = vec![0xA5; room];
        (engine.rewrite(table, &mut out), out)
    });
    assert_eq!(one, other);
    one
}

/// A table becomes another one: with just enough room, with more, and not with less.
fn check(table: &str, expected: &str) {
    let [table, expected] = [table, expected].map(bytes);
    let length = expected.len();
    assert_eq!(both(&table, length), (Ok(length), expected.clone()));
    let more = [&expected[..], &[0xA5; 9]].concat();
    assert_eq!(both(&table, length + 9), (Ok(length), more));
    for room in [0, 1, length - 1] {
        let short = Err(Reason::OutputShort.at(0));
        assert_eq!(both(&table, room), (short, vec![0xA5; room]));
    }
}

#[test]
fn m1_among_unfinished_rows() {
    let table = "54 01 02 07; 41; 41 46 01 00 00000005; 41 50 00; 41 43 00 00000000; \
                 41 57 00 0001 43 00 00000003 46 01 01 00000002 46 02 00 00000003; \
                 41 57 00 0001 43 00 0000000A 2B 00; 41; 47 50 00 57 01 0001 43 00 00000007; 45";
    let (answer, out) = both(&bytes(table), 64);
    assert_eq!((answer, out), (Ok(64), m1().table));
}

#[test]
fn a_table_without_such_moves_stays() {
    check("54 00 00 00 47 45", "54 00 00 00 47 45");
    let m1 = m1();
    for table in [&m1.table, &m1.normal().table] {
        let length = table.len();
        assert_eq!(both(table, length), (Ok(length), table.clone()));
    }
}

/// Only the number of moves falls: propositions and variables stay, named or not.
#[test]
fn counts_of_the_head() {
    check("54 78 10 01 41 47 45", "54 78 10 00 47 45");
    check("4e 78 20 01 41 47 45", "4e 78 20 00 47 45");
    check(
        "54 02 01 02 41 50 01 41 2b 00 47 45",
        "54 02 01 01 41 2b 00 47 45",
    );
}

#[test]
fn all_moves_the_first_and_the_last() {
    let all = format!("54 00 00 40 {} 47 45", "41".repeat(64));
    check(&all, "54 00 00 00 47 45");
    let first = format!("4e 01 00 40 {} 41 2b 00 47 45", "41".repeat(63));
    check(&first, "4e 01 00 01 41 2b 00 47 45");
    let last = format!("4e 01 00 40 41 2b 00 {} 47 45", "41".repeat(63));
    check(&last, "4e 01 00 01 41 2b 00 47 45");
    let ends = format!(
        "54 01 00 40 41 2b 00 {} 41 2d 00 47 45",
        "41 50 00".repeat(62)
    );
    check(&ends, "54 01 00 02 41 2b 00 41 2d 00 47 45");
}

/// Operands 41, 47, 2B, 2D and 46 are no commands.
#[test]
fn operands_are_no_commands() {
    check(
        "54 78 10 03; 41 50 2b 50 46 43 00 00002b2d; 41 50 41 2b 47; 41 43 04 00004647; 47 50 41; 45",
        "54 78 10 01; 41 50 41 2b 47; 47 50 41; 45",
    );
    check(
        "4e 78 20 02; 41 57 00 012b 43 00 00004600; 41 46 01 01 00004147; 47; 45",
        "4e 78 20 01; 41 46 01 01 00004147; 47; 45",
    );
}

/// += 0, := the same value again and a delete of what is never true are kept.
#[test]
fn moves_that_change_no_state_stay() {
    let table = "54 01 01 04; 41 46 01 00 00000000; 41 57 00 0000 46 02 00 00000000; \
                 41 2d 00; 41 46 00 00 00000000; 47; 45";
    check(table, table);
}

/// Weights of 0 and sums of no terms are kept as they stand.
#[test]
fn other_bytes_are_kept() {
    check(
        "54 01 02 02; 41 50 00; 41 57 00 0000 57 01 0000 43 03 00000001 2d 00; 47 43 04 00000000; 45",
        "54 01 02 01; 41 57 00 0000 57 01 0000 43 03 00000001 2d 00; 47 43 04 00000000; 45",
    );
}

/// All checks of `read` but 16, with its limits: a refusal leaves the output as it was.
#[test]
fn other_refusals() {
    let refused = |table: &str, number: u8, place: usize| {
        let reason = Reason::from_number(number).expect("a refusal");
        let (answer, out) = both(&bytes(table), 40);
        assert_eq!(
            (answer, out),
            (Err(reason.at(place)), vec![0xA5; 40]),
            "{table}"
        );
    };
    refused("", 2, 0);
    refused("41", 3, 0);
    refused("54 00 00 01 41 47 45 00", 3, 7);
    refused("54 00 00 41 41", 4, 3);
    refused("4e 00 01 01 41 47 45", 4, 2);
    refused("54 01 00 01 41 50 01 47 45", 4, 6);
    refused("54 01 00 01 41 50 00 50 00 47 45", 5, 7);
    refused("54 00 01 02 41 41 57 00 0001 46 00 00 00000000 47 45", 7, 0);
    refused("4e 00 00 01 41 43 01 00000000 47 45", 4, 6);
}
