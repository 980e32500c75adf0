//! Weight 0: accepted in a written table, and what is still refused beside it.

use super::{check, check_accepted, pair, refusal, ENGINE};
use campaign::hex::bytes;

/// Terms of weight 0 on variables 0, 1, ..
fn zeros(count: usize) -> String {
    (0..count).map(|v| format!("57 {v:02x} 0000 ")).collect()
}

#[test]
fn written_tables_have_it_and_normal_ones_do_not() {
    check_accepted(&[
        "54000100 47 57 00 0000 43 00 00000000 45",
        "54000101 41 57 00 0000 43 04 00000000 57 00 0000 46 02 00 00000000 47 45",
        "54000200 47 57 00 0000 57 01 0001 43 00 00000000 45",
        "54000200 47 57 00 0001 57 01 0000 43 00 00000000 45",
    ]);
    check(&[
        ("4e000200 47 57 00 0000", 4, 7),
        ("4e000200 47 57 00 0000 43 00 00000000 45", 4, 7),
        (
            "4e000201 41 57 00 0001 57 01 0000 46 00 00 00000000 47 45",
            4,
            11,
        ),
        ("4e000200 47 57 00 0001 57 00 0000", 4, 11),
    ]);
}

#[test]
fn other_operands_of_the_term_are_checked() {
    check(&[
        ("54000100 47 57 01 0000", 4, 6),
        ("54000000 47 57 00 0000", 4, 6),
        ("54000100 47 57 00 0000 57 01 0000", 4, 10),
        ("54000100 47 57 00 0000 57 00 03e9", 4, 11),
        ("54000100 57 00 0000", 3, 4),
        ("54000100 47 57 00 00", 2, 5),
        ("54000100 47 57 00 0000", 2, 9),
    ]);
}

#[test]
fn it_leaves_terms_open() {
    check(&[
        ("54000101 41 57 00 0000 41", 3, 9),
        ("54000101 41 57 00 0000 47", 3, 9),
        ("54010101 41 57 00 0000 50 00", 3, 9),
        ("54010101 41 57 00 0000 2b 00", 3, 9),
        ("54010101 41 57 00 0000 2d 00", 3, 9),
        ("54000100 47 57 00 0000 45", 3, 9),
        ("54000100 47 57 00 0000 46 00 00 00000000", 3, 9),
    ]);
}

#[test]
fn it_keeps_the_rising_order() {
    check(&[
        ("54020201 41 57 01 0001 57 00 0000", 5, 9),
        ("54020201 41 57 01 0000 57 00 0001", 5, 9),
        ("54020201 41 57 01 0000 57 00 0000", 5, 9),
        ("54020201 41 57 01 0001 57 01 0000", 5, 9),
        ("54020201 41 57 01 0000 57 01 0001", 5, 9),
        ("54020201 41 57 01 0000 57 01 0000", 5, 9),
        ("54000300 47 57 00 0001 57 02 0000 57 01 0001", 5, 13),
    ]);
    check_accepted(&[
        "54000200 47 57 01 0000 43 00 00000000 57 00 0000 43 00 00000000 45",
        "54000200 47 57 01 0000 43 00 00000000 57 01 0000 43 00 00000000 45",
    ]);
}

#[test]
fn it_counts_among_the_eight() {
    let table = |terms: &str| format!("54001000 47 {terms} 43 00 00000000 45");
    let ninth = Some((5, 5 + 8 * 4));
    assert_eq!(refusal(&table(&zeros(8))), None);
    assert_eq!(refusal(&table(&zeros(9))), ninth);
    assert_eq!(refusal(&table(&(zeros(8) + "57 08 0001"))), ninth);
    assert_eq!(refusal(&table(&(zeros(7) + "57 0f 0001"))), None);
    assert_eq!(refusal(&table(&(zeros(8) + "57 00 0000"))), ninth);
    assert_eq!(refusal(&table(&(zeros(8) + "57 10 0000"))), Some((4, 38)));
    assert_eq!(refusal(&table(&(zeros(8) + "57 08 03e9"))), Some((4, 39)));
    let ones: String = (0..8).map(|v| format!("57 {v:02x} 0001 ")).collect();
    assert_eq!(refusal(&table(&(ones + "57 08 0000"))), ninth);
}

/// A move of commands over three variables.
fn moved(commands: &str) -> String {
    format!("54000301 41 {commands} 47 45")
}

#[test]
fn it_makes_no_edge() {
    let own = "46 00 00 00000007";
    assert_eq!(refusal(&moved(&format!("57 00 0000 {own}"))), None);
    assert_eq!(refusal(&moved(&format!("57 00 0001 {own}"))), Some((7, 0)));
    let reads = |weights: [&str; 3]| {
        let [a, b, c] = weights;
        moved(&format!(
            "57 00 {a} 46 00 01 00000000 57 01 {b} 46 00 02 00000000 57 02 {c} 46 00 00 00000000"
        ))
    };
    assert_eq!(refusal(&reads(["0001", "0001", "0001"])), Some((7, 0)));
    for one in 0..3 {
        let mut weights = ["0001"; 3];
        weights[one] = "0000";
        assert_eq!(refusal(&reads(weights)), None, "{one}");
    }
    let beside = moved("57 00 ffff 57 01 0000 46 00 00 00000000");
    assert_eq!(refusal(&beside), Some((7, 0)));
}

/// Every call that takes a written table.
#[test]
fn all_calls_take_it() {
    let table = bytes("54000101 41 57 00 0000 46 00 00 00000007 47 57 00 0000 43 02 00000000 45");
    let mut out = [0; 400];
    let mut layers = [0; 5];
    assert_eq!(pair(ENGINE.read(&table)), None);
    assert_eq!(ENGINE.block(&table, 0), Ok(&table[4..16]));
    assert_eq!(ENGINE.normalise(&table, &mut out), Ok(27));
    let normal = "4e000201 41 46 00 00 00000007 46 00 01 fffffff9 47 43 00 00000000 45";
    assert_eq!(out[..27], bytes(normal));
    assert_eq!(pair(ENGINE.decide(&out[..27], &[0; 4], &mut layers)), None);
    assert_eq!(ENGINE.step(&table, &[0; 4], 0, &mut out), Ok(4));
    assert_eq!(out[..4], [0, 0, 0, 7]);
    assert_eq!(ENGINE.listing(&table, &[0; 4]), "plan 0 layers 0\n");
    let length = ENGINE.pddl(&table, &[0; 4], &mut out).expect("a text");
    let text = std::str::from_utf8(&out[..length]).expect("a text");
    assert!(text.contains("(assign (v0) (+ (* 0 (v0)) 7))"), "{text}");
    assert!(text.contains("(<= (+ (* 0 (v0)) 0) 0)"), "{text}");
}
