//! Goals by hand, on the proved engine and on the reference.

use super::ENGINE;
use campaign::answer::{Blocking, Refusal};
use campaign::engine::{Engine, REFERENCE};
use campaign::generate::{m1, Task};
use campaign::hex::bytes;

/// What both engines answer, and what they leave in so many numbers of memory.
fn both(task: &Task, numbers: usize) -> (Result<Blocking, Refusal>, Vec<i64>) {
    let [one, other] = [&REFERENCE, ENGINE].map(|engine: &dyn Engine| {
        let mut layers = vec![7; numbers];
        let answer = engine.blocking(&task.table, &task.state, &mut layers);
        (answer, layers)
    });
    assert_eq!(one, other, "{task}");
    one
}

/// The offset that blocks; none if nothing does.
fn offset(task: &Task) -> Option<u64> {
    match both(task, 100).0.expect("the task is accepted") {
        Blocking::Blocks { offset } => Some(offset),
        Blocking::Nothing => None,
    }
}

/// The same of a normal table and a state.
fn blocks(table: &str, state: &str) -> Option<u64> {
    let [table, state] = [table, state].map(bytes);
    offset(&Task { table, state })
}

/// The number and the place of the refusal.
fn refused(table: &str, state: &str, numbers: usize) -> (u8, u64) {
    let [table, state] = [table, state].map(bytes);
    let refusal = both(&Task { table, state }, numbers).0.unwrap_err();
    (refusal.reason.number(), refusal.place)
}

#[test]
fn m1_has_a_plan_and_a_part_behind_its_goal_blocks() {
    let mut task = m1().normal();
    assert_eq!(offset(&task), None);
    let end = task.table.len() - 1;
    task.table.splice(end..end, bytes("43 00 00000001"));
    assert_eq!(offset(&task), Some(84));
    let layers = [
        2,
        0,
        1,
        1,
        0,
        0,
        0,
        0,
        i64::MAX,
        0,
        0,
        0,
        i64::MAX,
        i64::MAX,
    ];
    let (_, memory) = both(&task, 18);
    assert_eq!(memory[..14], layers);
    assert_eq!(memory[14..], [i64::MAX, 0, 7, 7]);
}

#[test]
fn an_empty_goal_is_met() {
    assert_eq!(blocks("4e 00 00 00 47 45", ""), None);
}

#[test]
fn a_sum_of_no_terms_is_0() {
    assert_eq!(blocks("4e 00 00 00 47 43 00 00000001 45", ""), Some(5));
    assert_eq!(blocks("4e 00 00 00 47 43 00 00000000 45", ""), None);
    let table = "4e 00 00 00 47 43 00 00000000 43 00 00000001 45";
    assert_eq!(blocks(table, ""), Some(11));
}

/// v += v from 0 and from 1, goal v >= 8: the 43 stands behind its term.
#[test]
fn the_offset_is_that_of_the_43() {
    let table = "4e 00 02 01; 41 57 00 0001 46 01 00 00000000 57 01 0001 46 01 01 00000000; \
                 47 57 00 0001 43 00 00000008; 45";
    assert_eq!(blocks(table, "00000000"), Some(32));
    assert_eq!(blocks(table, "00000001"), None);
}

/// Operands 47, 50 and 43 before the goal and in it are no commands.
#[test]
fn operands_are_no_commands() {
    let table = "4e 51 02 01; 41 50 47 50 50 2b 43 46 00 00 00004750; 47 50 43 50 50; 45";
    let mut state = vec![0; 85];
    let mut check = |p: usize, expected| {
        state[p] = 1;
        let table = bytes(table);
        let state = state.clone();
        assert_eq!(offset(&Task { table, state }), expected);
    };
    check(0x47, Some(19));
    check(0x43, Some(21));
    check(0x50, None);
}

/// A move adds p0: layer 0 misses the first part, and the last layer the second.
#[test]
fn parts_are_looked_up_in_the_last_layer() {
    let table = "4e 02 00 01; 41 2b 00; 47 50 00 50 01; 45";
    assert_eq!(blocks(table, "00 00"), Some(10));
    assert_eq!(blocks(table, "00 01"), None);
    let raised = "4e 01 02 01; 41 46 00 00 00000005; 47 57 00 0001 43 00 00000005 50 00; 45";
    assert_eq!(blocks(raised, "00 00000000"), Some(23));
}

#[test]
fn the_first_in_the_order_of_the_table() {
    let table =
        "4e 02 02 00; 47 57 00 0001 43 00 00000001 50 01 57 01 0001 43 00 00000001 50 00; 45";
    assert_eq!(blocks(table, "00 00 00000000"), Some(9));
    assert_eq!(blocks(table, "00 00 00000001"), Some(15));
    assert_eq!(blocks(table, "00 01 00000001"), Some(21));
    assert_eq!(blocks(table, "00 01 ffffffff"), Some(9));
    let table = "4e 02 02 00; 47 50 01 57 00 0001 43 00 00000001 50 00; 45";
    assert_eq!(blocks(table, "00 00 00000000"), Some(5));
    assert_eq!(blocks(table, "00 01 00000001"), Some(17));
}

/// No moves, v = c from 0: below 0 the second half fails.
#[test]
fn an_equality_is_two_parts() {
    let written = |constant: &str| Task {
        table: bytes(&format!("54 00 01 00; 47 57 00 0001 43 04 {constant}; 45")),
        state: vec![0; 4],
    };
    assert_eq!(offset(&written("00000001").normal()), Some(9));
    assert_eq!(offset(&written("ffffffff").normal()), Some(19));
    assert_eq!(offset(&written("00000000").normal()), None);
}

/// v0 grows: whatever stands beside it, and with any weight, its sum is met. Then p0 fails.
#[test]
fn a_sum_with_an_unbounded_term_is_met() {
    for (first, beside) in [("0001", "0001"), ("0002", "0001"), ("03e8", "03e8")] {
        let sum = format!("57 00 {first} 57 02 {beside} 43 00 000f4241");
        let table = format!("4e 01 04 01; 41 46 01 00 00000001; 47 {sum} 50 00; 45");
        for value in ["00000000", "000f4240", "fff0bdc0"] {
            let state = format!("00 00000000 {value}");
            assert_eq!(blocks(&table, &state), Some(27), "{table} {state}");
        }
    }
}

#[test]
fn refusals_are_those_of_decide() {
    let table = "4e 01 02 01; 41 46 00 00 00000005; 47 50 00; 45";
    assert_eq!(refused("54 00 00 00 47 45", "", 9), (3, 0));
    assert_eq!(refused("4e 00 00 00 47 43", "", 9), (2, 5));
    assert_eq!(refused(table, "00", 9), (8, 0));
    assert_eq!(refused(table, "02 00000000", 9), (9, 0));
    assert_eq!(refused(table, "00 00000000", 3), (14, 0));
    assert_eq!(refused(table, "00 00000000", 5), (14, 1));
    assert_eq!(blocks(table, "00 00000000"), Some(13));
    let past = "4e 00 04 02; 41 57 00 03e8 46 00 01 00000000; 41 57 01 03e8 46 00 02 00000001; \
                47 43 00 00000001; 45";
    assert_eq!(refused(past, "000f4240 00000000", 10), (15, 2));
}
