//! There is no sixth comparison: every other number is refused by every call that takes a table.

use super::{closing, term};
use crate::common::refused::{refused, roomy, NORMAL, WRITTEN};
use campaign::call::CallKind;
use campaign::proved::PROVED;

/// Tables with a comparison of this number in the move and in the goal, each with the offset of the
/// number. The other comparison is ≥, and the move sets variable 0 to 0.
fn tables(head: [u8; 4], number: u8, constant: i128) -> [(Vec<u8>, usize); 2] {
    let condition = |number, constant| [&term(1, 1)[..], &closing(number, constant)].concat();
    let effect = [0x46, 0, 0, 0, 0, 0, 0];
    let table = |mv: &[u8], goal: &[u8]| {
        let start = [&head, &[0x41][..], mv, &effect].concat();
        [&start, &[0x47][..], goal, &[0x45]].concat()
    };
    let [other, honest] = [condition(number, constant), condition(0, 0)];
    [
        (table(&other, &honest), 4 + 1 + 4 + 1),
        (
            table(&honest, &other),
            4 + 1 + 10 + effect.len() + 1 + 4 + 1,
        ),
    ]
}

/// Where a table is refused with 4, if it is. The constant stands behind the number.
fn refused_place(number: u8, known: u8, constant: i128, place: usize) -> Option<usize> {
    match (number > known, constant > 1_000_000) {
        (true, _) => Some(place),
        (false, true) => Some(place + 1),
        (false, false) => None,
    }
}

/// Whether table or state is refused.
fn is_of_input(outcome: &str) -> bool {
    let mut numbers = (1..=9).chain([16]);
    numbers.any(|number| outcome.starts_with(&format!("refusal {number} ")))
}

fn check_call(kind: CallKind, table: &[u8], refused_place: Option<usize>) {
    let call = roomy(kind, table, 8);
    let outcome = call.run(&PROVED).expect("inputs and canaries are whole");
    let outcome = outcome.to_string();
    let context = format!("{} {call}", kind.name());
    match refused_place {
        Some(place) => assert_eq!(outcome, refused(&call, 4, place), "{context}"),
        None => assert!(!is_of_input(&outcome), "{context}: {outcome}"),
    }
}

/// Every number, with constants in and out of range, in the move and in the goal; answers how many
/// calls had a number that is no comparison.
fn check(head: [u8; 4], kinds: &[CallKind], known: u8) -> usize {
    let mut others = 0;
    for number in 0..=255 {
        for constant in [0, 1_000_000, i128::from(i32::MAX)] {
            for (table, place) in tables(head, number, constant) {
                let place = refused_place(number, known, constant, place);
                for kind in kinds.iter().chain([&CallKind::Rewrite]) {
                    check_call(*kind, &table, place);
                    others += usize::from(number > known);
                }
            }
        }
    }
    others
}

#[test]
fn written_tables_have_five() {
    let others = check([0x54, 0, 2, 1], &WRITTEN, 4);
    assert_eq!(others, 251 * 3 * 2 * (WRITTEN.len() + 1));
}

#[test]
fn normal_tables_have_one() {
    let others = check([0x4E, 0, 4, 1], &NORMAL, 0);
    assert_eq!(others, 255 * 3 * 2 * (NORMAL.len() + 1));
}
