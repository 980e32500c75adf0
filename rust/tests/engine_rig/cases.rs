//! Heads at the rig's limits and beyond, by hand, on the proved engine and on the reference.

use super::ENGINE;
use crate::common::refused::{refused, roomy, NORMAL, WRITTEN};
use campaign::call::{Call, CallKind, Field};
use campaign::engine::{Engine, REFERENCE};
use campaign::generate::Task;
use campaign::hex::bytes;

/// What both engines answer and leave in memory.
fn both(call: &Call) -> String {
    let [one, other] = [&REFERENCE, ENGINE].map(|engine: &dyn Engine| {
        let outcome = call.run(engine).expect("inputs and canaries are whole");
        outcome.to_string()
    });
    assert_eq!(one, other, "{call}");
    one
}

/// A table with so many propositions, variables and moves, each of which adds 0 to variable 0.
fn table(head: u8, [p, v, a]: [u8; 3]) -> Vec<u8> {
    let moves = bytes("41 46 01 00 00000000").repeat(usize::from(a));
    [&[head, p, v, a][..], &moves, &[0x47, 0x45]].concat()
}

/// The calls that take a table with this head.
fn kinds(head: u8) -> Vec<CallKind> {
    let full: &[CallKind] = match head {
        0x54 => &WRITTEN,
        _ => &NORMAL,
    };
    full.iter().filter_map(|kind| kind.rig()).collect()
}

/// How many bytes the state of a table has.
fn state_length(table: &[u8]) -> usize {
    let values = match table[0] {
        0x54 => usize::from(table[2]),
        _ => usize::from(table[2]) / 2,
    };
    usize::from(table[1]) + 4 * values
}

/// A call of a table that is lent enough of everything.
fn enough(kind: CallKind, table: &[u8]) -> Call {
    let mut call = roomy(kind, table, state_length(table));
    if kind.has(Field::Numbers) {
        call.numbers = 200;
    }
    if kind.has(Field::Normal) {
        call.normal = 2 * table.len();
    }
    call
}

/// Every call of a table is refused so, and keeps what it is lent.
fn check_refused(table: &[u8], number: u8, place: usize) {
    for kind in kinds(table[0]) {
        let call = enough(kind, table);
        assert_eq!(both(&call), refused(&call, number, place), "{call}");
    }
}

/// No call of a table is refused.
fn check_accepted(table: &[u8]) {
    for kind in kinds(table[0]) {
        let call = enough(kind, table);
        let outcome = both(&call);
        assert!(!outcome.starts_with("refusal"), "{call}: {outcome}");
    }
}

#[test]
fn sixteen_moves_pass_and_seventeen_do_not() {
    for head in [0x54, 0x4E] {
        for moves in [1, 15, 16] {
            check_accepted(&table(head, [1, 2, moves]));
        }
        for moves in [17, 18, 63, 64] {
            check_refused(&table(head, [1, 2, moves]), 17, 0);
        }
    }
}

#[test]
fn eight_written_variables_pass_and_nine_do_not() {
    for v in [1, 7, 8] {
        check_accepted(&table(0x54, [1, v, 2]));
        check_accepted(&table(0x4E, [1, 2 * v, 2]));
    }
    for v in [9, 10, 15, 16] {
        check_refused(&table(0x54, [1, v, 2]), 17, 0);
        check_refused(&table(0x4E, [1, 2 * v, 2]), 17, 0);
    }
}

#[test]
fn propositions_are_not_limited() {
    for p in [0, 16, 17, 64, 119, 120] {
        check_accepted(&table(0x54, [p, 8, 16]));
        check_accepted(&table(0x4E, [p, 16, 16]));
    }
}

/// All three at once, and each beyond the rest.
#[test]
fn all_limits_together() {
    check_accepted(&table(0x54, [120, 8, 16]));
    check_accepted(&table(0x4E, [120, 16, 16]));
    for counts in [[120, 9, 16], [120, 8, 17], [120, 9, 17], [120, 16, 64]] {
        check_refused(&table(0x54, counts), 17, 0);
        let [p, v, a] = counts;
        check_refused(&table(0x4E, [p, 2 * v, a]), 17, 0);
    }
}

/// A head beyond the limits, with a fault behind it: that one is given, wherever it stands.
#[test]
fn faults_of_the_table_come_first() {
    for (head, variables) in [(0x54, 9), (0x4E, 18)] {
        let whole = table(head, [1, variables, 17]);
        let length = whole.len();
        let goal = length - 2;
        let with = |at: usize, taken: usize, put: &str| {
            let mut table = whole.clone();
            table.splice(at..at + taken, bytes(put));
            table
        };
        check_refused(&whole, 17, 0);
        check_refused(&whole[..length - 1], 2, length - 1);
        check_refused(&with(goal, 0, "58"), 3, goal);
        check_refused(&with(length, 0, "00"), 3, length);
        check_refused(&with(goal, 0, "50 01"), 4, goal + 1);
        check_refused(&with(goal, 0, "50 00 50 00"), 5, goal + 2);
        check_refused(&with(goal, 0, "41"), 6, goal);
        check_refused(&with(goal - 7, 7, "50 00"), 16, goal - 5);
        check_refused(&with(goal - 7, 7, "57 00 0001 46 00 00 00000001"), 7, 0);
    }
}

/// The wrong head for the call, beyond the limits, is 3.
#[test]
fn the_wrong_head_comes_first() {
    for (head, variables, other) in [(0x54, 9, 0x4E), (0x4E, 18, 0x54)] {
        let table = table(head, [1, variables, 17]);
        check_refused(&table, 17, 0);
        let both_heads = [CallKind::RigRead, CallKind::RigBlock];
        let one_head = kinds(other).into_iter();
        for kind in one_head.filter(|kind| !both_heads.contains(kind)) {
            let call = enough(kind, &table);
            assert_eq!(both(&call), refused(&call, 3, 0), "{call}");
        }
    }
}

/// A head beyond the limits of document 01 is 4, as everywhere.
#[test]
fn the_limits_of_document_01_come_first() {
    check_refused(&table(0x54, [1, 17, 2]), 4, 2);
    check_refused(&table(0x4E, [1, 34, 2]), 4, 2);
    check_refused(&table(0x4E, [1, 17, 2]), 4, 2);
    check_refused(&table(0x54, [1, 9, 65]), 4, 3);
    check_refused(&table(0x54, [121, 9, 17]), 4, 1);
}

/// 17 is given whatever the state, the move and the block are, with no memory at all.
#[test]
fn all_else_comes_behind() {
    for beyond in [table(0x54, [1, 9, 2]), table(0x4E, [1, 2, 17])] {
        let length = state_length(&beyond);
        let lengths = [0, length, length + 1].map(|length| vec![0; length]);
        for state in lengths.into_iter().chain([vec![2; length]]) {
            let table = beyond.clone();
            let task = Task { table, state };
            for kind in kinds(beyond[0]) {
                let mut call = task.call(kind);
                assert_eq!(both(&call), refused(&call, 17, 0), "{call}");
                if kind.has(Field::Index) {
                    call.index = u64::MAX;
                    assert_eq!(both(&call), refused(&call, 17, 0), "{call}");
                }
            }
        }
    }
}

/// 17, where the full call is refused with this number.
fn check_before(call: &Call, number: u8) {
    let full = Call {
        kind: call.kind.full(),
        ..call.clone()
    };
    let outcome = full.run(&REFERENCE).expect("inputs and canaries are whole");
    let behind = format!("refusal {number} ");
    assert!(outcome.answer.starts_with(&behind), "{}", outcome.answer);
    assert_eq!(both(call), refused(call, 17, 0), "{call}");
}

/// A move whose conditions fail (11), one whose result is out of range (12), and a value of a layer
/// above 10^12 (15), in tables beyond the limits.
#[test]
fn what_a_call_works_out_comes_behind() {
    let values = |values: [i32; 2]| {
        let mut state = values.map(i32::to_be_bytes).concat();
        state.resize(36, 0);
        state
    };
    for (moves, number) in [
        ("41 57 00 0001 43 00 00000001 46 01 00 00000000", 11),
        ("41 57 00 0001 46 01 00 000f4240 46 01 01 000f4240", 12),
    ] {
        let step = Call {
            table: bytes(&format!("54 00 09 02 {moves} 41 46 01 00 00000000 47 45")),
            state: values([0, 1_000_000]),
            room: 36,
            ..CallKind::RigStep.call()
        };
        check_before(&step, number);
    }
    let decide = Call {
        table: bytes(
            "4e 00 12 02; 41 57 00 03e8 46 00 02 00000000; 41 57 02 03e8 46 00 04 00000001; \
             47 43 00 00000001; 45",
        ),
        state: values([1_000_000, 0]),
        numbers: 100,
        ..CallKind::RigDecide.call()
    };
    check_before(&decide, 15);
    let plan = Call {
        kind: CallKind::RigPlan,
        room: 30,
        ..decide
    };
    check_before(&plan, 15);
}

/// A short output is 13 and a short memory 14 where the head is within the limits.
#[test]
fn the_rest_is_refused_as_without_the_limits() {
    let written = table(0x54, [1, 8, 16]);
    let normal = table(0x4E, [1, 16, 16]);
    let lent = |kind, table: &[u8], numbers, room| Call {
        numbers,
        room,
        ..roomy(kind, table, 33)
    };
    for (call, number) in [
        (lent(CallKind::RigNormalise, &written, 0, 9), 13),
        (lent(CallKind::RigStep, &written, 0, 32), 13),
        (lent(CallKind::RigDecide, &normal, 32, 0), 14),
        (lent(CallKind::RigPlan, &normal, 32, 9), 14),
        (lent(CallKind::RigCampaign, &written, 90, 9), 13),
    ] {
        assert_eq!(both(&call), refused(&call, number, 0), "{call}");
    }
    for kind in [CallKind::RigStep, CallKind::RigBlock] {
        let call = Call {
            index: 17,
            ..roomy(kind, &written, 33)
        };
        assert_eq!(both(&call), refused(&call, 10, 0), "{call}");
    }
}
