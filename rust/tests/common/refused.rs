//! Calls of a table with room for every result, and the whole outcome of a refused one.

use campaign::call::{Call, CallKind, Field};
use campaign::hex::hex;

/// The calls that take a written table, and those that take a normal one.
pub const WRITTEN: [CallKind; 8] = [
    CallKind::Read,
    CallKind::Block,
    CallKind::Normalise,
    CallKind::Step,
    CallKind::Campaign,
    CallKind::Pddl,
    CallKind::Check,
    CallKind::Listing,
];
pub const NORMAL: [CallKind; 5] = [
    CallKind::Read,
    CallKind::Block,
    CallKind::Decide,
    CallKind::Plan,
    CallKind::Blocking,
];

/// A call of a table with a state of 0 bytes.
pub fn roomy(kind: CallKind, table: &[u8], state: usize) -> Call {
    let given = |field, size| if kind.has(field) { size } else { 0 };
    Call {
        table: table.to_vec(),
        state: vec![0; given(Field::State, state)],
        normal: given(Field::Normal, 60),
        numbers: given(Field::Numbers, 20),
        room: given(Field::Room, 600),
        ..kind.call()
    }
}

/// The outcome of such a call where the table is refused: every memory is as it was.
pub fn refused(call: &Call, number: u8, place: usize) -> String {
    let refusal = format!("refusal {number} place {place}");
    let answer = match call.kind.full() {
        CallKind::Campaign => format!("{refusal} decision {refusal}"),
        CallKind::Listing => format!("{refusal}\\n"),
        _ => refusal,
    };
    let numbers = (0..call.numbers).map(|i| format!(" {}", -1_000 - i as i64));
    let numbers = match call.numbers {
        0 => " -".into(),
        _ => numbers.collect(),
    };
    let lent = [
        (Field::Normal, " normal ", hex(&vec![0xA5; call.normal])),
        (Field::Room, " out ", hex(&vec![0xA5; call.room])),
        (Field::Numbers, " memory", numbers),
    ];
    let lent = lent.into_iter().filter(|(field, ..)| call.kind.has(*field));
    let lent: String = lent
        .map(|(_, name, held)| format!("{name}{held}"))
        .collect();
    format!("{answer}{lent}")
}
