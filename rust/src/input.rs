//! A call as bytes: every input of a fuzzer stands for one of the exported calls.
//!
//! | Byte | Meaning |
//! |---|---|
//! | 0 | which call |
//! | 1 | the block or move; FF is the largest number |
//! | 2, 3 | bytes of output |
//! | 4, 5 | numbers of layer memory; of `place`, bytes of the windows; of `check`, bytes of the list |
//! | 6, 7 | bytes for the normal form |
//! | 8 | bytes of the state |
//!
//! The state follows, then the table; of `check` the list stands between them; of `place` the windows,
//! then the durations. Bytes that are missing are 0.

use crate::call::{Call, CallKind, Field};

/// Outputs and layer memory are shorter than these.
pub const ROOM: usize = 8_192;
const NUMBERS: usize = 4_096;

/// The bytes before the state or the windows.
const START: usize = 9;

/// The call that an input stands for.
pub fn decode(input: &[u8]) -> Call {
    let at = |i: usize| input.get(i).copied().unwrap_or(0);
    let size = |i: usize| usize::from(u16::from_be_bytes([at(i), at(i + 1)]));
    let number = match at(1) {
        0xFF => u64::MAX,
        small => u64::from(small),
    };
    let (room, numbers, normal) = (size(2) % ROOM, size(4) % NUMBERS, size(6) % ROOM);
    let rest = input.get(START..).unwrap_or_default();
    let split = |at: usize| rest.split_at(rest.len().min(at));
    let kind = CallKind::EXPORTED[usize::from(at(0)) % CallKind::EXPORTED.len()];
    if kind == CallKind::Place {
        let (windows, durations) = split(numbers);
        return Call {
            windows: windows.to_vec(),
            durations: durations.to_vec(),
            room,
            ..kind.call()
        };
    }
    let (state, behind) = split(usize::from(at(8)));
    let listed = match kind {
        CallKind::Check => numbers.min(behind.len()),
        _ => 0,
    };
    let (list, table) = behind.split_at(listed);
    let given = |field, size| if kind.has(field) { size } else { 0 };
    Call {
        table: table.to_vec(),
        state: state[..given(Field::State, state.len())].to_vec(),
        list: list.to_vec(),
        index: if kind.has(Field::Index) { number } else { 0 },
        normal: given(Field::Normal, normal),
        numbers: given(Field::Numbers, numbers),
        room: given(Field::Room, room),
        ..kind.call()
    }
}

/// An input that stands for the call, if there is one.
pub fn encode(call: &Call) -> Option<Vec<u8>> {
    let mut input = vec![call.kind as u8, call.index.min(0xFF) as u8];
    let numbers = match call.kind {
        CallKind::Place => call.windows.len(),
        CallKind::Check => call.list.len(),
        _ => call.numbers,
    };
    for size in [call.room, numbers, call.normal] {
        input.extend((size as u16).to_be_bytes());
    }
    input.push(call.state.len() as u8);
    input.extend([&call.state[..], &call.list, &call.table].concat());
    input.extend([&call.windows[..], &call.durations].concat());
    (decode(&input) == *call).then_some(input)
}
