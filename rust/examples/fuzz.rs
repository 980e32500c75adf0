//! What a coverage-guided fuzzer runs on each input: the proved engine, its memories behind
//! fences, compared with the reference. `./fuzz` in the repository's root builds and runs it.

use campaign::call::{Call, CallKind, Fill};
use campaign::engine::REFERENCE;
use campaign::fenced::Fenced;
use campaign::generate::{
    alter, blocked, call, check_calls, damage, helpful, place_call, relisted, rewritten_length,
    rig_calls, stored, Day, Rng, Task,
};
use campaign::harness::compare_over;
use campaign::input::{decode, encode};
use campaign::proved::PROVED;
use std::ffi::{c_int, c_uint};
use std::process::abort;
use std::slice;

extern "C" {
    /// libFuzzer's own change of an input in place; answers its new length.
    fn LLVMFuzzerMutate(input: *mut u8, length: usize, room: usize) -> usize;
}

/// Compares one input; a difference is shown and ends the run.
///
/// # Safety
/// libFuzzer lends so many bytes.
#[no_mangle]
pub unsafe extern "C" fn LLVMFuzzerTestOneInput(input: *const u8, length: usize) -> c_int {
    if length > 0 {
        check(slice::from_raw_parts(input, length));
    }
    0
}

fn check(input: &[u8]) {
    let fill = Fill::Seeded(input.len() as u64);
    if let Err(difference) = compare_over(&decode(input), fill, &REFERENCE, &Fenced(PROVED)) {
        eprintln!("{difference}\n  before: {fill:?}");
        abort();
    }
}

/// Changes an input in place and answers its new length: by the call that it stands for where
/// that can be had, otherwise by its bytes.
///
/// # Safety
/// libFuzzer lends `room` bytes, of which the first `length` are the input.
#[no_mangle]
pub unsafe extern "C" fn LLVMFuzzerCustomMutator(
    input: *mut u8,
    length: usize,
    room: usize,
    seed: c_uint,
) -> usize {
    let changed = changed(slice::from_raw_parts(input, length), seed);
    match changed.filter(|changed| changed.len() <= room) {
        Some(changed) => {
            slice::from_raw_parts_mut(input, changed.len()).copy_from_slice(&changed);
            changed.len()
        }
        None => LLVMFuzzerMutate(input, length, room),
    }
}

/// Now and then another call, the same one with damaged inputs, or one of a changed day or task.
fn changed(input: &[u8], seed: u32) -> Option<Vec<u8>> {
    let mut rng = Rng::new(u64::from(seed));
    let mut call = decode(input);
    encode(&match rng.below(16) {
        0 => another(&mut rng),
        1..=4 => {
            damage(&mut rng, &mut call);
            call
        }
        5..=8 if call.kind == CallKind::Place => day_changed(&mut rng, &call),
        5..=8 => task_changed(&mut rng, call),
        _ => return None,
    })
}

fn another(rng: &mut Rng) -> Call {
    match rng.below(5) {
        0 => rig_calls(rng, 1).remove(0),
        1 => place_call(rng),
        2 => check_calls(rng, 1).remove(0),
        _ => call(rng),
    }
}

/// The same closure day with some minutes altered, and an output around the length of its starts.
fn day_changed(rng: &mut Rng, call: &Call) -> Call {
    let mut day = Day::of(call);
    for _ in 0..=rng.below(3) {
        alter(rng, &mut day);
    }
    let room = day.length() + rng.below(4);
    day.place(room.saturating_sub(1))
}

/// A `blocking` of the same task with a goal that mostly cannot be reached, a `rewrite` of its table with
/// moves that do nothing, a `check` of it with another list and goal, a `plan` or `campaign` of it with
/// more moves that help at layer 0 or nearly do, or the same call with the rig's limits, or without them.
fn task_changed(rng: &mut Rng, call: Call) -> Call {
    let kind = call.kind.rig().unwrap_or(call.kind.full());
    let which = rng.below(5);
    if which == 4 {
        return Call { kind, ..call };
    }
    let Call { table, state, .. } = call;
    let task = Task { table, state };
    match which {
        0 => blocked(rng, &task).blocking(rng.below(200)),
        1 => {
            let task = stored(rng, &task);
            let room = rewritten_length(&task.table) + rng.below(4);
            task.rewrite(room.saturating_sub(1))
        }
        2 => relisted(rng, &task),
        _ => {
            let task = helpful(rng, &task);
            let [numbers, room] = [200, 100].map(|most| rng.below(most));
            match task.table.first() {
                Some(0x54) => task.campaign(1_000, numbers, room),
                _ => task.plan(numbers, room),
            }
        }
    }
}
