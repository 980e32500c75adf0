//! The calls that are kept, from fuzzing and some by hand, on the proved engine with its memories
//! behind fences.

use campaign::call::{Call, CallKind, Field};
use campaign::corpus::kept;
use campaign::engine::REFERENCE;
use campaign::fenced::Fenced;
use campaign::harness::compare;
use campaign::impostors::{check_found, FAULTS};
use campaign::proved::PROVED;
use campaign::tally::Tally;

/// The kept calls, and each with more memory and a longer output, or none.
fn calls() -> Vec<Call> {
    let kept = kept().into_iter();
    let all = kept.flat_map(|call| {
        let roomier = with_more_memory(call.clone(), |room| room + 1_000);
        let shorter = with_more_memory(call.clone(), |_| 0);
        [call, roomier, shorter]
    });
    all.collect()
}

fn with_more_memory(mut call: Call, output: fn(usize) -> usize) -> Call {
    for field in call.kind.fields() {
        match field {
            Field::Normal => call.normal += 1_000,
            Field::Numbers => call.numbers += 1_000,
            Field::Room => call.room = output(call.room),
            Field::Table | Field::State | Field::List => {}
            Field::Windows | Field::Durations | Field::Index => {}
        }
    }
    call
}

#[test]
fn kept_calls_are_answered_alike() {
    let engine = Fenced(PROVED);
    let mut tally = Tally::new(&engine, 503);
    for call in calls() {
        tally.check(&call);
    }
    tally.expect(400, &[0]);
    let refusals = &tally.counts()[2..];
    assert!(refusals.iter().all(|count| *count > 0), "{refusals:?}");
}

#[test]
fn every_call_is_kept() {
    let kept = kept();
    for kind in CallKind::EXPORTED {
        let count = kept.iter().filter(|call| call.kind == *kind).count();
        assert!(count >= 10, "{}: {count}", kind.name());
    }
}

#[test]
fn impostors_are_found() {
    check_found(CallKind::EXPORTED, |kind, engine| {
        let mut calls = calls().into_iter().filter(|call| call.kind == kind);
        calls.any(|call| compare(&call, &REFERENCE, engine).is_err())
    });
    for impostor in &FAULTS {
        let mut calls = calls().into_iter();
        let found = calls.any(|call| compare(&call, &REFERENCE, &impostor.engine).is_err());
        assert!(found, "{}", impostor.trick);
    }
}
