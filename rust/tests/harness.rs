//! The harness itself: calls as a fuzzer's inputs, fences, tallies.

mod shares;

use campaign::answer::{Checked, Fault};
use campaign::call::{Call, CallKind};
use campaign::engine::{Calls, Engine, REFERENCE};
use campaign::fenced::Fenced;
use campaign::generate::{
    call, check_calls, dense, long_schedule, long_stored, m1, place_call, random_bytes, rig_calls,
    Day, Rng,
};
use campaign::harness::compare;
use campaign::impostors::{
    check_found, Impostor, FAULTS, HONEST, LIMITS, LONG_LISTS, LONG_SCHEDULES, LONG_TABLES,
};
use campaign::input::{decode, encode, ROOM};
use campaign::reference::table::Kind;
use campaign::tally::Tally;

/// Generated calls, as many with the rig's limits, and some of closure days and of schedules.
fn calls(rng: &mut Rng, count: usize) -> Vec<Call> {
    let mut calls: Vec<Call> = (0..count).map(|_| call(rng)).collect();
    calls.extend((0..count / 4).flat_map(|_| rig_calls(rng, 4)));
    calls.extend((0..count / 10).map(|_| place_call(rng)));
    calls.extend((0..count / 50).flat_map(|_| check_calls(rng, 10)));
    calls
}

#[test]
fn calls_are_encoded_and_decoded() {
    let mut rng = Rng::new(501);
    let mut encoded = [0; CallKind::ALL.len()];
    for call in calls(&mut rng, 3_000) {
        if let Some(input) = encode(&call) {
            assert_eq!(decode(&input), call);
            encoded[call.kind as usize] += 1;
        }
    }
    let (exported, listing) = encoded.split_at(CallKind::EXPORTED.len());
    assert!(exported.iter().all(|count| *count > 100), "{encoded:?}");
    assert_eq!(listing, [0]);
}

#[test]
fn every_input_is_a_call() {
    let mut rng = Rng::new(502);
    for _ in 0..3_000 {
        let call = decode(&random_bytes(&mut rng, 20));
        let input = encode(&call).expect("a decoded call is encoded");
        assert_eq!(decode(&input), call);
    }
}

#[test]
fn calls_that_no_input_stands_for() {
    let table = vec![0x45];
    let state = vec![0; 256];
    let wide = Call {
        table: table.clone(),
        room: ROOM,
        ..CallKind::Normalise.call()
    };
    let far = Call {
        table: table.clone(),
        index: 0xFF,
        ..CallKind::Block.call()
    };
    let stated = Call {
        table,
        state,
        ..CallKind::Decide.call()
    };
    let listed = Call {
        list: vec![0; 4_096],
        ..CallKind::Check.call()
    };
    for call in [wide, far, stated, listed] {
        assert_eq!(encode(&call), None, "{call}");
    }
}

#[test]
fn blocks_are_parts_of_the_callers_table() {
    let table = m1().table;
    for b in 0..5 {
        let [one, other] = [
            REFERENCE.block(&table, b),
            Fenced(REFERENCE).block(&table, b),
        ];
        assert_eq!(
            one.map(<[u8]>::as_ptr_range),
            other.map(<[u8]>::as_ptr_range)
        );
    }
}

/// As comparisons with generated calls have to.
#[test]
fn generated_calls_find_impostors() {
    let mut rng = Rng::new(504);
    let calls = calls(&mut rng, 30_000);
    check_found(&CallKind::ALL, |kind, engine| {
        let mut calls = calls.iter().filter(|call| call.kind == kind);
        calls.any(|call| compare(call, &REFERENCE, engine).is_err())
    });
}

/// As comparisons of long tables have to.
#[test]
fn tables_at_the_limits_find_impostors() {
    let mut rng = Rng::new(505);
    let lengths = [32_000, 32_001, 64_000, 64_001];
    let kinds = [Kind::Written, Kind::Normal].into_iter();
    let tasks = kinds.flat_map(|kind| lengths.map(|length| (kind, length)));
    let tasks = tasks.map(|(kind, length)| long_stored(&mut rng, kind, length));
    let calls: Vec<Call> = tasks.map(|task| task.rewrite(64_000)).collect();
    check_impostors(&calls, &LIMITS);
    let tasks = lengths.map(|length| dense(&mut rng, Kind::Written, length));
    let calls = tasks.map(|task| task.check(&[0], 200));
    check_impostors(&calls, &LONG_TABLES);
}

/// As comparisons of long lists have to.
#[test]
fn long_lists_find_impostors() {
    let list = |entries: usize| Day {
        windows: vec![(0, 68_000)],
        durations: vec![1; entries],
    };
    let mut wrong = list(70_000);
    wrong.durations[69_000] = 0;
    let calls = [list(68_000), list(70_000), wrong].map(|day| day.place(day.length()));
    check_impostors(&calls, &LONG_LISTS);
}

/// As comparisons of schedules have to, of long ones the second.
#[test]
fn schedules_find_impostors() {
    let mut rng = Rng::new(506);
    let calls: Vec<Call> = (0..300).flat_map(|_| check_calls(&mut rng, 10)).collect();
    check_impostors(&calls, &FAULTS);
    let (task, mut list) = long_schedule(&mut rng, 70_000);
    let whole = task.check(&list, 14);
    list[69_000] = 3;
    let cut = Call {
        list: list[..69_001].to_vec(),
        ..whole.clone()
    };
    check_impostors(&[whole, cut], &LONG_SCHEDULES);
}

/// Fails unless a call shows each of these engines, and none the honest one.
fn check_impostors(calls: &[Call], impostors: &[Impostor]) {
    let found = |engine: &dyn Engine| {
        let mut calls = calls.iter();
        calls.any(|call| compare(call, &REFERENCE, engine).is_err())
    };
    assert!(!found(&HONEST));
    for impostor in impostors {
        assert!(found(&impostor.engine), "{}", impostor.trick);
    }
}

#[test]
#[should_panic(expected = "540000004745")]
fn a_difference_shows_the_call() {
    let call = Call {
        table: vec![0x54, 0, 0, 0, 0x47, 0x45],
        ..CallKind::Read.call()
    };
    Tally::new(&Calls::NONE, 1).check(&call);
}

/// The reason of an index is no part of a recorded outcome, but of a comparison.
#[test]
fn another_fault_of_an_entry_is_a_difference() {
    let call = m1().check(&[3], 9);
    let other = Calls {
        check: |_, _, _, _| {
            let (index, fault) = (0, Fault::NotAllowed);
            Ok(Checked::Fails { index, fault })
        },
        ..REFERENCE
    };
    let [one, two] = [&REFERENCE, &other].map(|engine| call.run(engine).expect("an outcome"));
    assert_eq!(one.to_string(), two.to_string());
    let difference = compare(&call, &REFERENCE, &other).expect_err("the faults differ");
    assert!(difference.expected.ends_with(" fault 10"), "{difference}");
    assert!(difference.got.ends_with(" fault 11"), "{difference}");
}
