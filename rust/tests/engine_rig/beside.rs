//! The proved engine's calls with the rig's limits beside those without: within the limits they
//! give the same.

use campaign::call::{Buffers, Call, CallKind, Fill};
use campaign::generate::{calls_within_rig, Rng};
use campaign::proved::PROVED;
use campaign::reference::RIG;

/// How calls of tables that the rig takes went.
#[derive(Default)]
struct Counts {
    within: usize,
    /// With a longer layer memory than the rig uses.
    longer: usize,
    answered: usize,
}

/// Compares the rig's call with the full one, lent the numbers that the rig uses; those behind are
/// kept. Answers whether 17 does not refuse the call.
fn check(call: &Call, fill: Fill, counts: &mut Counts) -> bool {
    let before = Buffers::of(call, fill);
    let rig = call.run_over(&PROVED, before.clone()).expect(CANARIES);
    if rig.answer.starts_with("refusal 17 ") {
        return false;
    }
    let used = call.numbers.min(RIG.numbers);
    let full = Call {
        kind: call.kind.full(),
        numbers: used,
        ..call.clone()
    };
    let full = full.run_over(&PROVED, Buffers::of(&full, fill));
    let full = full.expect(CANARIES);
    assert_eq!(rig.layers()[used..], before.layers()[used..], "{call}");
    let within = RIG.read(&call.table).is_ok();
    counts.within += usize::from(within);
    counts.longer += usize::from(within && call.numbers > used);
    counts.answered += usize::from(!rig.answer.starts_with("refusal"));
    assert_eq!(rig.with_numbers(used), full, "{}: {call}", call.kind.name());
    true
}

const CANARIES: &str = "inputs and canaries are whole";

#[test]
fn calls_within_the_limits_are_the_full_ones() {
    let mut rng = Rng::new(821);
    let mut counts = Counts::default();
    for _ in 0..10_500 {
        for call in calls_within_rig(&mut rng, 16) {
            if !check(&call, Fill::Seeded(rng.next_u64()), &mut counts) {
                break;
            }
        }
    }
    let Counts {
        within,
        longer,
        answered,
    } = counts;
    println!("{within} within, {answered} answered, {longer} with more numbers");
    assert!(within >= 100_000, "{within} within only");
    assert!(answered > 40_000, "{answered} answered only");
    assert!(longer > 7_000, "{longer} with more numbers only");
}

/// The seven pairs are of one kind each.
#[test]
fn every_call_has_its_own_beside_it() {
    for kind in CallKind::RIG {
        assert_eq!(kind.full().rig(), Some(*kind));
        assert_eq!(kind.name(), format!("rig_{}", kind.full().name()));
    }
}
