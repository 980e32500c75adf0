//! The rig's layer memory: 2,048 numbers at most are used, and those behind are kept.

use super::CALLS;
use campaign::answer::{Decision, Reason, Refusal};
use campaign::engine::{Calls, Engine, REFERENCE};
use campaign::generate::{deep, Rng, Sizes, Task};
use campaign::guarded::Guarded;
use campaign::proved::PROVED;
use campaign::reference::table::Kind;

/// The first deep task of a kind that needs exactly so many numbers.
fn needing(kind: Kind, numbers: usize) -> Task {
    let mut rng = Rng::new(831);
    let mut tasks = (0..1_000).map(|_| deep(&mut rng, kind));
    let task = tasks.find(|task| Sizes::of(&task.in_normal_form()).memory() == numbers);
    task.expect("such a task comes up").in_normal_form()
}

/// What both engines decide with so many numbers, and what they leave there.
fn decided(
    engines: [Calls; 2],
    task: &Task,
    numbers: usize,
) -> (Result<Decision, Refusal>, Vec<i64>) {
    let [one, other] = engines.map(|engine| {
        let mut layers = Guarded::filled(numbers, before);
        let answer = engine.decide(&task.table, &task.state, layers.lend());
        layers.check("memory").expect("all canaries are whole");
        (answer, layers.lent().to_vec())
    });
    assert_eq!(one, other);
    one
}

/// What a number holds before a call.
fn before(i: usize) -> i64 {
    -5_000 - i as i64
}

fn rigs() -> [Calls; 2] {
    [REFERENCE.on_rig(), CALLS.on_rig()]
}

fn is_kept(numbers: &[i64], from: usize) -> bool {
    (from..)
        .zip(&numbers[from..])
        .all(|(i, number)| *number == before(i))
}

/// A task that needs 2,048 numbers: fewer are too few for its last layer, and more are kept.
#[test]
fn just_2_048_numbers_suffice() {
    for kind in [Kind::Written, Kind::Normal] {
        let task = needing(kind, 2_048);
        let (answer, exact) = decided(rigs(), &task, 2_048);
        let last = answer.expect("just enough numbers").layers as usize;
        assert_eq!(
            decided([REFERENCE, PROVED], &task, 2_048),
            (answer, exact.clone())
        );
        for numbers in [2_049, 2_050, 3_000, 10_000] {
            let (with_more, layers) = decided(rigs(), &task, numbers);
            assert_eq!(with_more, answer);
            assert_eq!(layers[..2_048], exact);
            assert!(is_kept(&layers, 2_048));
        }
        let (short, layers) = decided(rigs(), &task, 2_047);
        assert_eq!(short, Err(Reason::MemoryShort.at(last)));
        assert!(is_kept(&layers, 2_048 - 16));
    }
}

/// A task that needs 2,049 numbers: its last layer has no room on the rig, however many are lent.
#[test]
fn the_2_049th_number_is_not_used() {
    for kind in [Kind::Written, Kind::Normal] {
        let task = needing(kind, 2_049);
        let (answer, _) = decided([REFERENCE, PROVED], &task, 2_049);
        let last = answer.expect("enough for the full calls").layers as usize;
        for numbers in [2_048, 2_049, 3_000, 10_000] {
            let (short, layers) = decided(rigs(), &task, numbers);
            assert_eq!(short, Err(Reason::MemoryShort.at(last)));
            assert!(is_kept(&layers, 2_049 - 16));
            let full = decided([REFERENCE, PROVED], &task, 2_048);
            assert_eq!((short, &layers[..2_048]), (full.0, &full.1[..]));
        }
    }
}

/// A longer layer memory is not refused, and an empty one is 14 at layer 0.
#[test]
fn any_length_may_be_lent() {
    let task = campaign::generate::m1().normal();
    let (answer, _) = decided(rigs(), &task, 16);
    for numbers in [17, 2_047, 2_048, 2_049, 100_000] {
        let (other, layers) = decided(rigs(), &task, numbers);
        assert_eq!(other, answer);
        assert!(is_kept(&layers, 16));
    }
    for numbers in [0, 7] {
        let (short, layers) = decided(rigs(), &task, numbers);
        assert_eq!(short, Err(Reason::MemoryShort.at(0)));
        assert!(is_kept(&layers, 0));
    }
}
