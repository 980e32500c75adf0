//! The proved engine's calls with the rig's limits, over their C functions.

mod beside;
mod cases;
mod meaning;
mod memory;

use campaign::call::CallKind;
use campaign::engine::{Calls, Engine};
use campaign::fenced::Fenced;
use campaign::generate::{damage, dense, full_length, rig_calls, Rng};
use campaign::harness::check_lines;
use campaign::proved::PROVED_RIG;
use campaign::reference::table::Kind;
use campaign::tally::Tally;

const CALLS: Calls = Calls {
    rig: Some(&PROVED_RIG),
    ..Calls::NONE
};

const ENGINE: &dyn Engine = &CALLS;

#[test]
fn recorded_answers() {
    for kind in CallKind::RIG {
        check_lines(ENGINE, *kind);
    }
}

/// The least shares of 150,000 calls, about 70 % of what is found: each call, counts at the limits and
/// next to them, and layer memories around 2,048 numbers.
const COUNTS: [(&str, usize); 18] = [
    ("rig_read", 10_000),
    ("rig_block", 15_000),
    ("rig_normalise", 15_000),
    ("rig_step", 15_000),
    ("rig_decide", 15_000),
    ("rig_plan", 30_000),
    ("rig_campaign", 15_000),
    ("16 moves", 7_500),
    ("8 variables", 8_500),
    ("120 propositions", 3_400),
    ("17 moves alone", 5_300),
    ("9 variables alone", 5_300),
    ("an answer with more lent", 1_900),
    ("14 with more lent", 700),
    ("14 where the full call answers", 600),
    ("2,047 needed", 400),
    ("2,048 needed", 400),
    ("2,049 needed", 350),
];

/// The least shares of refusals before 17 and behind it.
const ORDER: [(&str, usize); 17] = [
    ("2 before 17", 250),
    ("3 before 17", 2_400),
    ("the wrong head before 17", 1_900),
    ("4 before 17", 2_600),
    ("5 before 17", 1_600),
    ("16 before 17", 5_000),
    ("6 before 17", 600),
    ("7 before 17", 250),
    ("17 before 8", 1_400),
    ("17 before 9", 1_100),
    ("17 before 10", 1_400),
    ("17 before 11", 400),
    ("17 before 12", 200),
    ("17 before 15", 900),
    ("17 before 14", 6_000),
    ("17 before 13", 3_800),
    ("17 before an answer", 19_000),
];

#[test]
fn tables_around_the_limits() {
    let mut rng = Rng::new(801);
    let mut tally = Tally::new(ENGINE, 802);
    for _ in 0..15_000 {
        for call in rig_calls(&mut rng, 10) {
            tally.check(&call);
        }
    }
    let every_refusal: Vec<usize> = (0..18).filter(|number| *number != 1).collect();
    tally.expect(150_000, &every_refusal);
    tally.rig().expect(&[&COUNTS[..], &ORDER].concat());
}

/// Tables and states damaged, memories behind fences.
#[test]
fn damaged_tables() {
    let mut rng = Rng::new(803);
    let engine = Fenced(CALLS);
    let mut tally = Tally::new(&engine, 804);
    for _ in 0..1_500 {
        for mut call in rig_calls(&mut rng, 10) {
            damage(&mut rng, &mut call);
            tally.check(&call);
        }
    }
    tally.expect(15_000, &[0, 2, 3, 4, 5, 6, 7, 8, 9, 13, 14, 16, 17]);
    tally.rig().expect(&[
        ("3 before 17", 1_000),
        ("4 before 17", 1_000),
        ("5 before 17", 300),
        ("6 before 17", 80),
        ("16 before 17", 200),
        ("17 before 8", 200),
        ("17 before 9", 100),
    ]);
}

/// Tables as long as they may be and longer, beyond the rig's limits and within.
#[test]
fn lengths_at_the_limits() {
    let mut rng = Rng::new(805);
    let mut tally = Tally::new(ENGINE, 806);
    for kind in [Kind::Written, Kind::Normal] {
        for length in [32_000, 32_001, 64_000, 64_001] {
            let [beyond, within] = [dense, full_length].map(|make| make(&mut rng, kind, length));
            for task in [beyond, within] {
                for kind in CallKind::RIG {
                    tally.check(&task.call(*kind));
                }
            }
        }
    }
    tally.expect(100, &[0, 1, 3, 14, 17]);
    tally.rig().expect(&[("1 before 17", 20)]);
}
