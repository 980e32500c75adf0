//! Closure days placed by the reference: small days with all their placements, and long lists; days by
//! hand, placed by the proved engine too.

mod cases;
mod impostors;

use crate::common::closure::{check_long, check_small_days};
use campaign::generate::{Day, Rng};
use campaign::reference::place;

#[test]
fn small_days_with_all_their_placements() {
    check_small_days(place);
}

/// 64 windows, a third of them touching the one before, and entries up to the longest.
fn long_day(rng: &mut Rng, entries: usize, longest: usize) -> Day {
    let (mut windows, mut shutting) = (Vec::new(), 0);
    for _ in 0..64 {
        let gap = if rng.chance(1, 3) {
            0
        } else {
            rng.below(3_000)
        };
        let opening = shutting + gap as u64;
        shutting = opening + 1 + rng.below(12_000) as u64;
        windows.push((opening, shutting));
    }
    let durations = (0..entries).map(|_| 1 + rng.below(longest) as u64);
    let durations = durations.collect();
    Day { windows, durations }
}

#[test]
fn long_lists() {
    let mut rng = Rng::new(801);
    let (mut placed, mut refused) = (0, 0);
    for (entries, longest) in [(100_000, 3), (100_000, 9), (2_000, 1_440), (700, 1_000)] {
        for _ in 0..5 {
            let day = long_day(&mut rng, entries, longest);
            let before = check_long(&day, place).unwrap_or_else(|fault| panic!("{fault}"));
            placed += usize::from(before == entries);
            refused += usize::from(before < entries);
            assert!(before > 300, "{before} entries of {entries}");
        }
    }
    assert!(placed >= 5 && refused >= 5, "{placed} {refused}");
}
