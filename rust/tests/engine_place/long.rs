//! Long lists: placed as a placement is defined and as the reference places them, in linear time.

use super::ENGINE;
use crate::common::closure::check_long;
use campaign::engine::Place;
use campaign::generate::{long_day, Day, Rng};
use campaign::tally::Tally;
use campaign::{proved, reference};
use std::time::Instant;

/// Compares a day with the definition of a placement; answers how many entries have one.
fn placed(day: &Day) -> usize {
    check_long(day, proved::place).unwrap_or_else(|fault| panic!("{fault}"))
}

#[test]
fn entries_by_the_hundred_thousand() {
    let mut rng = Rng::new(921);
    let mut tally = Tally::new(ENGINE, 922);
    for (windows, entries) in [(1, 100_000), (64, 100_000), (64, 200_000), (7, 400_000)] {
        let mut day = long_day(&mut rng, windows, entries);
        assert_eq!(placed(&day), entries);
        tally.check(&day.place(day.length()));
        tally.check(&day.place(day.length() - 1));
        day.durations.extend(vec![1; 1_000_000]);
        let without = placed(&day);
        assert!(entries < without && without < 1_000_000, "{without}");
        tally.check(&day.place(day.length()));
        day.durations[entries] = 0;
        tally.check(&day.place(day.length()));
    }
    tally.expect(16, &[]);
    assert_eq!(tally.counts()[..1], [4]);
}

/// Seconds of the fastest of some calls with so many entries.
fn seconds(place: Place, entries: usize) -> f64 {
    let day = Day {
        windows: vec![(0, 1_000_000)],
        durations: vec![1; entries],
    };
    let call = day.place(day.length());
    let mut out = vec![0; call.room];
    let times = (0..7).map(|_| {
        let start = Instant::now();
        let placed = place(&call.windows, &call.durations, &mut out);
        assert_eq!(placed.map(|placed| placed.end), Ok(entries as u64));
        start.elapsed()
    });
    times.min().expect("some calls").as_secs_f64()
}

/// How much longer sixteen times as many entries take: 16 times in linear time, 256 times in quadratic.
fn growth(place: Place, entries: usize) -> f64 {
    seconds(place, 16 * entries) / seconds(place, entries)
}

#[test]
fn time_is_linear() {
    let growth = growth(proved::place, 50_000);
    println!("16 times as many entries take {growth:.1} times as long");
    assert!(growth < 64.0, "{growth}");
}

/// A call that begins anew with each entry.
#[test]
fn time_that_is_not_linear_is_found() {
    let growth = growth(
        |windows, durations, out| {
            for entries in 1..durations.len() / 4 {
                reference::place(windows, &durations[..4 * entries], out)?;
            }
            reference::place(windows, durations, out)
        },
        200,
    );
    assert!(growth > 64.0, "{growth}");
}
