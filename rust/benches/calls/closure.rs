//! Closure days: a small one, and long lists.

use crate::engines::PROVED;
use crate::timing::{compare, micros, Times};
use campaign::engine::{Engine, REFERENCE};
use campaign::generate::{long_day, Day, Rng};

/// Three windows of a day, the second of which is passed over.
fn small_day() -> Day {
    Day {
        windows: vec![(480, 720), (720, 750), (780, 1_020)],
        durations: vec![60, 45, 90, 30, 60, 15, 90, 30],
    }
}

/// The time by the number of entries, in 64 windows and in one.
pub fn table() {
    println!("\nplace: entries  windows   engine µs  reference µs  ratio  engine ns an entry");
    let mut rng = Rng::new(14);
    let sizes = [
        (64, 1_000),
        (64, 10_000),
        (64, 100_000),
        (64, 400_000),
        (1, 100_000),
    ];
    let long = sizes.map(|(windows, entries)| long_day(&mut rng, windows, entries));
    for day in [small_day()].iter().chain(&long) {
        row(day);
    }
}

fn row(day: &Day) {
    let times = placed(day);
    let entries = day.durations.len();
    println!(
        "{entries:14} {:8} {:>11} {:>13} {:>6.2} {:19.2}",
        day.windows.len(),
        micros(times.engine),
        micros(times.reference),
        times.engine / times.reference,
        times.engine * 1e9 / entries as f64
    );
}

/// With an output of just the length of the starts.
fn placed(day: &Day) -> Times {
    let call = day.place(day.length());
    let (windows, durations) = (&call.windows, &call.durations);
    let [mut out, mut others] = [vec![0; call.room], vec![0; call.room]];
    assert!(
        PROVED.place(windows, durations, &mut out).is_ok(),
        "all entries have room"
    );
    compare(
        || PROVED.place(windows, durations, &mut out).is_ok(),
        || REFERENCE.place(windows, durations, &mut others).is_ok(),
    )
}
