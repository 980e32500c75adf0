//! Faults in where entries are placed.

use super::impostor;
use super::rules::{earliest, written, Rules, Span, RULES};
use crate::answer::{Reason, Refusal};
use crate::generate::joined;
use crate::impostors::Impostor;

/// An engine that places sound entries in sound windows in a way of its own.
macro_rules! placing {
    ($trick:literal, $starts:expr) => {
        impostor($trick, |windows, durations, out| {
            let windows = RULES.windows(windows)?;
            let durations = RULES.durations(durations)?;
            let starts: fn(&[Span], &[i64]) -> Result<Vec<i64>, Refusal> = $starts;
            written(&starts(&windows, &durations)?, &durations, out)
        })
    };
}

pub const PLACING: [Impostor; 11] = [
    ruled!("the shutting minute is outside", start: |end, minutes, (opening, shutting)| {
        earliest(end, minutes, (opening, shutting - 1))
    }),
    ruled!("an entry may end a minute late", start: |end, minutes, (opening, shutting)| {
        earliest(end, minutes, (opening, shutting + 1))
    }),
    ruled!("an entry need only start in a window", start: |end, _, window| {
        earliest(end, 1, window)
    }),
    ruled!("every entry starts at an opening", start: |_, minutes, window| {
        earliest(0, minutes, window)
    }),
    ruled!("a minute lies between entries", start: |end, minutes, window| {
        earliest(end + end.min(1), minutes, window)
    }),
    ruled!("a window takes one entry", next: 1),
    ruled!("one window is passed over at most", tries: 2),
    placing!("entries stay in one window", |windows, durations| {
        RULES.starts(&windows[..windows.len().min(1)], durations)
    }),
    placing!(
        "an entry reaches across touching windows",
        |windows, durations| { RULES.starts(&joined(windows), durations) }
    ),
    placing!("an entry goes back to a window passed over", going_back),
    placing!("entries start as late as they can", latest),
];

/// Each entry in the first window with room for it, wherever the one before is.
fn going_back(windows: &[Span], durations: &[i64]) -> Result<Vec<i64>, Refusal> {
    let mut left = windows.to_vec();
    let entries = durations.iter().enumerate();
    let starts = entries.map(|(entry, minutes)| {
        let found = left.iter_mut().find_map(|window| {
            let start = earliest(0, *minutes, *window)?;
            window.0 += minutes;
            Some(start)
        });
        found.ok_or(Reason::NoPlacement.at(entry))
    });
    starts.collect()
}

/// From the last entry on: the earliest placement of a day whose minutes run backwards.
fn latest(windows: &[Span], durations: &[i64]) -> Result<Vec<i64>, Refusal> {
    RULES.starts(windows, durations)?;
    let last = RULES.last;
    let backwards = windows.iter().rev();
    let backwards = backwards.map(|(opening, shutting)| (last - shutting, last - opening));
    let windows: Vec<Span> = backwards.collect();
    let durations: Vec<i64> = durations.iter().rev().copied().collect();
    let starts = RULES.starts(&windows, &durations)?;
    let entries = starts.iter().zip(&durations).rev();
    let starts = entries.map(|(start, minutes)| last - start - minutes);
    Ok(starts.collect())
}
