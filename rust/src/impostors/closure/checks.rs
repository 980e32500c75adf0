//! Faults in the checks of windows and durations, and in the order of all checks.

use super::impostor;
use super::rules::{short, sound, written, Rules, RULES};
use crate::answer::{Reason, Refusal};
use crate::impostors::Impostor;
use crate::reference::place;

/// In single windows and durations.
pub const CHECKS: [Impostor; 20] = [
    ruled!("the 64th window is refused", windows: 63),
    ruled!("a 65th window is taken", windows: 65),
    ruled!("minute 1,000,001 is taken", last: 1_000_001),
    ruled!("minute 1,000,000 is refused", last: 999_999),
    ruled!("1,441 minutes are taken", minutes: (1, 1_441)),
    ruled!("1,440 minutes are refused", minutes: (1, 1_439)),
    ruled!("0 minutes are taken", minutes: (0, 1_440)),
    ruled!("1 minute is refused", minutes: (2, 1_440)),
    ruled!("minutes are signed", minute: |four| i32::from_be_bytes(four).into()),
    ruled!("minutes are little-endian", minute: |four| u32::from_le_bytes(four).into()),
    ruled!("a minute has three bytes", minute: |[_, rest @ ..]| low(rest)),
    ruled!("a minute has two bytes", minute: |[_, _, rest @ ..]| low(rest)),
    ruled!("touching windows are refused", follows: |before, window| before.1 < window.0),
    ruled!("windows may overlap by a minute", follows: |before, window| before.1 <= window.0 + 1),
    ruled!("windows may overlap", follows: |before, window| before.0 < window.0),
    ruled!("windows have any order", follows: |_, _| true),
    ruled!("a window may have no minutes", lasts: |(opening, shutting)| opening <= shutting),
    ruled!("a window may shut before it opens", lasts: |_| true),
    ruled!("a cut window is left out", forgives: [true, false]),
    ruled!("a cut duration is left out", forgives: [false, true]),
];

/// A minute with these last bytes.
fn low<const N: usize>(bytes: [u8; N]) -> i64 {
    let add = |minute, byte: &u8| minute * 256 + i64::from(*byte);
    bytes.iter().fold(0, add)
}

/// In which check comes first, and whether each is made.
pub const ORDER: [Impostor; 11] = [
    impostor("18 is a duration's first", |windows, durations, out| {
        RULES.durations(durations)?;
        place(windows, durations, out)
    }),
    impostor("a cut window comes first", |windows, durations, out| {
        cut(windows, 8)?;
        place(windows, durations, out)
    }),
    impostor("a cut duration comes first", |windows, durations, out| {
        RULES.windows(windows)?;
        cut(durations, 4)?;
        place(windows, durations, out)
    }),
    impostor("13 comes before 18", |windows, durations, out| {
        short(durations, out)?;
        place(windows, durations, out)
    }),
    impostor(
        "13 comes before a duration's 18",
        |windows, durations, out| {
            RULES.windows(windows)?;
            short(durations, out)?;
            place(windows, durations, out)
        },
    ),
    impostor("13 comes before 19", |windows, durations, out| {
        RULES.windows(windows)?;
        RULES.durations(durations)?;
        short(durations, out)?;
        place(windows, durations, out)
    }),
    impostor(
        "19 comes before a duration's 18",
        |windows, durations, out| {
            let spans = RULES.windows(windows)?;
            let before = sound(RULES.durations(durations));
            RULES.starts(&spans, &RULES.durations(&durations[..4 * before])?)?;
            place(windows, durations, out)
        },
    ),
    impostor(
        "windows that no entry needs are not checked",
        |windows, durations, out| {
            let before = sound(RULES.windows(windows));
            let placed = place(&windows[..8 * before], durations, out);
            placed.or_else(|_| place(windows, durations, out))
        },
    ),
    impostor(
        "an empty list needs no sound windows",
        |windows, durations, out| match durations.is_empty() {
            true => written(&[], &[], out),
            false => place(windows, durations, out),
        },
    ),
    impostor(
        "a day without windows is refused",
        |windows, durations, out| match windows.is_empty() {
            true => Err(Reason::ClosureRange.at(0)),
            false => place(windows, durations, out),
        },
    ),
    impostor(
        "an empty list has no placement",
        |windows, durations, out| {
            RULES.windows(windows)?;
            match durations.is_empty() {
                true => Err(Reason::NoPlacement.at(0)),
                false => place(windows, durations, out),
            }
        },
    ),
];

/// 18 if the last of so many bytes each is cut short.
fn cut(bytes: &[u8], each: usize) -> Result<(), Refusal> {
    match bytes.len() % each {
        0 => Ok(()),
        _ => Err(Reason::ClosureRange.at(bytes.len() / each)),
    }
}
