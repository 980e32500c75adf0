//! Faults in what is answered and written.

use super::impostor;
use super::rules::RULES;
use crate::answer::{Placed, Reason, Refusal};
use crate::generate::minutes;
use crate::impostors::{at_0, Impostor};
use crate::reference::place;

/// In the end, the length and the starts.
pub const ANSWERS: [Impostor; 16] = [
    impostor(
        "the end is that of the first entry",
        |windows, durations, out| {
            ending(windows, durations, out, |entries| {
                end_of(entries.first(), 0)
            })
        },
    ),
    impostor("the end is the last start", |windows, durations, out| {
        ending(windows, durations, out, |entries| {
            entries.last().map_or(0, |(start, _)| *start)
        })
    }),
    impostor(
        "the end is the last minute in use",
        |windows, durations, out| {
            ending(windows, durations, out, |entries| {
                end_of(entries.last(), 0).saturating_sub(1)
            })
        },
    ),
    impostor(
        "the end is the last shutting minute",
        |windows, durations, out| {
            let last = minutes(windows).last().copied();
            ending(windows, durations, out, |_| last.unwrap_or(0))
        },
    ),
    impostor(
        "an empty list ends at the first opening",
        |windows, durations, out| {
            let first = minutes(windows).first().copied();
            ending(windows, durations, out, |entries| {
                end_of(entries.last(), first.unwrap_or(0))
            })
        },
    ),
    impostor("the length is 0", |windows, durations, out| {
        with_length(windows, durations, out, |_, _| 0)
    }),
    impostor("the length counts entries", |windows, durations, out| {
        with_length(windows, durations, out, |length, _| length / 4)
    }),
    impostor(
        "the length is that of the output",
        |windows, durations, out| with_length(windows, durations, out, |_, room| room),
    ),
    impostor(
        "starts are written little-endian",
        |windows, durations, out| retold(windows, durations, out, |start, _| start.swap_bytes()),
    ),
    impostor("ends are written", |windows, durations, out| {
        retold(windows, durations, out, |start, minutes| start + minutes)
    }),
    impostor(
        "bytes behind the starts are cleared",
        |windows, durations, out| {
            let placed = place(windows, durations, out)?;
            out[placed.length..].fill(0);
            Ok(placed)
        },
    ),
    impostor("a refusal clears the output", |windows, durations, out| {
        place(windows, durations, out).inspect_err(|_| out.fill(0))
    }),
    impostor(
        "19 leaves the starts before it",
        |windows, durations, out| {
            let answer = place(windows, durations, out);
            if let Some(entry) = place_of(answer, Reason::NoPlacement) {
                let _ = place(windows, &durations[..4 * entry], out);
            }
            answer
        },
    ),
    impostor(
        "a short output has the starts that fit",
        |windows, durations, out| {
            let answer = place(windows, durations, out);
            if place_of(answer, Reason::OutputShort).is_some() {
                place(windows, &durations[..out.len() / 4 * 4], out)?;
            }
            answer
        },
    ),
    impostor(
        "an output of just the length is short",
        |windows, durations, out| {
            let length = place(windows, durations, &mut out.to_vec())?.length;
            match 0 < length && length == out.len() {
                true => Err(Reason::OutputShort.at(0)),
                false => place(windows, durations, out),
            }
        },
    ),
    impostor("a longer output is refused", |windows, durations, out| {
        let length = place(windows, durations, &mut out.to_vec())?.length;
        match length < out.len() {
            true => Err(Reason::OutputShort.at(0)),
            false => place(windows, durations, out),
        }
    }),
];

/// In the places of refusals.
pub const PLACES: [Impostor; 10] = [
    impostor("every place is 0", |windows, durations, out| {
        place(windows, durations, out).map_err(at_0)
    }),
    impostor("19 counts entries from 1", |windows, durations, out| {
        let answer = place(windows, durations, out);
        misplaced(answer, Reason::NoPlacement, |entry| entry + 1)
    }),
    impostor("19 has the last entry", |windows, durations, out| {
        let answer = place(windows, durations, out);
        misplaced(answer, Reason::NoPlacement, |_| durations.len() / 4 - 1)
    }),
    impostor(
        "19 has an entry that no window holds",
        |windows, durations, out| {
            let answer = place(windows, durations, out);
            let spans = RULES.windows(windows)?;
            let mut entries = RULES.durations(durations)?.into_iter();
            let alone = entries.position(|minutes| RULES.starts(&spans, &[minutes]).is_err());
            misplaced(answer, Reason::NoPlacement, |entry| alone.unwrap_or(entry))
        },
    ),
    impostor("19 counts windows", |windows, durations, out| {
        let answer = place(windows, durations, out);
        misplaced(answer, Reason::NoPlacement, |_| windows.len() / 8)
    }),
    impostor("18 counts from 1", |windows, durations, out| {
        let answer = place(windows, durations, out);
        misplaced(answer, Reason::ClosureRange, |at| at + 1)
    }),
    impostor(
        "18 of a window has its offset",
        |windows, durations, out| {
            misplaced(RULES.windows(windows), Reason::ClosureRange, |at| 8 * at)?;
            place(windows, durations, out)
        },
    ),
    impostor(
        "18 of a duration has its offset",
        |windows, durations, out| {
            RULES.windows(windows)?;
            let answer = place(windows, durations, out);
            misplaced(answer, Reason::ClosureRange, |at| 4 * at)
        },
    ),
    impostor(
        "durations are counted behind the windows",
        |windows, durations, out| {
            let before = RULES.windows(windows)?.len();
            let answer = place(windows, durations, out);
            misplaced(answer, Reason::ClosureRange, |at| before + at)
        },
    ),
    impostor(
        "13 has the first entry without room",
        |windows, durations, out| {
            let answer = place(windows, durations, out);
            misplaced(answer, Reason::OutputShort, |_| out.len() / 4)
        },
    ),
];

/// Those that only long lists show.
pub const LONG_LISTS: [Impostor; 3] = [
    impostor("the length has 16 bits", |windows, durations, out| {
        with_length(windows, durations, out, |length, _| length % 65_536)
    }),
    impostor("19 has 16 bits of its place", |windows, durations, out| {
        let answer = place(windows, durations, out);
        misplaced(answer, Reason::NoPlacement, |entry| entry % 65_536)
    }),
    impostor("18 has 16 bits of its place", |windows, durations, out| {
        let answer = place(windows, durations, out);
        misplaced(answer, Reason::ClosureRange, |at| at % 65_536)
    }),
];

/// An honest placement with another end, made of the starts and minutes of its entries.
fn ending(
    windows: &[u8],
    durations: &[u8],
    out: &mut [u8],
    end: impl Fn(&[(u64, u64)]) -> u64,
) -> Result<Placed, Refusal> {
    let placed = place(windows, durations, out)?;
    let starts = minutes(&out[..placed.length]).into_iter();
    let entries: Vec<(u64, u64)> = starts.zip(minutes(durations)).collect();
    let end = end(&entries);
    Ok(Placed { end, ..placed })
}

fn end_of(entry: Option<&(u64, u64)>, without: u64) -> u64 {
    entry.map_or(without, |(start, minutes)| start + minutes)
}

/// An honest placement with another length, made of its own and of the output's.
fn with_length(
    windows: &[u8],
    durations: &[u8],
    out: &mut [u8],
    length: fn(usize, usize) -> usize,
) -> Result<Placed, Refusal> {
    let placed = place(windows, durations, out)?;
    let length = length(placed.length, out.len());
    Ok(Placed { length, ..placed })
}

/// An honest placement with another number written for each start, made of it and of its minutes.
fn retold(
    windows: &[u8],
    durations: &[u8],
    out: &mut [u8],
    other: fn(u32, u32) -> u32,
) -> Result<Placed, Refusal> {
    let placed = place(windows, durations, out)?;
    let starts = minutes(&out[..placed.length]).into_iter();
    let fours = out.chunks_exact_mut(4);
    for (four, (start, minutes)) in fours.zip(starts.zip(minutes(durations))) {
        four.copy_from_slice(&other(start as u32, minutes as u32).to_be_bytes());
    }
    Ok(placed)
}

/// The place of a refusal for this reason.
fn place_of<A>(answer: Result<A, Refusal>, reason: Reason) -> Option<usize> {
    let refusal = answer.err().filter(|refusal| refusal.reason == reason);
    refusal.map(|refusal| refusal.place as usize)
}

/// An answer with another place in a refusal for this reason.
fn misplaced<A>(
    answer: Result<A, Refusal>,
    reason: Reason,
    other: impl Fn(usize) -> usize,
) -> Result<A, Refusal> {
    answer.map_err(|refusal| match refusal.reason == reason {
        true => reason.at(other(refusal.place as usize)),
        false => refusal,
    })
}
