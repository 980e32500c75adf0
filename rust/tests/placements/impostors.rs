//! Calls with one fault each, which small days have to find.

use crate::common::closure::{check_long, Scope};
use campaign::answer::{Placed, Reason, Refusal};
use campaign::engine::Place;
use campaign::generate::{joined, minute_bytes, minutes, window_bytes, windows};
use campaign::placements::Placements;
use campaign::reference::place;

/// Far fewer days than the reference is put to.
const SCOPE: Scope = Scope {
    minutes: 0..=6,
    windows: 3,
    entries: 3,
    longest: 3,
};

#[test]
fn all_are_found_by_all_placements() {
    assert_eq!(
        SCOPE.check(place).map(|counts| counts.iter().sum()),
        Ok(176 * 40)
    );
    for (name, impostor) in IMPOSTORS.iter().chain(&SHORT) {
        assert!(SCOPE.check(*impostor).is_err(), "{name}");
    }
}

/// What is asked of long lists finds them too, but for those that need an output too short.
#[test]
fn most_are_found_without_all_placements() {
    for day in SCOPE.days() {
        let without = Placements::of(&day.windows, &day.durations).first_without;
        let placed = without.unwrap_or(day.durations.len());
        assert_eq!(check_long(&day, place), Ok(placed), "{day:?}");
    }
    for (name, impostor) in IMPOSTORS {
        let found = SCOPE.days().any(|day| check_long(&day, impostor).is_err());
        assert!(found, "{name}");
    }
}

type Answer = Result<Placed, Refusal>;

const IMPOSTORS: [(&str, Place); 12] = [
    ("touching windows are one", |day, list, out| {
        place(&window_bytes(&joined(&windows(day))), list, out)
    }),
    ("the shutting minute is outside", |day, list, out| {
        let mut pairs = windows(day);
        pairs.iter_mut().for_each(|window| window.1 -= 1);
        pairs.retain(|window| window.0 < window.1);
        place(&window_bytes(&pairs), list, out)
    }),
    ("the last window is left out", |day, list, out| {
        place(&day[..day.len().saturating_sub(8)], list, out)
    }),
    ("windows behind are filled up", filling_up),
    ("the last entry waits a minute", |day, list, out| {
        let placed = place(day, list, out)?;
        let last = out[..placed.length].last_mut();
        last.into_iter().for_each(|low| *low += 1);
        Ok(placed)
    }),
    ("the end is the last start", |day, list, out| {
        let placed = place(day, list, out)?;
        let last = out[..placed.length].last_chunk();
        let end = last.map_or(0, |four| u32::from_be_bytes(*four).into());
        Ok(Placed { end, ..placed })
    }),
    ("an empty list ends at an opening", |day, list, out| {
        let placed = place(day, list, out)?;
        let opening = windows(day).first().map_or(0, |window| window.0);
        let end = if list.is_empty() { opening } else { placed.end };
        Ok(Placed { end, ..placed })
    }),
    ("the length counts entries", |day, list, out| {
        let Placed { end, length } = place(day, list, out)?;
        let length = length / 4;
        Ok(Placed { end, length })
    }),
    ("bytes behind are cleared", |day, list, out| {
        let placed = place(day, list, out)?;
        out[placed.length..].fill(0);
        Ok(placed)
    }),
    ("19 clears the output", |day, list, out| {
        clearing(place(day, list, out), Reason::NoPlacement, out)
    }),
    ("19 is at the first entry", |day, list, out| {
        moved(place(day, list, out), Reason::NoPlacement, 0)
    }),
    ("19 is at the last entry", |day, list, out| {
        let last = (list.len() / 4).saturating_sub(1);
        moved(place(day, list, out), Reason::NoPlacement, last)
    }),
];

const SHORT: [(&str, Place); 3] = [
    ("13 clears the output", |day, list, out| {
        clearing(place(day, list, out), Reason::OutputShort, out)
    }),
    ("13 is at the length", |day, list, out| {
        moved(place(day, list, out), Reason::OutputShort, list.len())
    }),
    ("13 comes before 19", |day, list, out| {
        match out.len() < list.len() {
            true => Err(Reason::OutputShort.at(0)),
            false => place(day, list, out),
        }
    }),
];

/// Each entry in the first window with room for it, whatever the one before.
fn filling_up(day: &[u8], list: &[u8], out: &mut [u8]) -> Answer {
    let earliest = place(day, list, out)?;
    let mut left = windows(day);
    let (mut starts, mut end) = (Vec::new(), 0);
    for duration in minutes(list) {
        let window = left.iter_mut().find(|(from, to)| from + duration <= *to);
        let window = window.expect("the earliest placement has room");
        starts.push(window.0);
        window.0 += duration;
        end = window.0;
    }
    out[..earliest.length].copy_from_slice(&minute_bytes(&starts));
    Ok(Placed { end, ..earliest })
}

fn clearing(answer: Answer, reason: Reason, out: &mut [u8]) -> Answer {
    if answer.is_err_and(|refusal| refusal.reason == reason) {
        out.fill(0);
    }
    answer
}

fn moved(answer: Answer, reason: Reason, to: usize) -> Answer {
    answer.map_err(|refusal| match refusal.reason == reason {
        true => reason.at(to),
        false => refusal,
    })
}
