//! Lists too long to know all their placements.

use super::{ensure, is_kept, run_day, starts};
use campaign::answer::{Reason, Refusal};
use campaign::engine::Place;
use campaign::generate::Day;
use campaign::placements::{end, is_inside, is_placement};
use std::ops::Range;

/// Compares a call with the definition: the starts are a placement, and at no minute from the end
/// of an entry to the start of the next would that one be inside a window. Answers how many
/// entries come before the first up to which the list has no placement.
pub fn check_long(day: &Day, place: Place) -> Result<usize, String> {
    let (answer, out) = run_day(day, place, day.length() + 3);
    let placed = match answer {
        Ok(placed) => placed,
        Err(refusal) => return check_long_refused(day, place, refusal, &out),
    };
    let starts = starts(day, placed, &out)?;
    let is_placed = is_placement(&day.windows, &day.durations, &starts);
    ensure(is_placed, || "no placement".into())?;
    let mut free = 0;
    for (start, duration) in starts.iter().zip(&day.durations) {
        check_none_inside(day, free..*start, *duration)?;
        free = start + duration;
    }
    let expected = end(&day.durations, &starts);
    ensure(placed.end == expected, || format!("not the end {expected}"))?;
    Ok(starts.len())
}

/// The entries before the place of 19 are placed, and at no later minute would that one be inside.
fn check_long_refused(
    day: &Day,
    place: Place,
    refusal: Refusal,
    out: &[u8],
) -> Result<usize, String> {
    let entry = refusal.place as usize;
    let is_entry = entry < day.durations.len();
    let expected = refusal.reason == Reason::NoPlacement && is_entry && is_kept(out);
    ensure(expected, || refusal.to_string())?;
    let before = Day {
        windows: day.windows.clone(),
        durations: day.durations[..entry].to_vec(),
    };
    let placed = check_long(&before, place)?;
    ensure(placed == entry, || format!("none up to {placed} already"))?;
    let (answer, _) = run_day(&before, place, before.length());
    let free = answer.map_err(|refusal| refusal.to_string())?.end;
    let shutting = day.windows.last().map_or(0, |window| window.1);
    check_none_inside(day, free..shutting, day.durations[entry])?;
    Ok(entry)
}

fn check_none_inside(day: &Day, mut minutes: Range<u64>, duration: u64) -> Result<(), String> {
    let earlier = minutes.find(|start| is_inside(&day.windows, *start, duration));
    ensure(earlier.is_none(), || {
        format!("{duration} minutes from {earlier:?}")
    })
}
