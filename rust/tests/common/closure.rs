//! Closure days for the `place` of any engine: small ones with all their placements, and long lists.

mod long;
mod scope;

pub use long::check_long;
pub use scope::{check_small_days, Scope};

use campaign::answer::{Placed, Reason, Refusal};
use campaign::engine::Place;
use campaign::generate::{minutes, Day};
use campaign::hex::hex;
use campaign::placements::Placements;

/// What every byte of an output holds before a call.
pub const HELD: u8 = 0xA5;

/// The answer of a call, and what its output holds afterwards.
pub type Outcome = (Result<Placed, Refusal>, Vec<u8>);

pub fn run(place: Place, windows: &[u8], durations: &[u8], room: usize) -> Outcome {
    let mut out = vec![HELD; room];
    let answer = place(windows, durations, &mut out);
    (answer, out)
}

pub fn is_kept(out: &[u8]) -> bool {
    out.iter().all(|byte| *byte == HELD)
}

fn ensure(holds: bool, fault: impl FnOnce() -> String) -> Result<(), String> {
    match holds {
        true => Ok(()),
        false => Err(fault()),
    }
}

/// Compares a call with all placements of the list; answers whether there are any.
pub fn check(day: &Day, place: Place) -> Result<bool, String> {
    let placements = Placements::of(&day.windows, &day.durations);
    let (answer, out) = run_day(day, place, day.length() + 3);
    let checked = match answer {
        Ok(placed) => check_placed(day, placed, &out, &placements),
        Err(refusal) => check_refused(refusal, &out, &placements),
    };
    checked
        .and_then(|()| check_short(day, place, answer))
        .map_err(|fault| format!("{fault}: {day:?} {answer:?} {}", hex(&out)))?;
    Ok(placements.exist())
}

/// The starts are a placement, and none has an earlier start of any entry or an earlier end.
fn check_placed(day: &Day, placed: Placed, out: &[u8], all: &Placements) -> Result<(), String> {
    let starts = starts(day, placed, out)?;
    let among = all.iter().any(|placement| placement == starts);
    ensure(among, || "no placement".into())?;
    let smallest = all.smallest_starts();
    ensure(smallest == Some(starts), || format!("not {smallest:?}"))?;
    let smallest = all.smallest_end();
    ensure(smallest == Some(placed.end), || format!("end {smallest:?}"))
}

/// With an output one byte short, a list that was placed is refused by 13, last.
fn check_short(day: &Day, place: Place, answer: Result<Placed, Refusal>) -> Result<(), String> {
    let Some(room) = day.length().checked_sub(1) else {
        return Ok(());
    };
    let expected = answer.and(Err(Reason::OutputShort.at(0)));
    let (short, out) = run_day(day, place, room);
    ensure(short == expected && is_kept(&out), || {
        format!("one byte short {short:?} {}", hex(&out))
    })
}

fn run_day(day: &Day, place: Place, room: usize) -> Outcome {
    let call = day.place(room);
    run(place, &call.windows, &call.durations, room)
}

/// The starts that an accepted call wrote; the bytes behind them are kept.
fn starts(day: &Day, placed: Placed, out: &[u8]) -> Result<Vec<u64>, String> {
    ensure(placed.length == day.length(), || "wrong length".into())?;
    let (written, behind) = out.split_at(placed.length);
    ensure(is_kept(behind), || "bytes behind not kept".into())?;
    Ok(minutes(written))
}

/// By 19, at the first entry up to which the list has no placement.
fn check_refused(refusal: Refusal, out: &[u8], all: &Placements) -> Result<(), String> {
    let expected = all.first_without.map(|entry| Reason::NoPlacement.at(entry));
    ensure(expected == Some(refusal), || format!("not {expected:?}"))?;
    ensure(is_kept(out), || "output not kept".into())
}
