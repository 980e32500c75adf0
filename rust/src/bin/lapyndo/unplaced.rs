//! Why windows, durations or a list are refused: what stands at the place, and what should.

use crate::closure::{clock, lasting, DURATION, WINDOW};
use crate::explain::Rows;
use crate::files::{Closure, DURATIONS, WINDOWS};
use crate::words;
use campaign::answer::Reason;
use campaign::proved;

/// The most windows of a closure.
const WINDOWS_LIMIT: usize = 64;
/// The last minute of a closure.
const LAST_MINUTE: u64 = 1_000_000;
/// The longest entry, in minutes.
const LONGEST: u64 = 1_440;

/// Of the entry at the place the move is given in words, if the list has such an entry.
pub fn rows(closure: &Closure, reason: Reason, place: usize, made: Option<String>) -> Rows {
    match reason {
        Reason::NoPlacement => no_room(closure, place, made),
        // Windows are checked first, and without a list nothing else can be refused.
        _ if proved::place(&closure.windows, &[], &mut []).is_err() => window(closure, place),
        _ => duration(closure, place, made),
    }
}

fn window(closure: &Closure, place: usize) -> Rows {
    let part = Part::of(&closure.windows, place, WINDOW);
    let windows = closure.windows();
    let mut bytes = words::hex(part.bytes, [WINDOW / 2; 2]);
    if let Some(window) = windows.get(place) {
        let [opens, shuts] = [window.opens, window.shuts].map(stands);
        bytes += &format!(": opens at {opens}, shuts at {shuts}");
    }
    let mut rows = vec![
        ("where", format!("window {place}: {}", part.at(WINDOWS))),
        ("bytes", bytes),
    ];
    let faults = faults(closure, place);
    rows.extend(faults.into_iter().map(|why| ("why", why)));
    rows
}

/// All that is wrong with a window.
fn faults(closure: &Closure, place: usize) -> Vec<String> {
    let windows = closure.windows();
    let mut faults = Vec::new();
    if place >= WINDOWS_LIMIT {
        let last = WINDOWS_LIMIT - 1;
        faults.push(format!(
            "a closure has {WINDOWS_LIMIT} windows at most: window 0 to window {last}"
        ));
    }
    let Some(window) = windows.get(place) else {
        faults.push(format!(
            "{WINDOWS} is cut: a window has {WINDOW} bytes, 4 for each of its two minutes"
        ));
        return faults;
    };
    if window.shuts <= window.opens {
        faults.push("a window must shut later than it opens".into());
    }
    if window.shuts > LAST_MINUTE {
        let last = stands(LAST_MINUTE);
        faults.push(format!("it shuts after {last}, the last of a closure"));
    }
    let before = place
        .checked_sub(1)
        .map(|before| (before, &windows[before]));
    if let Some((number, before)) = before.filter(|(_, before)| window.opens < before.shuts) {
        let shuts = stands(before.shuts);
        faults.push(format!("it opens before window {number} shuts, at {shuts}"));
    }
    faults
}

fn duration(closure: &Closure, place: usize, made: Option<String>) -> Rows {
    let part = Part::of(&closure.durations, place, DURATION);
    let mut bytes = words::hex(part.bytes, [DURATION]);
    let mut why = format!("{DURATIONS} is cut: a duration has {DURATION} bytes");
    if let Some(minutes) = closure.minutes().nth(place) {
        bytes += &format!(": {} ({})", lasting(minutes), clock(minutes));
        why = format!("an entry takes 1 to {LONGEST} minutes ({})", clock(LONGEST));
    }
    let mut rows = vec![
        ("where", format!("duration {place}: {}", part.at(DURATIONS))),
        ("bytes", bytes),
    ];
    rows.extend(made.map(|made| ("move", made)));
    rows.push(("why", why));
    rows
}

/// An entry that finds no room: what it needs, and the most that there is.
fn no_room(closure: &Closure, place: usize, made: Option<String>) -> Rows {
    let before = &closure.durations[..DURATION * place];
    let placed = proved::place(&closure.windows, before, &mut vec![0; before.len()]);
    let end = placed.expect("the entries before are placed").end;
    let minutes = closure.minutes().nth(place).map(lasting);
    let mut needs = format!("{} in one window", minutes.unwrap_or_default());
    let mut why = most_room(closure, end);
    if let Some(before) = place.checked_sub(1) {
        let end = clock(end);
        needs +=
            &format!(", after entry {before}, which ends at {end} and in no placement earlier");
        why = format!("from {end} on {why}");
    }
    let entry = format!("entry {place}, move {}", made.unwrap_or_default());
    vec![("where", entry), ("needs", needs), ("why", why)]
}

/// The window that is open longest from a minute on.
fn most_room(closure: &Closure, from: u64) -> String {
    let windows = closure.windows();
    let left = windows.iter().enumerate();
    let left = left.filter_map(|(number, window)| Some((number, window.from(from)?)));
    // Of windows that are open as long, the first.
    let longest = left.rev().max_by_key(|(_, window)| window.minutes());
    match longest {
        None if windows.is_empty() => "there is no window".into(),
        None => "no window is open".into(),
        Some((number, window)) => {
            let (minutes, hours) = (lasting(window.minutes()), window.hours());
            format!("window {number} has the most room, {minutes}: {hours}")
        }
    }
}

/// A minute as it is read and as it stands in a file.
fn stands(minute: u64) -> String {
    format!("{} (minute {minute})", clock(minute))
}

/// A window or duration in its file, of which bytes may be missing.
struct Part<'f> {
    start: usize,
    bytes: &'f [u8],
}

impl Part<'_> {
    fn of(file: &[u8], number: usize, width: usize) -> Part<'_> {
        let start = width * number;
        let end = file.len().min(start + width);
        Part {
            start,
            bytes: &file[start..end],
        }
    }

    fn at(&self, file: &str) -> String {
        let (first, last) = (self.start, self.start + self.bytes.len() - 1);
        match first == last {
            true => format!("byte {first} of {file}"),
            false => format!("bytes {first} to {last} of {file}"),
        }
    }
}
