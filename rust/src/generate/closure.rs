//! Closure days: windows, and a list of entries to be placed in them.

use super::call::around;
use super::damage::damage;
use super::day::{Day, DURATION_LIMIT, MINUTE_LIMIT, WINDOW_LIMIT};
use super::rng::Rng;
use crate::call::Call;
use crate::placements::Window;

/// A `place` of a day that is mostly sound and whose list mostly has a placement, with an output that is
/// mostly enough.
pub fn place_call(rng: &mut Rng) -> Call {
    match rng.below(8) {
        0..=4 => sound_place_call(rng),
        5 | 6 => faulty_place_call(rng),
        _ => damaged_place_call(rng),
    }
}

/// The same of a day that is sound.
pub fn sound_place_call(rng: &mut Rng) -> Call {
    let day = closure_day(rng);
    day.place(around(rng, day.length()))
}

/// The same of a day that is damaged, in its bytes or in its minutes.
pub fn damaged_place_call(rng: &mut Rng) -> Call {
    let mut call = sound_place_call(rng);
    if rng.chance(1, 2) {
        damage(rng, &mut call);
        return call;
    }
    let mut day = Day::of(&call);
    for _ in 0..=rng.below(3) {
        alter(rng, &mut day);
    }
    day.place(call.room)
}

/// The same of a day with a window or a duration out of order or range, or with one of each.
pub fn faulty_place_call(rng: &mut Rng) -> Call {
    let mut day = closure_day(rng);
    let (windows, durations) = *rng.pick(&[(true, false), (false, true), (true, true)]);
    let cut = rng.chance(1, 6);
    if windows && !cut {
        spoil_windows(rng, &mut day.windows);
    }
    if durations && !cut {
        let count = 1 + rng.below(2);
        (0..count).for_each(|_| spoil_duration(rng, &mut day.durations));
    }
    let mut call = day.place(around(rng, day.length()));
    for (spoilt, bytes) in [
        (windows, &mut call.windows),
        (durations, &mut call.durations),
    ] {
        if spoilt && cut {
            let whole = bytes.len();
            bytes.truncate(whole.saturating_sub(1 + rng.below(8)));
        }
    }
    call
}

/// A day whose windows touch, are close or far apart, and are up to 64, with a list that is chosen by what
/// the windows leave.
fn closure_day(rng: &mut Rng) -> Day {
    let widest = *rng.pick(&[3, 10, 60, 1_440, 3_000]);
    let windows = windows(rng, widest);
    let durations = durations(rng, &windows);
    Day { windows, durations }
}

fn windows(rng: &mut Rng, widest: usize) -> Vec<Window> {
    let count = match rng.below(24) {
        0 => 0,
        1 => WINDOW_LIMIT - rng.below(2),
        2 => rng.below(WINDOW_LIMIT),
        _ => 1 + rng.below(6),
    };
    let mut minute = *rng.pick(&[0, 0, 1, 480, 100_000]);
    let mut windows = Vec::new();
    for _ in 0..count {
        let opening = minute + gap(rng);
        minute = opening + 1 + rng.below(widest) as u64;
        windows.push((opening, minute));
    }
    if rng.chance(1, 6) {
        let later = MINUTE_LIMIT - minute;
        let moved = windows.iter_mut();
        moved.for_each(|window| *window = (window.0 + later, window.1 + later));
    }
    windows
}

/// Minutes between two windows, mostly none or few.
fn gap(rng: &mut Rng) -> u64 {
    match rng.below(8) {
        0..=3 => 0,
        4 => 1,
        5 | 6 => rng.below(60) as u64,
        _ => rng.below(5_000) as u64,
    }
}

/// What the entries of a list leave, each placed as early as it can be.
#[derive(Clone)]
struct Left<'w> {
    /// From the one in use on.
    windows: &'w [Window],
    /// Where the last entry ends.
    end: u64,
}

impl Left<'_> {
    /// Minutes that are left in a window.
    fn minutes(&self, window: usize) -> u64 {
        let window = self.windows.get(window);
        window.map_or(0, |(opening, shutting)| shutting - self.end.max(*opening))
    }

    /// Places one more entry; false if no window holds it.
    fn take(&mut self, minutes: u64) -> bool {
        while let [(opening, shutting), later @ ..] = self.windows {
            let end = self.end.max(*opening) + minutes;
            if end <= *shutting {
                self.end = end;
                return true;
            }
            self.windows = later;
        }
        false
    }
}

/// A list that is placed, or of which all but the last entries are. Some lists go on to the last minute
/// of the windows.
fn durations(rng: &mut Rng, windows: &[Window]) -> Vec<u64> {
    let most = *rng.pick(&[0, 1, 2, 3, 5, 8, 12, 40]);
    let mut left = Left { windows, end: 0 };
    let mut durations = Vec::new();
    for _ in 0..most {
        let minutes = duration(rng, &left);
        let mut after = left.clone();
        if after.take(minutes) {
            durations.push(minutes);
            left = after;
        } else if rng.chance(1, 8) {
            durations.push(minutes);
            durations.extend((0..rng.below(3)).map(|_| 1 + rng.below(20) as u64));
            return durations;
        }
    }
    if rng.chance(1, 6) {
        fill_up(rng, left, &mut durations);
    }
    durations
}

/// An entry that fills what is left of a window, misses it by a minute, wants two windows, or any other.
fn duration(rng: &mut Rng, left: &Left) -> u64 {
    let [here, next] = [0, 1].map(|window| left.minutes(window));
    let wanted = match rng.below(16) {
        0 | 1 => here,
        2 | 3 => here + 1,
        4 => next,
        5 => next + 1,
        6 | 7 => here + next,
        8 => left.minutes(rng.below(6)),
        9 => 1,
        10 => 1 + rng.below(DURATION_LIMIT as usize) as u64,
        11 => DURATION_LIMIT,
        _ => 1 + rng.below(here.max(1) as usize) as u64,
    };
    wanted.clamp(1, DURATION_LIMIT)
}

/// Entries up to the last minute of the windows; now and then one more, which has no room.
fn fill_up(rng: &mut Rng, mut left: Left, durations: &mut Vec<u64>) {
    while !left.windows.is_empty() {
        let minutes = left.minutes(0).clamp(1, DURATION_LIMIT);
        if left.take(minutes) {
            durations.push(minutes);
        }
    }
    if rng.chance(1, 3) {
        durations.push(1);
    }
}

/// Puts one window out of order or range, or adds windows beyond the 64th.
fn spoil_windows(rng: &mut Rng, windows: &mut Vec<Window>) {
    if windows.is_empty() || rng.chance(1, 8) {
        let count = (WINDOW_LIMIT + 1 + rng.below(3)) as u64;
        *windows = (0..count).map(|i| (3 * i, 3 * i + 2)).collect();
        return;
    }
    let at = rng.below(windows.len());
    let before = windows[at.saturating_sub(1)];
    let (opening, shutting) = windows[at];
    windows[at] = match rng.below(8) {
        0 => (opening, opening),
        1 => (shutting, opening),
        2 if at > 0 => (before.1 - 1, shutting),
        3 if at > 0 => (before.0, shutting),
        4 if at > 0 => {
            windows[at - 1] = (opening, shutting);
            before
        }
        5 => (opening, MINUTE_LIMIT + 1),
        6 => (MINUTE_LIMIT + 1, MINUTE_LIMIT + 2),
        _ => {
            let high = high_bits(rng);
            *rng.pick(&[
                (opening | high, shutting),
                (opening, shutting | high),
                (opening | high, shutting | high),
            ])
        }
    };
}

/// Puts one duration out of range.
fn spoil_duration(rng: &mut Rng, durations: &mut Vec<u64>) {
    if durations.is_empty() {
        durations.push(1);
    }
    let at = rng.below(durations.len());
    durations[at] = match rng.below(5) {
        0 => 0,
        1 => DURATION_LIMIT + 1,
        2 => DURATION_LIMIT + 1 + rng.below(2_000) as u64,
        _ => durations[at] | high_bits(rng),
    };
}

/// Bits that no minute has: the top one, another one of the first byte, or nearly all.
fn high_bits(rng: &mut Rng) -> u64 {
    *rng.pick(&[1 << 31, 1 << 31, 1 << 24, 0xFFFF_FFF0])
}

/// Moves one minute of a window, changes, adds or drops an entry, or lets two windows change places.
pub fn alter(rng: &mut Rng, day: &mut Day) {
    let Day { windows, durations } = day;
    let either = |rng: &mut Rng, minute: u64| match rng.chance(1, 2) {
        true => u64::from(u32::MAX).min(minute + 1),
        false => minute.saturating_sub(1),
    };
    match rng.below(6) {
        0 if !windows.is_empty() => {
            let at = rng.below(windows.len());
            windows[at].0 = either(rng, windows[at].0);
        }
        1 if !windows.is_empty() => {
            let at = rng.below(windows.len());
            windows[at].1 = either(rng, windows[at].1);
        }
        2 if !windows.is_empty() => {
            let [one, other] = [0, 1].map(|_| rng.below(windows.len()));
            windows.swap(one, other);
        }
        3 if !durations.is_empty() => {
            let at = rng.below(durations.len());
            durations[at] = either(rng, durations[at]);
        }
        4 if !durations.is_empty() => drop(durations.remove(rng.below(durations.len()))),
        _ => {
            let at = rng.below(durations.len() + 1);
            durations.insert(at, 1 + rng.below(20) as u64);
        }
    }
}

/// A day of so many touching windows over all minutes, and so many entries, all of which have room there.
pub fn long_day(rng: &mut Rng, windows: usize, entries: usize) -> Day {
    let bound = |i: usize| MINUTE_LIMIT * i as u64 / windows as u64;
    let longest = (1_600_000 / entries as u64).clamp(2, DURATION_LIMIT + 1) - 1;
    let minutes = |_| 1 + rng.below(longest as usize) as u64;
    Day {
        windows: (0..windows).map(|i| (bound(i), bound(i + 1))).collect(),
        durations: (0..entries).map(minutes).collect(),
    }
}

#[cfg(test)]
mod tests {
    use super::*;

    #[test]
    fn altered_minutes_fit_four_bytes() {
        let mut rng = Rng::new(41);
        let last = u64::from(u32::MAX);
        for minute in [0, last] {
            let mut day = Day {
                windows: vec![(minute, minute)],
                durations: vec![minute],
            };
            (0..50).for_each(|_| alter(&mut rng, &mut day));
            assert_eq!(Day::of(&day.place(0)), day);
        }
    }

    #[test]
    fn long_days_have_room_for_all_entries() {
        let mut rng = Rng::new(42);
        for (windows, entries) in [(1, 1), (64, 1), (64, 1_200), (64, 20_000), (3, 900_000)] {
            let Day { windows, durations } = long_day(&mut rng, windows, entries);
            let mut left = Left {
                windows: &windows,
                end: 0,
            };
            assert!(durations.iter().all(|minutes| left.take(*minutes)));
        }
    }
}
