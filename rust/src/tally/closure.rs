//! What calls of `place` have to tell apart, counted.

use super::{refusal_number, Shares};
use crate::call::{Call, Outcome};
use crate::generate::{joined, minutes, Day, DURATION_LIMIT, MINUTE_LIMIT, WINDOW_LIMIT};
use crate::placements::Window;
use crate::reference::place;
use std::collections::BTreeSet;

/// No minute has this bit.
const TOP_BIT: u64 = 1 << 31;

impl Shares {
    /// Takes note of a call and its outcome.
    ///
    /// # Panics
    /// If 18 is not given where the first fault is.
    pub(super) fn add_closure(&mut self, call: &Call, outcome: &Outcome) {
        let (day, number) = (Day::of(call), refusal_number(&outcome.answer));
        let faults = Faults::of(call, &day);
        let place = outcome.answer.rsplit(' ').next();
        let place = place.and_then(|place| place.parse().ok()).expect("a place");
        let refused = (number == 18).then_some(place);
        assert_eq!(refused, faults.first(), "the place of 18: {call}");
        match number {
            0 => {
                let starts = minutes(&outcome.out()[..day.length()]);
                self.add_placement(call, &day, &starts);
            }
            18 => self.add_faults(call, &day, &faults),
            19 => self.add_unplaced(call, &day, place),
            _ => {
                self.add_one("no room", call.room == 0);
                self.add_one("one byte short", call.room + 1 == day.length());
            }
        }
    }

    fn add_placement(&mut self, call: &Call, day: &Day, starts: &[u64]) {
        let none = day.durations.is_empty();
        self.add_one("no entries", none);
        self.add_one("no entries and no windows", none && day.windows.is_empty());
        self.add_one("64 windows", day.windows.len() == WINDOW_LIMIT);
        self.add_one("30 entries or more", day.durations.len() >= 30);
        self.add_one("just enough", !none && call.room == day.length());
        self.add_one("bytes behind", call.room > day.length());
        for name in Left::behind(day, starts).traits {
            self.add_one(name, true);
        }
    }

    /// What the first fault is, and what else would be turned away.
    fn add_faults(&mut self, call: &Call, day: &Day, faults: &Faults) {
        self.add_one("18 with a short output", call.room < day.length());
        match faults.windows.first() {
            Some((at, names)) => {
                self.add_window(day, faults, *at, names);
                self.add_one("a window, and no entries", call.durations.is_empty());
            }
            None => self.add_duration(day, faults),
        }
    }

    /// The fault of a window, if it has one only, and what comes with it.
    fn add_window(&mut self, day: &Day, faults: &Faults, at: usize, names: &[&'static str]) {
        if let [name] = names {
            self.add_one(name, true);
        }
        let another = faults.windows.len() > 1;
        self.add_one("a window behind sound ones", at > 0);
        self.add_one("a window before another at fault", another);
        let window = day.windows.get(at);
        let signed = window.is_some_and(|window| window.0 >= TOP_BIT && window.1 <= MINUTE_LIMIT);
        self.add_one("opens at a negative minute", signed);
        let duration = faults.durations.first();
        let earlier = duration.is_some_and(|(other, _)| *other < at);
        self.add_one("a window, and a duration", duration.is_some());
        self.add_one("a window, and a duration at an earlier place", earlier);
    }

    /// The same of a duration, where all windows are sound.
    fn add_duration(&mut self, day: &Day, faults: &Faults) {
        let (at, name) = faults.durations[0];
        let another = faults.durations.len() > 1;
        let without = starts(&day.windows, &day.durations[..at]).is_none();
        self.add_one(name, true);
        self.add_one("a duration behind sound ones", at > 0);
        self.add_one("a duration before another at fault", another);
        self.add_one("a duration behind entries without a placement", without);
    }

    fn add_unplaced(&mut self, call: &Call, day: &Day, place: usize) {
        let (upto, windows) = (&day.durations[..=place], &day.windows);
        self.add_one("19 at entry 0", place == 0);
        self.add_one("19 at a later entry", place > 0);
        self.add_one("19 at the last entry", place + 1 == day.durations.len());
        self.add_one("19 before others", place + 1 < day.durations.len());
        self.add_one("19 without windows", windows.is_empty());
        self.add_one("19 with a short output", call.room < day.length());
        let mut shorter = upto.to_vec();
        shorter[place] -= 1;
        let by_one = shorter[place] > 0 && starts(windows, &shorter).is_some();
        self.add_one("19 by a minute", by_one);
        let across = starts(&joined(windows), upto).is_some();
        self.add_one("19 across touching windows", across);
        let before = starts(windows, &upto[..place]).expect("all entries before have one");
        let behind = Left::behind(day, &before).behind;
        let passed = upto[place] <= behind;
        self.add_one("19 where a window passed over would do", passed);
    }
}

/// The starts of sound durations in sound windows, if there is a placement.
fn starts(windows: &[Window], durations: &[u64]) -> Option<Vec<u64>> {
    let day = Day {
        windows: windows.to_vec(),
        durations: durations.to_vec(),
    };
    let call = day.place(day.length());
    let mut out = vec![0; call.room];
    let placed = place(&call.windows, &call.durations, &mut out);
    placed.ok().map(|_| minutes(&out))
}

/// The places of what is out of order or range, each with why.
struct Faults {
    windows: Vec<(usize, Vec<&'static str>)>,
    durations: Vec<(usize, &'static str)>,
}

impl Faults {
    fn of(call: &Call, day: &Day) -> Faults {
        let mut windows = window_faults(&day.windows);
        if !call.windows.len().is_multiple_of(8) {
            windows.push((day.windows.len(), vec!["a cut window"]));
        }
        let mut durations = duration_faults(&day.durations);
        if !call.durations.len().is_multiple_of(4) {
            durations.push((day.durations.len(), "a cut duration"));
        }
        Faults { windows, durations }
    }

    /// The place of the first window, or else of the first duration.
    fn first(&self) -> Option<usize> {
        let window = self.windows.first().map(|(place, _)| *place);
        window.or(self.durations.first().map(|(place, _)| *place))
    }
}

fn window_faults(windows: &[Window]) -> Vec<(usize, Vec<&'static str>)> {
    let mut before = 0;
    let mut faults = Vec::new();
    for (place, (opening, shutting)) in windows.iter().copied().enumerate() {
        let named = [
            ("a 65th window", place == WINDOW_LIMIT),
            ("a window of no minutes", shutting == opening),
            ("a window that shuts before it opens", shutting < opening),
            ("an overlap of a minute", opening + 1 == before),
            ("a longer overlap", opening + 1 < before),
            ("minute 1,000,001", shutting == MINUTE_LIMIT + 1),
            ("a later minute", shutting > MINUTE_LIMIT + 1),
        ];
        let found = named.into_iter().filter(|(_, found)| *found);
        let names: Vec<&str> = found.map(|(name, _)| name).collect();
        if !names.is_empty() {
            faults.push((place, names));
        }
        before = shutting;
    }
    faults
}

fn duration_faults(durations: &[u64]) -> Vec<(usize, &'static str)> {
    let name = |minutes: u64| match minutes {
        0 => Some("a duration of 0"),
        1..=DURATION_LIMIT => None,
        1_441 => Some("a duration of 1,441"),
        TOP_BIT.. => Some("a negative duration"),
        _ => Some("a longer duration"),
    };
    let durations = durations.iter().enumerate();
    let faults = durations.filter_map(|(place, minutes)| Some((place, name(*minutes)?)));
    faults.collect()
}

/// What is left for the next entry of a placement.
struct Left<'d> {
    /// From the one on in which the entry before is.
    windows: &'d [Window],
    /// Where the entry before ends.
    end: Option<u64>,
    /// The most minutes that were left in a window that is passed over.
    behind: u64,
    /// The traits of all entries so far.
    traits: BTreeSet<&'static str>,
}

impl Left<'_> {
    /// Behind the entries that have these starts.
    fn behind<'d>(day: &'d Day, starts: &[u64]) -> Left<'d> {
        let mut left = Left {
            windows: &day.windows,
            end: None,
            behind: 0,
            traits: BTreeSet::new(),
        };
        for (start, minutes) in starts.iter().zip(&day.durations) {
            left.place(*start, *minutes);
        }
        left
    }

    /// The first start of an entry in these windows, if one holds it.
    fn first_start(&self, windows: &[Window], minutes: u64) -> Option<u64> {
        let start = |(opening, _): &Window| self.end.unwrap_or(0).max(*opening);
        let mut holding = windows.iter();
        let holding = holding.find(|window| start(window) + minutes <= window.1);
        holding.map(start)
    }

    /// Goes on behind the next entry.
    fn place(&mut self, start: u64, minutes: u64) {
        let holds = |window: &Window| window.0 <= start && start + minutes <= window.1;
        let at = self.windows.iter().position(holds);
        let (passed, rest) = self.windows.split_at(at.expect("a window holds the entry"));
        let from = self.end.unwrap_or(0);
        let left = passed.iter().map(|window| window.1 - window.0.max(from));
        let passed: Vec<u64> = left.filter(|minutes| *minutes > 0).collect();
        let across = self.first_start(&joined(self.windows), minutes) < Some(start);
        let fits = minutes <= self.behind;
        let nearly = passed.contains(&(minutes - 1));
        self.note([
            ("passes over a window", passed.len() == 1),
            ("passes over several windows", passed.len() > 1),
            ("misses a window by a minute", nearly),
            ("would reach across touching windows", across),
            ("would fit a window passed over before", fits),
        ]);
        self.note_minutes((start, start + minutes), rest);
        self.behind = passed.into_iter().fold(self.behind, u64::max);
        self.windows = rest;
        self.end = Some(start + minutes);
    }

    /// What the minutes of an entry are, beside those of its window and of the entry before.
    fn note_minutes(&mut self, (start, end): (u64, u64), windows: &[Window]) {
        let (opening, shutting) = windows[0];
        let again = self.end == Some(start);
        let gap = self.end.is_some_and(|end| end < start);
        self.note([
            ("1 minute", end - start == 1),
            ("1,440 minutes", end - start == DURATION_LIMIT),
            ("starts at an opening", start == opening && !again),
            ("starts at an end", start != opening && again),
            ("starts at both", start == opening && again),
            ("a gap between entries", gap),
            ("fills a window", (start, end) == windows[0]),
            ("ends at a shutting minute", end == shutting),
            (
                "ends at the last one",
                end == shutting && windows.len() == 1,
            ),
            ("ends at 1,000,000", end == MINUTE_LIMIT),
        ]);
    }

    fn note<const N: usize>(&mut self, named: [(&'static str, bool); N]) {
        let has = named.into_iter().filter(|(_, has)| *has);
        self.traits.extend(has.map(|(name, _)| name));
    }
}
