//! All closure days of a scope.

use super::check;
use campaign::engine::Place;
use campaign::generate::Day;
use campaign::placements::Window;
use std::ops::RangeInclusive;

/// All days whose windows lie within these minutes, with all lists of entries.
pub struct Scope {
    pub minutes: RangeInclusive<u64>,
    /// The most windows.
    pub windows: usize,
    /// The most entries.
    pub entries: usize,
    /// The longest entry.
    pub longest: u64,
}

/// Days from minute 0, and smaller ones where more bytes of a minute change and at the last minute.
const SMALL: [Scope; 4] = [
    Scope {
        minutes: 0..=9,
        windows: 4,
        entries: 4,
        longest: 3,
    },
    at(252..=258),
    at(65_533..=65_539),
    at(999_994..=1_000_000),
];

const fn at(minutes: RangeInclusive<u64>) -> Scope {
    Scope {
        minutes,
        windows: 3,
        entries: 3,
        longest: 5,
    }
}

/// Compares a call with all placements of all small days.
///
/// # Panics
/// If the call differs.
pub fn check_small_days(place: Place) {
    let mut counts = [0; 2];
    for scope in SMALL {
        let [placed, refused] = scope.check(place).unwrap_or_else(|fault| panic!("{fault}"));
        println!("{:?}: {placed} placed, {refused} refused", scope.minutes);
        counts = [counts[0] + placed, counts[1] + refused];
    }
    let [placed, refused] = counts;
    assert!(placed > 60_000 && refused > 300_000, "{counts:?}");
    // 2,587 lists of windows with 121 of entries, and three times 176 with 156.
    assert_eq!(placed + refused, 395_395);
}

impl Scope {
    pub fn days(&self) -> impl Iterator<Item = Day> + '_ {
        let entries = lists(self.entries, |_| (1..=self.longest).collect());
        let windows = lists(self.windows, |before| self.windows_behind(before));
        windows.into_iter().flat_map(move |windows| {
            let day = |durations: &Vec<u64>| Day {
                windows: windows.clone(),
                durations: durations.clone(),
            };
            entries.iter().map(day).collect::<Vec<Day>>()
        })
    }

    /// How many days have a placement and how many have none, or the first that differs.
    pub fn check(&self, place: Place) -> Result<[usize; 2], String> {
        let mut counts = [0; 2];
        for day in self.days() {
            let placed = check(&day, place)?;
            counts[usize::from(!placed)] += 1;
        }
        Ok(counts)
    }

    /// The windows that may follow others.
    fn windows_behind(&self, before: &[Window]) -> Vec<Window> {
        let (first, last) = (*self.minutes.start(), *self.minutes.end());
        let free = before.last().map_or(first, |window| window.1);
        let from = |opening: u64| (opening + 1..=last).map(move |shutting| (opening, shutting));
        (free..last).flat_map(from).collect()
    }
}

/// All lists of at most so many items, each one of those that may follow the items before.
fn lists<T: Copy>(most: usize, following: impl Fn(&[T]) -> Vec<T>) -> Vec<Vec<T>> {
    let longer = |list: &Vec<T>| -> Vec<Vec<T>> {
        let items = following(list).into_iter();
        items.map(|item| [list, &[item][..]].concat()).collect()
    };
    let mut level = vec![Vec::new()];
    let mut all = level.clone();
    for _ in 0..most {
        level = level.iter().flat_map(longer).collect();
        all.extend_from_slice(&level);
    }
    all
}
