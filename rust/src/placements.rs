//! All placements of a list in a closure day, found by trying every minute: for small days.
//!
//! A placement gives each entry a start. Every entry is wholly inside one window, and none starts
//! before the one before it ends.

/// The opening and the shutting minute.
pub type Window = (u64, u64);

/// Whether an entry is wholly inside one window. Ending at the shutting minute is inside.
pub fn is_inside(windows: &[Window], start: u64, duration: u64) -> bool {
    let holds = |(opening, shutting): &Window| *opening <= start && start + duration <= *shutting;
    windows.iter().any(holds)
}

/// Whether the starts are a placement of the list; of a long one too.
pub fn is_placement(windows: &[Window], durations: &[u64], starts: &[u64]) -> bool {
    let entries = || starts.iter().zip(durations);
    let ends = entries().map(|(start, duration)| start + duration);
    let mut followed = ends.zip(starts.iter().skip(1));
    starts.len() == durations.len()
        && followed.all(|(end, next)| end <= *next)
        && entries().all(|(start, duration)| is_inside(windows, *start, *duration))
}

/// The minute at which a placement of the list ends, 0 if the list has no entries.
pub fn end(durations: &[u64], starts: &[u64]) -> u64 {
    let last = starts.last().zip(durations.last());
    last.map_or(0, |(start, duration)| start + duration)
}

/// Every placement of a list.
pub struct Placements<'d> {
    durations: &'d [u64],
    /// The starts of each.
    found: Vec<Vec<u64>>,
    /// The first entry up to which the list has none; None if the whole list has one.
    pub first_without: Option<usize>,
}

impl<'d> Placements<'d> {
    /// Those of the first entry, then of the first two and so on: each with every minute, from the
    /// first opening to the last shutting, tried for the next entry.
    pub fn of(windows: &[Window], durations: &'d [u64]) -> Placements<'d> {
        let mut found = vec![Vec::new()];
        let mut first_without = None;
        for entry in 0..durations.len() {
            let longer = |starts: &Vec<u64>| extensions(windows, &durations[..=entry], starts);
            found = found.iter().flat_map(longer).collect();
            if found.is_empty() {
                first_without = first_without.or(Some(entry));
            }
        }
        Placements {
            durations,
            found,
            first_without,
        }
    }

    pub fn exist(&self) -> bool {
        !self.found.is_empty()
    }

    pub fn iter(&self) -> impl Iterator<Item = &[u64]> {
        self.found.iter().map(Vec::as_slice)
    }

    /// For each entry its smallest start in any of them; None if there are none.
    pub fn smallest_starts(&self) -> Option<Vec<u64>> {
        let smallest = |entry: usize| self.iter().map(|starts| starts[entry]).min();
        (0..self.durations.len()).map(smallest).collect()
    }

    /// The smallest end of any of them; None if there are none.
    pub fn smallest_end(&self) -> Option<u64> {
        self.iter().map(|starts| end(self.durations, starts)).min()
    }
}

/// The placements of a list that are these starts and one more.
fn extensions(windows: &[Window], durations: &[u64], starts: &[u64]) -> Vec<Vec<u64>> {
    let opening = windows.iter().map(|window| window.0).min().unwrap_or(0);
    let shutting = windows.iter().map(|window| window.1).max().unwrap_or(0);
    let mut tried = starts.to_vec();
    let mut found = Vec::new();
    for minute in opening..=shutting {
        tried.push(minute);
        if is_placement(windows, durations, &tried) {
            found.push(tried.clone());
        }
        tried.pop();
    }
    found
}

#[cfg(test)]
mod tests {
    use super::*;

    const TOUCHING: [Window; 3] = [(1, 4), (4, 6), (8, 9)];

    #[test]
    fn an_entry_is_inside_one_window() {
        let inside = |start, duration| is_inside(&TOUCHING, start, duration);
        assert!(inside(1, 3) && inside(3, 1) && inside(4, 2) && inside(8, 1));
        assert!(!inside(0, 1) && !inside(0, 4) && !inside(1, 4) && !inside(3, 2));
        assert!(!inside(6, 1) && !inside(5, 4) && !inside(8, 2) && !inside(9, 1));
        assert!(!is_inside(&[], 0, 1));
    }

    #[test]
    fn entries_stay_in_order_and_each_has_a_start() {
        let placed = |starts: &[u64]| is_placement(&TOUCHING, &[2, 1, 1], starts);
        assert!(placed(&[1, 3, 4]) && placed(&[2, 5, 8]));
        assert!(!placed(&[1, 2, 4]) && !placed(&[1, 4, 4]) && !placed(&[4, 1, 8]));
        assert!(!placed(&[3, 5, 8]) && !placed(&[0, 3, 4]) && !placed(&[1, 3, 6]));
        assert!(!placed(&[1, 3]) && !placed(&[1, 3, 4, 5]));
        assert!(is_placement(&[], &[], &[]));
    }

    #[test]
    fn placements_by_hand() {
        let found = Placements::of(&[(0, 3), (3, 5)], &[1, 2]);
        let all: Vec<&[u64]> = found.iter().collect();
        assert_eq!(all, [[0, 1], [0, 3], [1, 3], [2, 3]]);
        assert_eq!(found.smallest_starts(), Some(vec![0, 1]));
        assert_eq!(found.smallest_end(), Some(3));
    }

    #[test]
    fn a_list_without_any() {
        let found = Placements::of(&TOUCHING, &[1, 2, 2, 3]);
        assert!(!found.exist());
        assert_eq!(found.smallest_starts(), None);
        assert_eq!(found.smallest_end(), None);
    }

    #[test]
    fn the_first_entry_without_any() {
        let first = |durations: &[u64]| Placements::of(&TOUCHING, durations).first_without;
        assert_eq!(first(&[1, 2, 2, 1]), None);
        assert_eq!(first(&[1, 2, 2, 3]), Some(3));
        assert_eq!(first(&[1, 2, 3, 3]), Some(2));
        assert_eq!(first(&[1, 4, 2, 3]), Some(1));
        assert_eq!(first(&[4, 1, 1]), Some(0));
        assert_eq!(Placements::of(&[], &[1]).first_without, Some(0));
    }

    #[test]
    fn an_empty_list_has_one() {
        let found = Placements::of(&TOUCHING, &[]);
        assert_eq!(found.iter().collect::<Vec<_>>(), [&[] as &[u64]]);
        assert_eq!(found.smallest_starts(), Some(vec![]));
        assert_eq!(found.smallest_end(), Some(0));
        assert_eq!(found.first_without, None);
    }

    /// Every three minutes up to 10, whatever they begin with.
    #[test]
    fn none_is_left_out() {
        let minutes = || 0..=10;
        let lists =
            minutes().flat_map(|a| minutes().flat_map(move |b| minutes().map(move |c| [a, b, c])));
        let lists: Vec<[u64; 3]> = lists.collect();
        for durations in [[1, 1, 1], [2, 1, 2], [1, 3, 1], [3, 2, 1], [2, 2, 2]] {
            let placed = lists
                .iter()
                .filter(|list| is_placement(&TOUCHING, &durations, *list));
            let placed: Vec<&[u64]> = placed.map(|list| list.as_slice()).collect();
            let found = Placements::of(&TOUCHING, &durations);
            assert_eq!(found.iter().collect::<Vec<_>>(), placed, "{durations:?}");
        }
    }
}
