//! Closure hours: the entries of a list, each as early as it can be.

use crate::answer::{Placed, Reason, Refusal};

const WINDOW_LIMIT: usize = 64;
const MINUTE_LIMIT: u32 = 1_000_000;
const DURATION_LIMIT: u32 = 1_440;

/// Places the entries of a list in the windows of a closure day and writes their starts.
pub fn place(windows: &[u8], durations: &[u8], out: &mut [u8]) -> Result<Placed, Refusal> {
    let windows = parse_windows(windows)?;
    let durations = parse_durations(durations)?;
    let Placement { starts, end } = earliest(&windows, &durations)?;
    let length = write(&starts, out)?;
    Ok(Placed {
        end: end.into(),
        length,
    })
}

/// Entries lie between the two minutes.
#[derive(Clone, Copy, Debug, PartialEq, Eq)]
struct Window {
    opening: u32,
    shutting: u32,
}

impl Window {
    fn decode([a, b, c, d, e, f, g, h]: [u8; 8]) -> Window {
        Window {
            opening: u32::from_be_bytes([a, b, c, d]),
            shutting: u32::from_be_bytes([e, f, g, h]),
        }
    }

    /// Whether the window may stand behind one that shuts at this minute.
    fn follows(self, shutting: u32) -> bool {
        shutting <= self.opening && self.opening < self.shutting && self.shutting <= MINUTE_LIMIT
    }
}

/// Makes all checks of the windows.
fn parse_windows(bytes: &[u8]) -> Result<Vec<Window>, Refusal> {
    let (whole, cut) = bytes.as_chunks::<8>();
    let mut windows = Vec::new();
    let mut before = 0;
    for (place, eight) in whole.iter().enumerate() {
        let window = Window::decode(*eight);
        if place == WINDOW_LIMIT || !window.follows(before) {
            return Err(Reason::ClosureRange.at(place));
        }
        before = window.shutting;
        windows.push(window);
    }
    nothing_cut(cut, whole.len())?;
    Ok(windows)
}

/// Makes all checks of the durations.
fn parse_durations(bytes: &[u8]) -> Result<Vec<u32>, Refusal> {
    let (whole, cut) = bytes.as_chunks::<4>();
    let durations: Vec<u32> = whole.iter().map(|four| u32::from_be_bytes(*four)).collect();
    let in_range = |duration: &u32| (1..=DURATION_LIMIT).contains(duration);
    if let Some(place) = durations.iter().position(|duration| !in_range(duration)) {
        return Err(Reason::ClosureRange.at(place));
    }
    nothing_cut(cut, whole.len())?;
    Ok(durations)
}

/// A window or duration cut short is out of range.
fn nothing_cut(rest: &[u8], place: usize) -> Result<(), Refusal> {
    if rest.is_empty() {
        Ok(())
    } else {
        Err(Reason::ClosureRange.at(place))
    }
}

/// The start of each entry, and the minute at which the last one ends, 0 if there is none.
#[derive(Debug, PartialEq, Eq)]
struct Placement {
    starts: Vec<u32>,
    end: u32,
}

/// The placement in which every entry starts as early as it can.
///
/// No entry comes back to a window that one before it did not fit into: it starts behind that one.
fn earliest(windows: &[Window], durations: &[u32]) -> Result<Placement, Refusal> {
    let mut windows = windows.iter().peekable();
    let mut starts = Vec::with_capacity(durations.len());
    let mut end = 0;
    for (entry, duration) in durations.iter().enumerate() {
        let start = loop {
            let window = windows.peek().ok_or(Reason::NoPlacement.at(entry))?;
            let start = window.opening.max(end);
            if start + duration <= window.shutting {
                break start;
            }
            windows.next();
        };
        starts.push(start);
        end = start + duration;
    }
    Ok(Placement { starts, end })
}

/// Writes the starts from the start of an output and answers their length.
fn write(starts: &[u32], out: &mut [u8]) -> Result<usize, Refusal> {
    let length = 4 * starts.len();
    let written = out.get_mut(..length).ok_or(Reason::OutputShort.at(0))?;
    for (four, start) in written.chunks_exact_mut(4).zip(starts) {
        four.copy_from_slice(&start.to_be_bytes());
    }
    Ok(length)
}

#[cfg(test)]
mod tests {
    use super::*;

    fn windows(pairs: &[(u32, u32)]) -> Vec<Window> {
        let window = |(opening, shutting): &(u32, u32)| Window {
            opening: *opening,
            shutting: *shutting,
        };
        pairs.iter().map(window).collect()
    }

    fn placed(pairs: &[(u32, u32)], durations: &[u32]) -> Result<Placement, Refusal> {
        earliest(&windows(pairs), durations)
    }

    fn placement(starts: &[u32], end: u32) -> Result<Placement, Refusal> {
        let starts = starts.to_vec();
        Ok(Placement { starts, end })
    }

    #[test]
    fn minutes_are_big_endian() {
        let bytes = [0, 1, 2, 3, 0, 4, 5, 6];
        let expected = windows(&[(0x010203, 0x040506)]);
        assert_eq!(parse_windows(&bytes), Ok(expected));
        assert_eq!(parse_durations(&[0, 0, 5, 0xA0]), Ok(vec![1_440]));
    }

    #[test]
    fn a_window_follows_the_one_before() {
        let window = Window {
            opening: 10,
            shutting: 20,
        };
        assert!(window.follows(0) && window.follows(10));
        assert!(!window.follows(11) && !window.follows(20));
    }

    #[test]
    fn an_entry_waits_for_a_window_that_holds_it() {
        let day = [(5, 10), (10, 14), (20, 30)];
        assert_eq!(placed(&day, &[5]), placement(&[5], 10));
        assert_eq!(placed(&day, &[2, 4]), placement(&[5, 10], 14));
        assert_eq!(placed(&day, &[2, 6]), placement(&[5, 20], 26));
        assert_eq!(placed(&day, &[11]), Err(Reason::NoPlacement.at(0)));
    }

    #[test]
    fn no_entry_comes_before_the_one_before() {
        let day = [(0, 3), (10, 20)];
        assert_eq!(placed(&day, &[4, 1, 2]), placement(&[10, 14, 15], 17));
        assert_eq!(placed(&day, &[4, 1, 6]), Err(Reason::NoPlacement.at(2)));
    }

    #[test]
    fn an_empty_list_ends_at_0() {
        assert_eq!(placed(&[(5, 10)], &[]), placement(&[], 0));
        assert_eq!(placed(&[], &[]), placement(&[], 0));
    }
}
