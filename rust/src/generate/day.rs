//! A closure day as numbers, and calls of it.

use crate::call::{Call, CallKind};
use crate::placements::Window;

/// The most windows of a day.
pub const WINDOW_LIMIT: usize = 64;

/// The last minute that a window may name.
pub const MINUTE_LIMIT: u64 = 1_000_000;

/// The most minutes of an entry.
pub const DURATION_LIMIT: u64 = 1_440;

/// The windows of a closure day, and how many minutes each entry of a list takes; both accepted unless
/// it is said otherwise.
#[derive(Clone, Debug, PartialEq, Eq)]
pub struct Day {
    pub windows: Vec<Window>,
    pub durations: Vec<u64>,
}

impl Day {
    /// The day that a call is given, accepted or not, without a window or duration that is cut.
    pub fn of(call: &Call) -> Day {
        Day {
            windows: windows(&call.windows),
            durations: minutes(&call.durations),
        }
    }

    /// `place` of this day with so many bytes of output.
    pub fn place(&self, room: usize) -> Call {
        Call {
            windows: window_bytes(&self.windows),
            durations: minute_bytes(&self.durations),
            room,
            ..CallKind::Place.call()
        }
    }

    /// The bytes of its starts.
    pub fn length(&self) -> usize {
        4 * self.durations.len()
    }
}

/// The minutes that whole fours of bytes stand for.
pub fn minutes(bytes: &[u8]) -> Vec<u64> {
    let (whole, _) = bytes.as_chunks::<4>();
    let minute = |four: &[u8; 4]| u64::from(u32::from_be_bytes(*four));
    whole.iter().map(minute).collect()
}

/// The windows that whole eights of bytes stand for.
pub fn windows(bytes: &[u8]) -> Vec<Window> {
    let ends = minutes(bytes);
    let pairs = ends.chunks_exact(2);
    pairs.map(|pair| (pair[0], pair[1])).collect()
}

/// The windows with touching ones made one.
pub fn joined<M: Copy + PartialEq>(windows: &[(M, M)]) -> Vec<(M, M)> {
    let mut joined: Vec<(M, M)> = Vec::new();
    for (opening, shutting) in windows {
        match joined.last_mut().filter(|last| last.1 == *opening) {
            Some(last) => last.1 = *shutting,
            None => joined.push((*opening, *shutting)),
        }
    }
    joined
}

/// Minutes as they stand in bytes.
///
/// # Panics
/// If one does not fit four bytes, as in the next.
pub fn minute_bytes(minutes: &[u64]) -> Vec<u8> {
    let four = |minute: &u64| u32::try_from(*minute).expect("four bytes").to_be_bytes();
    minutes.iter().flat_map(four).collect()
}

/// Windows as they stand in bytes.
pub fn window_bytes(windows: &[Window]) -> Vec<u8> {
    let both = |window: &Window| minute_bytes(&[window.0, window.1]);
    windows.iter().flat_map(both).collect()
}

#[cfg(test)]
mod tests {
    use super::*;

    #[test]
    fn a_day_is_read_back_from_its_call() {
        let day = Day {
            windows: vec![(0x0102_0304, 5), (6, 7)],
            durations: vec![0x0A0B_0C0D, 1],
        };
        let mut call = day.place(8);
        assert_eq!(
            call.to_string(),
            "01020304000000050000000600000007 0a0b0c0d00000001 8"
        );
        assert_eq!(Day::of(&call), day);
        call.windows.extend([0; 7]);
        call.durations.extend([0; 3]);
        assert_eq!(Day::of(&call), day);
    }

    #[test]
    fn touching_windows_are_joined() {
        let windows = [(1, 2), (2, 4), (5, 6), (6, 7), (7, 9)];
        assert_eq!(joined(&windows), [(1, 4), (5, 9)]);
    }
}
