//! How a closure day is read, checked and placed: as it should be, or with one rule changed.

use crate::answer::{Placed, Reason, Refusal};
use crate::impostors::changed::delivered;

/// The opening and the shutting minute of a window.
pub type Span = (i64, i64);

/// The rules of an engine.
#[derive(Clone, Copy)]
pub struct Rules {
    pub minute: fn([u8; 4]) -> i64,
    /// The most windows.
    pub windows: usize,
    /// The last minute of a window.
    pub last: i64,
    /// Whether a window is one by itself.
    pub lasts: fn(Span) -> bool,
    /// Whether a window may stand behind another.
    pub follows: fn(Span, Span) -> bool,
    /// The least and the most minutes of an entry.
    pub minutes: (i64, i64),
    /// Whether a window, and whether a duration is left out that is cut short.
    pub forgives: [bool; 2],
    /// Where an entry starts that is behind this minute, takes so many and is in this window.
    pub start: fn(i64, i64, Span) -> Option<i64>,
    /// How many windows are tried for an entry, the one in use among them.
    pub tries: usize,
    /// The window that the next entry may have, counted from the one of this entry.
    pub next: usize,
}

/// As document 02 has it.
pub const RULES: Rules = Rules {
    minute: |four| u32::from_be_bytes(four).into(),
    windows: 64,
    last: 1_000_000,
    lasts: |(opening, shutting)| opening < shutting,
    follows: |before, window| before.1 <= window.0,
    minutes: (1, 1_440),
    forgives: [false; 2],
    start: earliest,
    tries: usize::MAX,
    next: 0,
};

/// The first minute for an entry in a window.
pub fn earliest(end: i64, minutes: i64, (opening, shutting): Span) -> Option<i64> {
    let start = end.max(opening);
    (start + minutes <= shutting).then_some(start)
}

impl Rules {
    pub fn place(
        &self,
        windows: &[u8],
        durations: &[u8],
        out: &mut [u8],
    ) -> Result<Placed, Refusal> {
        let windows = self.windows(windows)?;
        let durations = self.durations(durations)?;
        let starts = self.starts(&windows, &durations)?;
        written(&starts, &durations, out)
    }

    pub fn windows(&self, bytes: &[u8]) -> Result<Vec<Span>, Refusal> {
        let mut windows: Vec<Span> = Vec::new();
        for eight in bytes.chunks(8) {
            match self.window_of(eight) {
                Some(window) if self.takes(&windows, window) => windows.push(window),
                None if self.forgives[0] => break,
                _ => return Err(Reason::ClosureRange.at(windows.len())),
            }
        }
        Ok(windows)
    }

    /// Whether a window may stand behind these.
    fn takes(&self, before: &[Span], window: Span) -> bool {
        let follows = |last: &Span| (self.follows)(*last, window);
        let in_range = window.0.max(window.1) <= self.last;
        let is_window = (self.lasts)(window) && in_range;
        before.len() < self.windows && before.last().is_none_or(follows) && is_window
    }

    pub fn durations(&self, bytes: &[u8]) -> Result<Vec<i64>, Refusal> {
        let (least, most) = self.minutes;
        let mut durations = Vec::new();
        for four in bytes.chunks(4) {
            match self.minute_of(four) {
                Some(minutes) if (least..=most).contains(&minutes) => durations.push(minutes),
                None if self.forgives[1] => break,
                _ => return Err(Reason::ClosureRange.at(durations.len())),
            }
        }
        Ok(durations)
    }

    /// None if it is cut short, as in the next.
    fn window_of(&self, bytes: &[u8]) -> Option<Span> {
        let (opening, shutting) = bytes.split_at_checked(4)?;
        Some((self.minute_of(opening)?, self.minute_of(shutting)?))
    }

    fn minute_of(&self, bytes: &[u8]) -> Option<i64> {
        bytes.first_chunk().map(|four| (self.minute)(*four))
    }

    pub fn starts(&self, windows: &[Span], durations: &[i64]) -> Result<Vec<i64>, Refusal> {
        let (mut first, mut end) = (0, 0);
        let mut starts = Vec::new();
        for (entry, minutes) in durations.iter().enumerate() {
            let mut tried = (first..windows.len()).take(self.tries);
            let start = |at| Some((at, (self.start)(end, *minutes, windows[at])?));
            let found = tried.find_map(start);
            let (at, start) = found.ok_or(Reason::NoPlacement.at(entry))?;
            starts.push(start);
            (first, end) = (at + self.next, start + minutes);
        }
        Ok(starts)
    }
}

/// How many are sound: all, or those before the first that is refused.
pub fn sound<T>(checked: Result<Vec<T>, Refusal>) -> usize {
    checked.map_or_else(|refusal| refusal.place as usize, |all| all.len())
}

/// 13 if the starts of these durations have no room.
pub fn short(durations: &[u8], out: &[u8]) -> Result<(), Refusal> {
    match out.len() < durations.len() / 4 * 4 {
        true => Err(Reason::OutputShort.at(0)),
        false => Ok(()),
    }
}

/// Writes the starts of a placement.
pub fn written(starts: &[i64], durations: &[i64], out: &mut [u8]) -> Result<Placed, Refusal> {
    let bytes = starts
        .iter()
        .flat_map(|start| (*start as u32).to_be_bytes());
    let bytes: Vec<u8> = bytes.collect();
    let length = delivered(&bytes, out)?;
    let last = starts.last().zip(durations.last());
    let end = last.map_or(0, |(start, minutes)| start + minutes);
    Ok(Placed {
        end: end as u64,
        length,
    })
}
