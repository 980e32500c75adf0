//! The windows of a closure and the minutes of entries, as they stand in their files.

use crate::files::Closure;
use crate::words;

/// How many bytes a window and a duration have.
pub const WINDOW: usize = 8;
pub const DURATION: usize = 4;

pub struct Window {
    pub opens: u64,
    pub shuts: u64,
}

impl Window {
    fn of(bytes: &[u8]) -> Window {
        let (opens, shuts) = bytes.split_at(WINDOW / 2);
        let [opens, shuts] = [opens, shuts].map(minute);
        Window { opens, shuts }
    }

    pub fn hours(&self) -> String {
        format!("{} to {}", clock(self.opens), clock(self.shuts))
    }

    /// Whether all of an entry lies inside.
    pub fn holds(&self, start: u64, end: u64) -> bool {
        self.opens <= start && end <= self.shuts
    }

    /// The part of it that is left from a minute on.
    pub fn from(&self, minute: u64) -> Option<Window> {
        (minute < self.shuts).then(|| Window {
            opens: self.opens.max(minute),
            shuts: self.shuts,
        })
    }

    pub fn minutes(&self) -> u64 {
        self.shuts - self.opens
    }
}

impl Closure {
    /// The windows that have all their bytes.
    pub fn windows(&self) -> Vec<Window> {
        let windows = self.windows.chunks_exact(WINDOW);
        windows.map(Window::of).collect()
    }

    /// The minutes of each entry whose duration has all its bytes.
    pub fn minutes(&self) -> impl ExactSizeIterator<Item = u64> + '_ {
        minutes(&self.durations)
    }
}

/// Minutes of four bytes each.
pub fn minutes(bytes: &[u8]) -> impl ExactSizeIterator<Item = u64> + '_ {
    bytes.chunks_exact(DURATION).map(minute)
}

fn minute(bytes: &[u8]) -> u64 {
    let four = bytes.try_into().expect("a minute has four bytes");
    u32::from_be_bytes(four).into()
}

/// A minute as hours and minutes since the closure's minute 0.
pub fn clock(minute: u64) -> String {
    format!("{:02}:{:02}", minute / 60, minute % 60)
}

/// A number of minutes.
pub fn lasting(minutes: u64) -> String {
    words::count(minutes as usize, "minute")
}
