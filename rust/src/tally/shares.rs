//! Calls counted by what they have to tell apart.

use std::collections::BTreeMap;

/// How many calls have each trait.
#[derive(Default)]
pub struct Shares {
    counts: BTreeMap<&'static str, usize>,
}

impl Shares {
    pub(super) fn add_one(&mut self, name: &'static str, has: bool) {
        *self.counts.entry(name).or_default() += usize::from(has);
    }

    /// How many calls have a trait.
    pub fn count(&self, name: &str) -> usize {
        self.counts.get(name).copied().unwrap_or(0)
    }

    /// Fails unless at least so many calls have each trait.
    ///
    /// # Panics
    /// If there are fewer.
    pub fn expect(&self, least: &[(&str, usize)]) {
        println!("{:?}", self.counts);
        for (name, least) in least {
            let count = self.count(name);
            assert!(count >= *least, "{name}: {count} only");
        }
    }
}
