//! Buffers with canaries before and behind the part that is lent to a call.

use std::fmt::Debug;

/// How many canaries stand on each side.
pub const MARGIN: usize = 64;

/// An element with a canary for each position, so that copied canaries show too.
pub trait Canary: Copy + Debug + PartialEq {
    fn canary(position: usize) -> Self;
}

impl Canary for u8 {
    fn canary(position: usize) -> u8 {
        0xC3 ^ (position as u8).wrapping_mul(0x4D)
    }
}

impl Canary for i64 {
    fn canary(position: usize) -> i64 {
        0x5EED_CA4A_12E5_0001 ^ (position as i64).wrapping_mul(0x0001_0003_0005_0007)
    }
}

impl Canary for u64 {
    fn canary(position: usize) -> u64 {
        i64::canary(position) as u64
    }
}

/// A buffer to lend, in the middle of canaries.
#[derive(Clone, Debug, PartialEq, Eq)]
pub struct Guarded<T> {
    all: Vec<T>,
}

impl<T: Canary> Guarded<T> {
    /// A buffer whose element i is `fill(i)`.
    pub fn filled(length: usize, fill: impl Fn(usize) -> T) -> Guarded<T> {
        let before = (0..MARGIN).map(T::canary);
        let behind = (0..MARGIN).map(|i| T::canary(MARGIN + length + i));
        Guarded {
            all: before.chain((0..length).map(fill)).chain(behind).collect(),
        }
    }

    pub fn holding(contents: &[T]) -> Guarded<T> {
        Self::filled(contents.len(), |i| contents[i])
    }

    fn end(&self) -> usize {
        self.all.len() - MARGIN
    }

    /// The part to read.
    pub fn lent(&self) -> &[T] {
        &self.all[MARGIN..self.end()]
    }

    /// The part to write.
    pub fn lend(&mut self) -> &mut [T] {
        let end = self.end();
        &mut self.all[MARGIN..end]
    }

    /// The first canary that changed, by its distance from the start of the lent part.
    pub fn broken(&self) -> Option<isize> {
        (0..MARGIN)
            .chain(self.end()..self.all.len())
            .find(|i| self.all[*i] != T::canary(*i))
            .map(|i| i as isize - MARGIN as isize)
    }

    /// An error naming the buffer if a canary changed.
    pub fn check(&self, name: &str) -> Result<(), String> {
        match self.broken() {
            None => Ok(()),
            Some(i) => Err(format!("{name}: canary at {i} is {:?}", self.at(i))),
        }
    }

    /// An error naming the buffer if a canary or an element differs from `contents`.
    pub fn check_unchanged(&self, name: &str, contents: &[T]) -> Result<(), String> {
        self.check(name)?;
        if self.lent() == contents {
            Ok(())
        } else {
            Err(format!("{name}: an input changed"))
        }
    }

    fn at(&self, distance: isize) -> T {
        self.all[(distance + MARGIN as isize) as usize]
    }
}

#[cfg(test)]
mod tests {
    use super::*;

    #[test]
    fn the_lent_part_is_free_to_change() {
        let mut buffer = Guarded::<u8>::filled(5, |i| i as u8);
        buffer.lend().fill(9);
        assert_eq!(buffer.lent(), [9; 5]);
        assert_eq!(buffer.check("out"), Ok(()));
    }

    #[test]
    fn every_broken_canary_is_found() {
        for length in [0, 1, 7] {
            let whole = Guarded::<i64>::filled(length, |i| i as i64);
            for i in (0..MARGIN).chain(MARGIN + length..2 * MARGIN + length) {
                let mut buffer = whole.clone();
                buffer.all[i] ^= 1;
                assert_eq!(buffer.broken(), Some(i as isize - MARGIN as isize));
                assert!(buffer.check("memory").is_err());
            }
        }
    }

    #[test]
    fn a_changed_input_is_found() {
        let mut buffer = Guarded::holding(b"table");
        assert_eq!(buffer.check_unchanged("table", b"table"), Ok(()));
        buffer.lend()[2] = b'x';
        assert!(buffer.check_unchanged("table", b"table").is_err());
    }
}
