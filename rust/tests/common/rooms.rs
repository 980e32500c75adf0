//! Lengths of an output.

use campaign::generate::Rng;

/// At, below and above the length of a result.
pub fn rooms(rng: &mut Rng, length: usize) -> Vec<usize> {
    let mut rooms: Vec<usize> = (length.saturating_sub(2)..length + 3).collect();
    rooms.extend([0, rng.below(length + 1), length + rng.below(90)]);
    rooms
}
