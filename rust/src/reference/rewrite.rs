//! A stored table without its moves that do nothing, from the bytes of the others.

use super::parse::Parsed;

/// The head with the number of moves that stay, their bytes as they are, and all from the goal on.
pub fn without_idle_moves(bytes: &[u8], stored: &Parsed) -> Vec<u8> {
    let (goal, moves) = stored.ranges.split_last().expect("the goal is a block");
    let blocks = moves.iter().zip(&stored.table.moves);
    let kept: Vec<&[u8]> = blocks
        .filter(|(_, block)| !block.is_idle())
        .map(|(range, _)| &bytes[range.clone()])
        .collect();
    let mut result = bytes[..3].to_vec();
    result.push(kept.len() as u8);
    result.extend(kept.concat());
    result.extend(&bytes[goal.start..]);
    result
}
