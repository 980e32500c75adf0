//! The commands of a table as they stand in its bytes, whether it is accepted or not.

/// Each command with its operands, behind its offset; the head is the first. They end before a
/// command that is unknown or cut.
pub fn commands(table: &[u8]) -> impl Iterator<Item = (usize, &[u8])> {
    let mut at = 0;
    std::iter::from_fn(move || {
        let start = at;
        at += width(*table.get(start)?)?;
        Some((start, table.get(start..at)?))
    })
}

/// The bytes of a command and its operands.
fn width(command: u8) -> Option<usize> {
    match command {
        0x41 | 0x45 | 0x47 => Some(1),
        0x50 | 0x2B | 0x2D => Some(2),
        0x54 | 0x4E | 0x57 => Some(4),
        0x43 => Some(6),
        0x46 => Some(7),
        _ => None,
    }
}

/// Whether a command is a term of weight 0.
pub fn is_zero_term(command: &[u8]) -> bool {
    matches!(command, [0x57, _, 0, 0])
}

/// Whether a table has the written head and a term of weight 0.
pub fn has_zero_term(table: &[u8]) -> bool {
    table.first() == Some(&0x54) && commands(table).any(|(_, command)| is_zero_term(command))
}

/// The table without its terms of weight 0; bytes behind its last known command stay.
pub fn without_zero_terms(table: &[u8]) -> Vec<u8> {
    let mut kept = Vec::with_capacity(table.len());
    let mut end = 0;
    for (at, command) in commands(table) {
        end = at + command.len();
        if !is_zero_term(command) {
            kept.extend(command);
        }
    }
    kept.extend(&table[end..]);
    kept
}

#[cfg(test)]
mod tests {
    use super::*;
    use crate::hex::bytes;

    #[test]
    fn commands_end_before_an_unknown_or_a_cut_one() {
        let table = bytes("54 01 01 00 47 50 00 57 00 0001");
        let offsets = |table: &[u8]| commands(table).map(|(at, _)| at).collect::<Vec<_>>();
        assert_eq!(offsets(&table), [0, 4, 5, 7]);
        assert_eq!(offsets(&table[..10]), [0, 4, 5]);
        assert_eq!(offsets(&bytes("54 01 01 00 00 47")), [0]);
        assert!(offsets(&[]).is_empty());
    }

    #[test]
    fn terms_of_weight_0_are_told_from_other_bytes() {
        let table = bytes("54 01 01 00 47 57 00 0000 43 57 00000000 57 01 0100 45 ff");
        assert!(has_zero_term(&table));
        let rest = bytes("54 01 01 00 47 43 57 00000000 57 01 0100 45 ff");
        assert_eq!(without_zero_terms(&table), rest);
        assert!(!has_zero_term(&rest));
        assert_eq!(without_zero_terms(&rest), rest);
        let normal = bytes("4e 00 02 00 47 57 00 0000");
        assert!(!has_zero_term(&normal));
    }
}
