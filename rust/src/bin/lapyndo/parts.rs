//! From the parts of a normal goal back to the conditions of the table that they came from.

use crate::scan::{Block, Code, Line, Scan};

/// What a part says of the condition that it came from.
#[derive(Clone, Copy, Debug, PartialEq, Eq)]
pub enum Share {
    /// All of it.
    Whole,
    /// Of `=`: that the sum is at least the constant.
    AtLeast,
    /// Of `=`: that the sum is at most the constant.
    AtMost,
}

/// A 50 or 43 of the normal goal.
pub struct Part<'l> {
    pub line: &'l Line<'l>,
    pub condition: &'l Line<'l>,
    pub share: Share,
}

/// The parts of a normal goal in their order, with the conditions of the table whose normal form
/// it is; a normal table is its own.
pub fn of<'l>(table: &'l Scan, normal: &'l Scan) -> impl Iterator<Item = Part<'l>> {
    let conditions = table.items(Block::Goal);
    let shared = conditions.flat_map(|line| shares(line).iter().map(move |share| (line, *share)));
    let parts = normal.items(Block::Goal).zip(shared);
    parts.map(|(line, (condition, share))| Part {
        line,
        condition,
        share,
    })
}

/// The parts of a condition in their order: `=` has two, every other one.
fn shares(line: &Line) -> &'static [Share] {
    match line.form.code {
        Code::Condition if line.operand(0) == 4 => &[Share::AtLeast, Share::AtMost],
        _ => &[Share::Whole],
    }
}

#[cfg(test)]
mod tests {
    use super::*;
    use campaign::hex::bytes;
    use campaign::proved;

    /// Of each part of the normal goal, in their order: its offset, the offset of the condition
    /// that it came from, and what it says of that.
    fn all(table: &[u8], normal: &[u8]) -> Vec<(usize, usize, Share)> {
        let [table, normal] = [table, normal].map(Scan::of);
        let parts = of(&table, &normal);
        let parts = parts.map(|part| (part.line.at, part.condition.at, part.share));
        parts.collect()
    }

    /// Of a written table, with the engine's normal form.
    fn written(hex: &str) -> Vec<(usize, usize, Share)> {
        let (table, mut normal) = (bytes(hex), vec![0; 64_000]);
        let length = proved::normalise(&table, &mut normal).expect("an accepted table");
        all(&table, &normal[..length])
    }

    #[test]
    fn each_operator_alone() {
        for operator in 0..4 {
            let table = format!("54 00 01 00; 47 57 00 0001 43 0{operator} 00000005; 45");
            assert_eq!(written(&table), [(9, 9, Share::Whole)], "{operator}");
        }
        assert_eq!(
            written("54 00 01 00; 47 57 00 0001 43 04 00000005; 45"),
            [(9, 9, Share::AtLeast), (19, 9, Share::AtMost)]
        );
        assert_eq!(written("54 01 00 00; 47 50 00; 45"), [(5, 5, Share::Whole)]);
    }

    #[test]
    fn several_conditions_with_propositions_between() {
        let table =
            "54 02 02 00; 47 57 00 0001 43 03 00000005 50 01 57 00 0001 57 01 FFFF 43 04 00000000 \
            50 00 57 01 0001 43 01 00000002 43 04 00000000 57 00 0002 43 02 00000007; 45";
        assert_eq!(
            written(table),
            [
                (9, 9, Share::Whole),
                (15, 15, Share::Whole),
                (25, 25, Share::AtLeast),
                (39, 25, Share::AtMost),
                (45, 31, Share::Whole),
                (51, 37, Share::Whole),
                (57, 43, Share::AtLeast),
                (63, 43, Share::AtMost),
                (73, 53, Share::Whole),
            ]
        );
    }

    /// Moves before the goal, whose conditions are no parts, and a term of weight 0, which has no
    /// place in the normal form.
    #[test]
    fn offsets_that_differ() {
        let table = "54 01 01 01; 41 50 00 57 00 0001 43 04 00000001 46 01 00 00000005; \
            47 57 00 0000 43 04 00000003 50 00 57 00 0001 43 00 00000009; 45";
        assert_eq!(
            written(table),
            [
                (42, 29, Share::AtLeast),
                (48, 29, Share::AtMost),
                (54, 35, Share::Whole),
                (60, 41, Share::Whole),
            ]
        );
    }

    #[test]
    fn a_normal_table_is_its_own() {
        let table =
            bytes("4E 01 02 01; 41 2B 00; 47 50 00 57 00 0001 57 01 0002 43 00 00000003; 45");
        assert_eq!(
            all(&table, &table),
            [(8, 8, Share::Whole), (18, 18, Share::Whole)]
        );
    }

    #[test]
    fn an_empty_goal_has_none() {
        let empty = bytes("4E 00 00 00; 47 45");
        assert_eq!(all(&empty, &empty), []);
    }
}
