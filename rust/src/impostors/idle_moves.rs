//! Engines with a fault in the refusal of moves that do nothing.

use super::reading::{reading, Misreading, TABLES};
use super::Impostor;
use crate::answer::{Reason, Refusal};
use crate::call::CallKind;
use crate::commands::commands;
use crate::engine::Calls;
use crate::reference::table::Kind;
use crate::reference::{parse_table, rewritten};

/// The calls that take a normal table.
const NORMAL: &[CallKind] = TABLES.split_at(5).0;

pub const IDLE_MOVES: [Impostor; 14] = [
    impostor("16 comes before 6", reading::<BeforeMoveCount>()),
    impostor("16 comes behind all else", reading::<BehindAllElse>()),
    impostor("the place is the 41 that opens", reading::<WhereItOpens>()),
    impostor("the goal is a move", reading::<TheGoal>()),
    impostor("+= 0 is no effect", reading::<IncreaseBy0>()),
    impostor(":= 0 is no effect", reading::<Becomes0>()),
    impostor(
        "an effect whose constant is 0 is no effect",
        reading::<Constant0>(),
    ),
    impostor("adding is nothing", reading::<Adding>()),
    impostor("deleting is nothing", reading::<Deleting>()),
    impostor("the goal closes no move", reading::<OpenAtTheGoal>()),
    impostor("a move of 50 alone is something", reading::<Propositions>()),
    impostor("a move of 43 alone is something", reading::<Sums>()),
    Impostor {
        trick: "normal tables may have moves that do nothing",
        engine: reading::<NormalTables>(),
        kinds: NORMAL,
    },
    Impostor {
        trick: "no table is refused for such a move",
        engine: reading::<NoTable>(),
        kinds: TABLES,
    },
];

const fn impostor(trick: &'static str, engine: Calls) -> Impostor {
    Impostor {
        trick,
        engine,
        kinds: TABLES,
    }
}

/// Whether a 2B, a 2D or a 46 behind its terms counts for nothing.
type Nothing = fn(&[&[u8]]) -> bool;

/// A move as it stands in a table's bytes.
pub struct Row<'t> {
    /// Where it opens and where it closes.
    pub opens: usize,
    pub closes: usize,
    commands: Vec<&'t [u8]>,
}

impl Row<'_> {
    /// Whether it has nothing but conditions and what else counts for nothing.
    pub fn is_idle(&self, nothing: Nothing) -> bool {
        let mut entries = self.commands.split_inclusive(|command| command[0] != 0x57);
        entries.all(|entry| match entry {
            [.., [0x2B | 0x2D | 0x46, ..]] => nothing(entry),
            _ => true,
        })
    }
}

/// The moves that a 41 or a 47 closes.
pub fn rows(table: &[u8]) -> Vec<Row<'_>> {
    let (mut rows, mut open) = (Vec::new(), None::<Row>);
    for (at, command) in commands(table) {
        if matches!(command[0], 0x41 | 0x47) {
            let closed = open.take().map(|row| Row { closes: at, ..row });
            rows.extend(closed);
        }
        match (command[0], &mut open) {
            (0x41, _) => {
                open = Some(Row {
                    opens: at,
                    closes: at,
                    commands: Vec::new(),
                });
            }
            (_, Some(row)) => row.commands.push(command),
            _ => {}
        }
    }
    rows
}

/// The move that a refusal's place closes.
fn row_at(table: &[u8], refusal: Refusal) -> Option<Row<'_>> {
    let closes = |row: &Row| row.closes as u64 == refusal.place;
    rows(table).into_iter().find(closes)
}

/// The move for which a table is refused with 16.
fn refused_row(table: &[u8]) -> Option<Row<'_>> {
    let refusal = parse_table(table).err();
    let refusal = refusal.filter(|refusal| refusal.reason == Reason::IdleMove)?;
    row_at(table, refusal)
}

/// Refuses moves too that only have what counts for nothing here.
fn stricter(table: &[u8], nothing: Nothing) -> Result<Vec<u8>, Refusal> {
    let idle = rows(table).into_iter().find(|row| row.is_idle(nothing));
    let earlier = |row: &Row| match parse_table(table) {
        Err(refusal) if refusal.reason == Reason::TableTooLong => false,
        Err(refusal) if refusal.reason == Reason::Circle => true,
        Err(refusal) => refusal.place > row.closes as u64,
        Ok(_) => true,
    };
    match idle.filter(earlier) {
        Some(row) => Err(Reason::IdleMove.at(row.closes)),
        None => Ok(table.to_vec()),
    }
}

/// Passes over the moves that do nothing where the first of them is such a one.
fn laxer(table: &[u8], passes: fn(&Row) -> bool) -> Result<Vec<u8>, Refusal> {
    match refused_row(table).filter(passes) {
        Some(_) => rewritten(table),
        None => Ok(table.to_vec()),
    }
}

struct BeforeMoveCount;

impl Misreading for BeforeMoveCount {
    fn misread(table: &[u8]) -> Result<Vec<u8>, Refusal> {
        let early = match parse_table(table) {
            Err(refusal) if refusal.reason == Reason::MoveCount => row_at(table, refusal),
            _ => None,
        };
        match early.filter(|row| row.is_idle(|_| false)) {
            Some(row) => Err(Reason::IdleMove.at(row.closes)),
            None => Ok(table.to_vec()),
        }
    }
}

struct BehindAllElse;

impl Misreading for BehindAllElse {
    fn misread(table: &[u8]) -> Result<Vec<u8>, Refusal> {
        match refused_row(table) {
            Some(_) => rewritten(table).map(|_| table.to_vec()),
            None => Ok(table.to_vec()),
        }
    }
}

struct WhereItOpens;

impl Misreading for WhereItOpens {
    fn misread(table: &[u8]) -> Result<Vec<u8>, Refusal> {
        match refused_row(table) {
            Some(row) => Err(Reason::IdleMove.at(row.opens)),
            None => Ok(table.to_vec()),
        }
    }
}

struct TheGoal;

impl Misreading for TheGoal {
    fn misread(table: &[u8]) -> Result<Vec<u8>, Refusal> {
        match parse_table(table) {
            Ok(_) => Err(Reason::IdleMove.at(table.len() - 1)),
            Err(_) => Ok(table.to_vec()),
        }
    }
}

struct IncreaseBy0;

impl Misreading for IncreaseBy0 {
    fn misread(table: &[u8]) -> Result<Vec<u8>, Refusal> {
        stricter(table, |entry| matches!(entry, [[0x46, 1, _, 0, 0, 0, 0]]))
    }
}

struct Becomes0;

impl Misreading for Becomes0 {
    fn misread(table: &[u8]) -> Result<Vec<u8>, Refusal> {
        stricter(table, |entry| matches!(entry, [[0x46, 0, _, 0, 0, 0, 0]]))
    }
}

struct Constant0;

impl Misreading for Constant0 {
    fn misread(table: &[u8]) -> Result<Vec<u8>, Refusal> {
        stricter(table, |entry| {
            matches!(entry, [.., [0x46, _, _, 0, 0, 0, 0]])
        })
    }
}

struct Adding;

impl Misreading for Adding {
    fn misread(table: &[u8]) -> Result<Vec<u8>, Refusal> {
        stricter(table, |entry| matches!(entry, [[0x2B, _]]))
    }
}

struct Deleting;

impl Misreading for Deleting {
    fn misread(table: &[u8]) -> Result<Vec<u8>, Refusal> {
        stricter(table, |entry| matches!(entry, [[0x2D, _]]))
    }
}

struct OpenAtTheGoal;

impl Misreading for OpenAtTheGoal {
    fn misread(table: &[u8]) -> Result<Vec<u8>, Refusal> {
        match refused_row(table) {
            Some(row) if table[row.closes] == 0x47 => rewritten(table),
            _ => Ok(table.to_vec()),
        }
    }
}

struct Propositions;

impl Misreading for Propositions {
    fn misread(table: &[u8]) -> Result<Vec<u8>, Refusal> {
        laxer(table, |row| {
            let mut commands = row.commands.iter();
            !row.commands.is_empty() && commands.all(|command| command[0] == 0x50)
        })
    }
}

struct Sums;

impl Misreading for Sums {
    fn misread(table: &[u8]) -> Result<Vec<u8>, Refusal> {
        laxer(table, |row| {
            let mut commands = row.commands.iter();
            !row.commands.is_empty() && commands.all(|command| command[0] != 0x50)
        })
    }
}

struct NormalTables;

impl Misreading for NormalTables {
    fn misread(table: &[u8]) -> Result<Vec<u8>, Refusal> {
        match table.first() == Some(&Kind::Normal.byte()) {
            true => laxer(table, |_| true),
            false => Ok(table.to_vec()),
        }
    }
}

struct NoTable;

impl Misreading for NoTable {
    fn misread(table: &[u8]) -> Result<Vec<u8>, Refusal> {
        laxer(table, |_| true)
    }
}

#[cfg(test)]
mod tests {
    use super::*;
    use crate::engine::REFERENCE;
    use crate::generate::{call, Rng};
    use crate::harness::compare;

    struct Honest;

    impl Misreading for Honest {
        fn misread(table: &[u8]) -> Result<Vec<u8>, Refusal> {
            laxer(&stricter(table, |_| false)?, |_| false)
        }
    }

    /// What the impostors are made of finds what the reference does.
    #[test]
    fn an_honest_reading_is_the_references() {
        let mut rng = Rng::new(721);
        for _ in 0..4_000 {
            compare(&call(&mut rng), &REFERENCE, &reading::<Honest>()).unwrap();
        }
    }
}
