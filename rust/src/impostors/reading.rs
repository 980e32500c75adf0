//! Engines that read other tables than those that they are lent.

use super::HONEST;
use crate::answer::Refusal;
use crate::call::CallKind;
use crate::engine::Calls;
use crate::reference::{block, blocking, check, decide, normalise, pddl, plan, read, step};

/// The calls that take a table and check it whole.
pub const TABLES: &[CallKind] = &[
    CallKind::Decide,
    CallKind::Plan,
    CallKind::Blocking,
    CallKind::Block,
    CallKind::Read,
    CallKind::Normalise,
    CallKind::Step,
    CallKind::Campaign,
    CallKind::Pddl,
    CallKind::Listing,
    CallKind::Check,
];

/// Those that take a written table.
pub const WRITTEN: &[CallKind] = TABLES.split_at(3).1;

/// The same without the block reader, which hands back parts of the lent table only.
pub const REREADING: &[CallKind] = WRITTEN.split_at(1).1;

/// What an engine reads in a table's place, or why it refuses the table.
pub trait Misreading {
    fn misread(table: &[u8]) -> Result<Vec<u8>, Refusal>;
}

/// An engine with such a reader. Its blocks are still parts of the lent table: where that is read as
/// one of another length, those that an honest engine hands back.
pub const fn reading<M: Misreading>() -> Calls {
    Calls {
        read: |table| read(&M::misread(table)?),
        block: |table, b| {
            let other = M::misread(table)?;
            let part = block(&other, b)?;
            let start = part.as_ptr() as usize - other.as_ptr() as usize;
            match other.len() == table.len() {
                true => Ok(&table[start..start + part.len()]),
                false => block(table, b),
            }
        },
        normalise: |table, out| normalise(&M::misread(table)?, out),
        step: |table, state, mv, out| step(&M::misread(table)?, state, mv, out),
        pddl: |table, state, out| pddl(&M::misread(table)?, state, out),
        check: |table, state, list, out| check(&M::misread(table)?, state, list, out),
        decide: |table, state, layers| decide(&M::misread(table)?, state, layers),
        plan: |table, state, layers, out| plan(&M::misread(table)?, state, layers, out),
        blocking: |table, state, layers| blocking(&M::misread(table)?, state, layers),
        ..HONEST
    }
}
