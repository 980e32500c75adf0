//! A table with a state, and calls of it.

use crate::call::{Call, CallKind, Field};
use crate::hex::hex;
use crate::reference::table::{Kind, Table};
use crate::reference::{normal_form, parse_table};
use std::fmt;

/// The bytes of a table and of a state, both accepted unless it is said otherwise.
#[derive(Clone, Debug, PartialEq, Eq)]
pub struct Task {
    pub table: Vec<u8>,
    pub state: Vec<u8>,
}

impl Task {
    /// The task with the normal form of its written table.
    ///
    /// # Panics
    /// If the table is refused.
    pub fn normal(&self) -> Task {
        let written = parse_table(&self.table).expect("a written table is accepted");
        Task {
            table: normal_form(&written).encode(),
            state: self.state.clone(),
        }
    }

    /// The same if its table is a written one; a task with any other table as it is.
    pub fn in_normal_form(&self) -> Task {
        match parse_table(&self.table) {
            Ok(table) if table.kind == Kind::Written => self.normal(),
            _ => self.clone(),
        }
    }

    /// A call of this task that is lent nothing.
    pub fn call(&self, kind: CallKind) -> Call {
        let state: &[u8] = match kind.has(Field::State) {
            true => &self.state,
            false => &[],
        };
        Call {
            table: self.table.clone(),
            state: state.to_vec(),
            ..kind.call()
        }
    }

    /// `decide` of this task with so many numbers of memory.
    pub fn decide(&self, numbers: usize) -> Call {
        Call {
            numbers,
            ..self.call(CallKind::Decide)
        }
    }

    /// `plan` of this task with so many numbers of memory and bytes of output.
    pub fn plan(&self, numbers: usize, room: usize) -> Call {
        Call {
            numbers,
            room,
            ..self.call(CallKind::Plan)
        }
    }

    /// `campaign` of this task with so many bytes for the normal form, numbers of memory and
    /// bytes of output.
    pub fn campaign(&self, normal: usize, numbers: usize, room: usize) -> Call {
        Call {
            normal,
            numbers,
            room,
            ..self.call(CallKind::Campaign)
        }
    }

    /// `blocking` of this task with so many numbers of memory.
    pub fn blocking(&self, numbers: usize) -> Call {
        Call {
            numbers,
            ..self.call(CallKind::Blocking)
        }
    }

    /// `rewrite` of this task's table with so many bytes of output.
    pub fn rewrite(&self, room: usize) -> Call {
        Call {
            room,
            ..self.call(CallKind::Rewrite)
        }
    }

    /// `check` of this task with this list and so many bytes of output.
    pub fn check(&self, list: &[u8], room: usize) -> Call {
        Call {
            list: list.to_vec(),
            room,
            ..self.call(CallKind::Check)
        }
    }

    /// `pddl` of this task with so many bytes of output.
    pub fn pddl(&self, room: usize) -> Call {
        Call {
            room,
            ..self.call(CallKind::Pddl)
        }
    }
}

/// The normal form of a written table; a normal table as it is.
pub fn in_normal_form(table: Table) -> Table {
    match table.kind {
        Kind::Written => normal_form(&table),
        Kind::Normal => table,
    }
}

/// Both in hexadecimal.
impl fmt::Display for Task {
    fn fmt(&self, f: &mut fmt::Formatter<'_>) -> fmt::Result {
        write!(f, "{} {}", hex(&self.table), hex(&self.state))
    }
}
