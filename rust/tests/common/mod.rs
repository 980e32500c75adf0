//! What several files of tests use.

pub mod closure;
pub mod folder;
pub mod pddl_reader;
pub mod refused;
pub mod rooms;
pub mod rows;
pub mod tasks;
pub mod words;
