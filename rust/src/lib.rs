//! The campaign planning engine in plain Rust: a reference for every call,
//! a generator of inputs, a harness that runs any engine over recorded outcomes, and the
//! proved engine behind the same trait.

#![deny(unsafe_code)]

pub mod answer;
pub mod call;
pub mod commands;
pub mod corpus;
pub mod engine;
pub mod fenced;
pub mod generate;
pub mod guarded;
pub mod harness;
pub mod helpful;
pub mod hex;
pub mod impostors;
pub mod input;
pub mod meaning;
pub mod memory;
pub mod parts;
pub mod placements;
pub mod proved;
pub mod real_plans;
pub mod reference;
pub mod room;
pub mod schedule;
pub mod tally;
pub mod walk;
