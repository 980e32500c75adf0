//! `lapyndo COMMAND ..`: a campaign's table, plan and steps in words, for people, and as files for
//! other planners; lists of theirs checked; its timetable in the hours of a closure; and stored tables
//! rewritten. With `--rig` in front, by the rig's calls.
//!
//! Every answer comes from the proved engine. This program reads and writes files, calls it, and
//! puts answers and refusals into words.

#![forbid(unsafe_code)]

mod check;
mod circle;
mod closure;
mod commands;
mod engine;
mod evaluate;
mod explain;
mod files;
mod layer;
mod list;
mod outcome;
mod parts;
mod pddl;
mod planning;
mod refused;
mod rewrite;
mod scan;
mod show;
mod state;
mod step;
mod timetable;
mod unplaced;
mod why;
mod words;

use std::env;
use std::process::ExitCode;

fn main() -> ExitCode {
    let words: Vec<_> = env::args_os().skip(1).collect();
    outcome::report(commands::run(&words))
}
