//! `step FOLDER MOVE`: the state after one real move.

use crate::commands::{Command, Run};
use crate::engine::Engine;
use crate::explain::Case;
use crate::files::Folder;
use crate::list;
use crate::outcome::{Done, Misuse, Outcome};
use crate::scan::{Block, Scan};
use crate::state::{changes, State};
use crate::words;
use std::ffi::{OsStr, OsString};

pub const STEP: Command = Command {
    name: "step",
    arguments: &["FOLDER", "MOVE"],
    summary: "the state after one real move",
    help: "\
MOVE is a move's number, such as 3 or a3; the table in FOLDER is a written one.
Every variable is shown, and of the propositions those that changed and those that are true.
Where the move changes something, the line has what was before and what is now.
No file is changed.
",
    run: Run::Either(run),
};

fn run(engine: &'static Engine, words: &[OsString]) -> Done {
    let mv = number(&words[1])?;
    let Folder { table, state } = Folder::read(&words[0])?;
    let mut after = vec![0; state.len()];
    if let Err(refusal) = (engine.calls.step)(&table, &state, mv, &mut after) {
        let case = Case {
            table: &table,
            state: &state,
            mv,
            ..Case::default()
        };
        return Ok(Outcome::Refused(case.explain(refusal)));
    }
    let scan = Scan::of(&table);
    let items = words::items(&scan, Block::Move(mv as usize));
    let changes = changes(&State::of(&scan, &state), &State::of(&scan, &after));
    Ok(Outcome::Answer(format!(
        "move a{mv}: {items}\nthe state after it:\n{changes}"
    )))
}

fn number(word: &OsStr) -> Result<u64, Misuse> {
    let text = word.to_string_lossy();
    list::number(&text).ok_or_else(|| {
        Misuse(format!(
            "'{text}' is no move: a move is a number, such as 3 or a3"
        ))
    })
}
