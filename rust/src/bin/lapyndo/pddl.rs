//! `pddl FOLDER`: a campaign as files for other planners.

use crate::commands::{Command, Run};
use crate::explain::Case;
use crate::files::{self, Folder};
use crate::outcome::{Done, Misuse, Outcome};
use crate::scan::Scan;
use crate::words;
use campaign::{proved, room};
use std::ffi::OsString;
use std::path::Path;

pub const PDDL: Command = Command {
    name: "pddl",
    arguments: &["FOLDER"],
    summary: "PDDL 2.1 files for other planners",
    help: "\
The table in FOLDER is a written one. Two files are written beside it, or replaced: domain.pddl
has the moves, problem.pddl the state and the goal. docs/PDDL.md describes their text.
Action an is move n, and a list of actions is a plan of these files exactly when the list of
moves solves the table from the state. PDDL sets no limit to values; step refuses a move that
takes one beyond 1000000 or -1000000, and check finds it in a planner's list.
A refusal writes no file.
",
    run: Run::Full(run),
};

fn run(words: &[OsString]) -> Done {
    let Folder { table, state } = Folder::read(&words[0])?;
    // No text is longer, which is proved, so that refusal 13 never comes up here.
    let mut text = vec![0; room::text_bytes(table.len())];
    match proved::pddl(&table, &state, &mut text) {
        Ok(length) => write(Path::new(&words[0]), &table, &text[..length]).map(Outcome::Answer),
        Err(refusal) => {
            let case = Case {
                table: &table,
                state: &state,
                ..Case::default()
            };
            Ok(Outcome::Refused(case.explain(refusal)))
        }
    }
}

/// Writes both files and says so.
fn write(folder: &Path, table: &[u8], text: &[u8]) -> Result<String, Misuse> {
    let (domain, problem) = split(text);
    let [_, _, moves] = Scan::of(table).counts();
    let actions = words::count(moves, "action");
    let mut said = format!("table     written, {} bytes\n", table.len());
    for (about, file, part, has) in [
        ("domain", "domain.pddl", domain, &*actions),
        ("problem", "problem.pddl", problem, "the state and the goal"),
    ] {
        let (file, length) = (folder.join(file), part.len());
        files::write(&file, part)?;
        said += &format!("{about:8}  {}, {length} bytes: {has}\n", file.display());
    }
    Ok(said + NAMES)
}

/// What a planner's answer is to be read by.
const NAMES: &str = "\
Action an is move n; pn is proposition n and vn is variable n.
";

/// The domain, and the problem, which begins a line.
fn split(text: &[u8]) -> (&[u8], &[u8]) {
    let problem = b"\n(define (problem ";
    let mut ends = text.windows(problem.len());
    let end = ends.position(|part| part == problem);
    text.split_at(end.expect("the text has a problem") + 1)
}
