//! `show FILE`: a table in words.

use crate::commands::{Command, Run};
use crate::engine::Engine;
use crate::explain::Case;
use crate::files;
use crate::outcome::{Done, Outcome};
use crate::scan::{Code, Line, Scan};
use crate::state::value_count;
use crate::words;
use campaign::answer::{Reason, Refusal};
use std::ffi::OsString;
use std::path::Path;

pub const SHOW: Command = Command {
    name: "show",
    arguments: &["FILE"],
    summary: "a table in words, one command a line",
    help: "\
FILE is a written or a normal table. Each line has a command's offset and says what it is.
The terms of a sum have lines of their own; the condition or effect that closes them, on the
line behind them, has the whole sum. A term of weight 0 is an unused cell of a written table:
it contributes nothing, and only its own line shows it.
Of a refused table the commands before the refused one are shown, or all of them where the
table is refused as a whole (7, 17), then why it is refused.
",
    run: Run::Either(run),
};

fn run(engine: &'static Engine, words: &[OsString]) -> Done {
    let file = Path::new(&words[0]);
    let table = files::table(file)?;
    let scan = Scan::of(&table);
    let Err(refusal) = (engine.calls.read)(&table) else {
        let text = listing(&scan, &scan.lines);
        return Ok(Outcome::Answer(text + &held(engine, &scan)));
    };
    let case = Case {
        file: Some(file.display().to_string()),
        table: &table,
        ..Case::default()
    };
    let mut text = listing(&scan, readable(&scan, refusal));
    if !text.is_empty() {
        text += "\n";
    }
    Ok(Outcome::Refused(text + &case.explain(refusal)))
}

/// Which layers the rig's memory holds, where its calls are asked.
fn held(engine: &Engine, scan: &Scan) -> String {
    let [p, _, a] = scan.counts();
    match engine.holds([p, 2 * value_count(scan), a]) {
        said if said.is_empty() => said,
        said => format!("\n{said}"),
    }
}

/// The commands that were found good before a refusal.
fn readable<'s, 't>(scan: &'s Scan<'t>, refusal: Refusal) -> &'s [Line<'t>] {
    let good = |line: &&Line| match refusal.reason {
        Reason::Circle | Reason::BeyondRig => true,
        _ => line.end() as u64 <= refusal.place,
    };
    let count = scan.lines.iter().take_while(good).count();
    &scan.lines[..count]
}

/// Blocks, their items and the terms of these stand further and further in.
fn listing(scan: &Scan, lines: &[Line]) -> String {
    let shown = lines.iter().map(|line| {
        let indent = match line.form.code {
            Code::Head | Code::Move | Code::Goal | Code::End => 0,
            Code::Term => 6,
            _ => 2,
        };
        let text = words::line(scan.is_normal(), line);
        format!("{:6}  {:indent$}{text}\n", line.at, "")
    });
    shown.collect()
}
