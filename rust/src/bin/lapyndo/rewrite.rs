//! `rewrite FILE OUT`: a stored table without its moves that do nothing.

use crate::commands::{Command, Run};
use crate::explain::Case;
use crate::files;
use crate::outcome::{Done, Outcome};
use crate::scan::{Block, Scan};
use crate::words;
use campaign::proved;
use std::ffi::OsString;
use std::path::Path;

pub const REWRITE: Command = Command {
    name: "rewrite",
    arguments: &["FILE", "OUT"],
    summary: "a stored table without the moves that do nothing",
    help: "\
FILE is a stored table, written or normal. A move without an effect (2B, 2D or 46) is nearly always
an unfinished row. Older releases accepted it, and now every command but this one refuses it (16),
so stored tables go through rewrite once.
OUT gets the table without such moves. The others are numbered anew, in their order, and all else
stays byte for byte. What is dropped is shown with its conditions, and each move that is left with
its old and its new number.
FILE is only read, and may not be OUT: what the dropped rows need stands nowhere else. An OUT that
is there is replaced as a whole, and stays as it is where something fails. A refusal writes no file.
",
    run: Run::Full(run),
};

fn run(words: &[OsString]) -> Done {
    let [file, out] = [0, 1].map(|i| Path::new(&words[i]));
    let stored = files::table(file)?;
    files::check_replaceable(out, file)?;
    // No rewritten table is longer than the stored one, so that refusal 13 never comes up here.
    let mut table = vec![0; stored.len()];
    let length = match proved::rewrite(&stored, &mut table) {
        Ok(length) => length,
        Err(refusal) => {
            let case = Case {
                file: Some(file.display().to_string()),
                table: &stored,
                ..Case::default()
            };
            return Ok(Outcome::Refused(case.explain(refusal)));
        }
    };
    let table = &table[..length];
    let scan = Scan::of(&stored);
    let moves = Moves::of(&scan);
    assert!(moves.make(table), "the numbers fit what is written");
    files::replace(out, table)?;
    let [file, out] = [file, out].map(|path| path.display().to_string());
    Ok(Outcome::Answer(moves.said(&file, &out, length)))
}

/// The moves of a stored table, by their old numbers.
struct Moves<'s> {
    stored: &'s Scan<'s>,
    kept: Vec<usize>,
    dropped: Vec<usize>,
}

impl Moves<'_> {
    fn of<'s>(stored: &'s Scan<'s>) -> Moves<'s> {
        let [_, _, count] = stored.counts();
        let (kept, dropped) = (0..count).partition(|b| stored.has_effect(Block::Move(*b)));
        Moves {
            stored,
            kept,
            dropped,
        }
    }

    /// Whether a table is the stored one with the kept moves alone, in this order.
    fn make(&self, table: &[u8]) -> bool {
        let stored = self.stored.table;
        let blocks = self.kept.iter().map(|b| Block::Move(*b));
        let blocks = blocks.chain([Block::Goal]);
        let mut made = stored[..4].to_vec();
        made[3] = self.kept.len() as u8;
        made.extend(blocks.flat_map(|block| self.stored.bytes(block)));
        made.extend(stored.last());
        made == table
    }

    fn said(&self, file: &str, out: &str, length: usize) -> String {
        let (kind, before) = (
            words::kind(self.stored.is_normal()),
            self.stored.table.len(),
        );
        let all = words::count(self.kept.len() + self.dropped.len(), "move");
        let kept = words::count(self.kept.len(), "move");
        let table = format!("table     {kind}, {before} bytes, {all}\n");
        let written = format!("written   {out}, {length} bytes, {kept}");
        match self.dropped.is_empty() {
            true => format!(
                "{table}dropped   nothing: there is no move without an effect\n\
                 {written}: equal to {file}, byte for byte\n"
            ),
            false => {
                let (dropped, kept) = (self.dropped_rows(), self.kept_rows());
                format!("{table}{dropped}{kept}{written}\n{FOLLOWS}")
            }
        }
    }

    fn dropped_rows(&self) -> String {
        let count = words::count(self.dropped.len(), "move");
        let mut rows =
            format!("dropped   {count} without an effect: old number, offset, conditions\n");
        for b in &self.dropped {
            let block = Block::Move(*b);
            let at = self.stored.opening(block).map_or(0, |line| line.at);
            let needs = words::items(self.stored, block);
            rows += &format!("  {:4} byte {at}: {needs}\n", format!("a{b}"));
        }
        rows
    }

    fn kept_rows(&self) -> String {
        if self.kept.is_empty() {
            return "kept      no move\n".into();
        }
        let count = words::count(self.kept.len(), "move");
        let mut rows = format!("kept      {count}: old number, new number\n");
        for (new, old) in self.kept.iter().enumerate() {
            rows += &format!("  {:4} -> a{new}\n", format!("a{old}"));
        }
        rows
    }
}

/// What else has to be known of a table with new numbers.
const FOLLOWS: &str = "\
A state fits the table as before. Lists of moves need the new numbers; normal forms and PDDL files
of the table have to be made again.
";
