//! `check FOLDER LIST`: whether a list of moves solves the campaign, or where it fails.

use crate::commands::{Command, Run};
use crate::explain::Case;
use crate::files::Folder;
use crate::list::List;
use crate::outcome::{Done, Outcome};
use crate::scan::{Block, Scan, END};
use crate::state::{changes, State};
use crate::words;
use campaign::answer::{Checked, Fault, Reason};
use campaign::proved;
use std::ffi::OsString;

pub const CHECK: Command = Command {
    name: "check",
    arguments: &["FOLDER", "LIST"],
    summary: "whether a list of moves solves the campaign, or where it fails",
    help: "\
LIST has the moves in their order, as another planner delivers them: a byte for each move, its
number. If its name ends in .txt, LIST is text: numbers such as 3 or a3, with blanks or line ends
between them, or actions of a PDDL plan such as (a3), one a line; what stands behind a ; is left
out. Entries are numbered from 0. LIST has 16000000 bytes at most.
The table in FOLDER is a written one. The answer is yes exactly when the conditions of each move
hold when it is made, the goal holds at the end, and no value on the way is beyond 1000000 or
-1000000. A list that leaves this range and comes back gets no for an answer.
With yes this shows the end state, and with no (exit status 3) why: the first entry whose move is
missing in the table, is not allowed or takes a variable out of the range, with the state before
it; or the parts of the goal that are not met, with the state at the end.
No file is changed.
",
    run: Run::Full(run),
};

fn run(words: &[OsString]) -> Done {
    let (folder, list) = (Folder::read(&words[0])?, List::read(&words[1])?);
    let Folder { table, state } = &folder;
    // As many bytes as the state has, so that refusal 13 never comes up here.
    let mut end = vec![0; state.len()];
    let answer = proved::check(table, state, &list.moves, &mut end);
    let check = Check {
        table: Scan::of(table),
        start: state,
        list: &list,
    };
    Ok(match answer {
        Ok(Checked::Yes { .. }) => Outcome::Answer(check.solves(&end)),
        Ok(Checked::Fails { index, fault }) => Outcome::No(check.fails(index as usize, fault)),
        Ok(Checked::GoalNotMet) => Outcome::No(check.misses_goal()),
        Err(refusal) => Outcome::Refused(check.case(state, 0).explain(refusal)),
    })
}

/// What was asked.
struct Check<'c> {
    table: Scan<'c>,
    start: &'c [u8],
    list: &'c List,
}

impl Check<'_> {
    fn solves(&self, end: &[u8]) -> String {
        let answer = match self.length() {
            0 => "yes: the goal is met, and no move is made",
            _ => "yes: every move can be made, and the goal is met at the end",
        };
        self.said(answer, &[], "after the list", end) + YES
    }

    fn fails(&self, entry: usize, fault: Fault) -> String {
        let mv = usize::from(self.list.moves[entry]);
        let before = self.after(entry);
        let (reason, what) = known(fault);
        let answer = format!("no: entry {entry} {what}");
        let mut rows = vec![("entry", self.entry(entry, mv))];
        let why = self.case(&before, mv).why(reason);
        rows.extend(why.into_iter().map(|why| ("why", why)));
        if self.list.may_be_text() {
            rows.push(("remedy", TEXT.into()));
        }
        self.said(&answer, &rows, &format!("before entry {entry}"), &before)
    }

    fn misses_goal(&self) -> String {
        let end = self.after(self.length());
        let answer = match self.length() {
            0 => "no: the goal is not met, and no move is made",
            _ => "no: every move can be made, and the goal is not met at the end",
        };
        let unmet = self.case(&end, 0).unmet().into_iter();
        let rows: Vec<_> = unmet.map(|part| ("goal", part)).collect();
        self.said(answer, &rows, "after the list", &end)
    }

    /// A state of the table, in which a move is made.
    fn case<'s>(&'s self, state: &'s [u8], mv: usize) -> Case<'s> {
        Case {
            table: self.table.table,
            state,
            mv: mv as u64,
            ..Case::default()
        }
    }

    fn length(&self) -> usize {
        self.list.moves.len()
    }

    /// An entry, with what its move needs and does, if the table has it.
    fn entry(&self, entry: usize, mv: usize) -> String {
        let line = self.list.line(entry);
        let line = line.map_or_else(String::new, |line| format!(" in line {line}"));
        let [_, _, moves] = self.table.counts();
        let items = match mv < moves {
            true => format!(": {}", words::items(&self.table, Block::Move(mv))),
            false => String::new(),
        };
        format!("{entry}{line}, move a{mv}{items}")
    }

    /// The state after so many entries, which can all be made: the end state of these, with a goal
    /// that asks for nothing.
    fn after(&self, entries: usize) -> Vec<u8> {
        let goal = self.table.opening(Block::Goal).map_or(0, |line| line.end());
        let without = [&self.table.table[..goal], &[END]].concat();
        let mut end = vec![0; self.start.len()];
        let made = &self.list.moves[..entries];
        let answer = proved::check(&without, self.start, made, &mut end);
        assert_eq!(answer, Ok(Checked::Yes { length: end.len() }));
        end
    }

    /// Everything that is printed.
    fn said(&self, answer: &str, rows: &[(&str, String)], when: &str, state: &[u8]) -> String {
        let table = &self.table;
        let [_, _, moves] = table.counts();
        let (length, moves) = (table.table.len(), words::count(moves, "move"));
        let list = match self.length() {
            0 => "no entry".into(),
            1 => "1 entry, number 0".into(),
            entries => format!("{entries} entries, numbers 0 to {}", entries - 1),
        };
        let mut text = format!("table     written, {length} bytes, {moves}\n");
        text += &format!("list      {list}\nanswer    {answer}\n");
        for (about, row) in rows {
            text += &format!("{about:8}  {row}\n");
        }
        let [start, state] = [self.start, state].map(|bytes| State::of(table, bytes));
        text + &format!("state     {when}:\n{}", changes(&start, &state))
    }
}

/// The refusal that `step` has for a fault, and what is said of the entry.
fn known(fault: Fault) -> (Reason, &'static str) {
    match fault {
        Fault::Missing => (
            Reason::NoSuchBlock,
            "has a move that is missing in the table",
        ),
        Fault::NotAllowed => (
            Reason::ConditionsFail,
            "has a move that is not allowed there",
        ),
        Fault::OutOfRange => (
            Reason::ResultRange,
            "takes a variable beyond 1000000 or -1000000",
        ),
    }
}

/// What is to be known of every list that solves.
const YES: &str = "\
The conditions of each move hold when it is made, the goal holds in this state, and no value on the
way is beyond 1000000 or -1000000.
";

/// Said where a list may have been meant as text.
const TEXT: &str = "the bytes of LIST are text, which is read as such if its name ends in .txt";
