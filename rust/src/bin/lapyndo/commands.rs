//! The commands, and help. A new command is a module with its `COMMAND`, and a line in `ALL`.

use crate::engine::{Engine, FULL, RIG, RIG_MOVES, RIG_NUMBERS, RIG_VARIABLES};
use crate::outcome::{Done, Misuse, Outcome};
use crate::{check, pddl, planning, rewrite, show, step, timetable, why, words};
use std::ffi::OsString;

pub struct Command {
    pub name: &'static str,
    /// The names of its arguments, all of which must be given.
    pub arguments: &'static [&'static str],
    /// One line for the list of commands.
    pub summary: &'static str,
    /// What its own help says further.
    pub help: &'static str,
    pub run: Run,
}

/// What runs a command. It is given as many arguments as have names.
pub enum Run {
    /// By the full engine's calls or by the rig's.
    Either(fn(&'static Engine, &[OsString]) -> Done),
    /// The rig has no such call.
    Full(fn(&[OsString]) -> Done),
}

/// Stands before a command that is to ask the rig's calls.
const ON_RIG: &str = "--rig";

const ALL: &[Command] = &[
    show::SHOW,
    planning::DECIDE,
    planning::PLAN,
    why::WHY,
    step::STEP,
    check::CHECK,
    timetable::TIMETABLE,
    pddl::PDDL,
    rewrite::REWRITE,
];

const INTRODUCTION: &str = "\
lapyndo puts a campaign into words: its table, its plan or why there is none, the state after a
move, and its timetable in the hours of a closure; writes it as files for other planners, and
checks the lists of moves that these deliver; and rewrites stored tables.

A FILE is a table, written (head 54) or normal (head 4E). A FOLDER has the table in task.bin
and the state in state.bin; timetable also wants windows.bin and durations.bin there.
Propositions are named p0, p1, .., variables v0, v1, .. and moves a0, a1, ..; in a normal table
v0 and (-v0) are the signed variables 0 and 1, and so on. Windows of a closure and entries of a
list are numbered from 0.
";

const STATUS: &str = "\
Exit status: 0 an answer (\"no plan\" is one), 1 a refusal, 2 wrong use; of check 0 yes and 3 no.
Answers and refusals go to standard output, wrong use to standard error.
A refusal is explained: its number, its place, and what stands there.
";

/// Runs what the words of the command line say.
pub fn run(line: &[OsString]) -> Done {
    let (engine, line) = match line.split_first() {
        Some((first, rest)) if first == ON_RIG => (&RIG, rest),
        _ => (&FULL, line),
    };
    let Some((first, rest)) = line.split_first() else {
        return Err(Misuse(format!("a command is missing\n\n{}", list())));
    };
    if is_help(first) || first == "help" {
        return help(rest);
    }
    let command = named(first)?;
    if rest.iter().any(is_help) {
        return Ok(Outcome::Answer(help_of(command)));
    }
    match command.run {
        Run::Either(run) => run(engine, arguments(command, rest)?),
        Run::Full(_) if engine.is_rig || names_rig(rest) => Err(Misuse(format!(
            "the rig has no such call as {}; {ON_RIG} goes with {}",
            command.name,
            on_rig()
        ))),
        Run::Full(run) => run(arguments(command, rest)?),
    }
}

/// The words behind a command, if they are as many as its arguments.
fn arguments<'w>(command: &Command, words: &'w [OsString]) -> Result<&'w [OsString], Misuse> {
    let usage = usage(command);
    if names_rig(words) {
        return Err(Misuse(format!(
            "{ON_RIG} stands before the command; usage: {usage}"
        )));
    }
    if words.len() != command.arguments.len() {
        let given = words::count(words.len(), "argument");
        return Err(Misuse(format!("{given} given; usage: {usage}")));
    }
    Ok(words)
}

fn names_rig(words: &[OsString]) -> bool {
    words.iter().any(|word| word == ON_RIG)
}

fn is_help(word: &OsString) -> bool {
    word == "--help" || word == "-h"
}

fn named(word: &OsString) -> Result<&'static Command, Misuse> {
    let command = ALL.iter().find(|command| word == command.name);
    command.ok_or_else(|| {
        let word = word.to_string_lossy();
        Misuse(format!("there is no command '{word}'; see lapyndo --help"))
    })
}

/// Help of all commands, or of the one that is named.
fn help(rest: &[OsString]) -> Done {
    match rest {
        [] => Ok(Outcome::Answer(format!(
            "{INTRODUCTION}\n{}\n{}\n{STATUS}",
            list(),
            rig_help()
        ))),
        [word] => Ok(Outcome::Answer(help_of(named(word)?))),
        _ => Err(Misuse("usage: lapyndo help [COMMAND]".into())),
    }
}

/// How a command is given, with --rig where it may stand.
fn usage(command: &Command) -> String {
    let rig: &[&str] = match command.run {
        Run::Either(_) => &["[--rig]"],
        Run::Full(_) => &[],
    };
    [&["lapyndo"], rig, &[command.name], command.arguments]
        .concat()
        .join(" ")
}

fn help_of(command: &Command) -> String {
    let Command { summary, help, .. } = command;
    let rig = match command.run {
        Run::Either(_) => rig_help(),
        Run::Full(_) => format!(
            "The rig has no such call: {ON_RIG} goes with {}.\n",
            on_rig()
        ),
    };
    let usage = usage(command);
    format!("usage: {usage}\n\n{summary}\n\n{help}\n{rig}\n{STATUS}")
}

/// What is to be known of the rig's calls.
fn rig_help() -> String {
    format!(
        "\
With --rig, {} ask the calls of the rig's board. These refuse a table
with more than {RIG_VARIABLES} variables or {RIG_MOVES} moves (17), and have {RIG_NUMBERS} numbers of memory for layers and
no more (14): show says which layers of a table fit, decide and plan how many numbers were used.
",
        on_rig()
    )
}

/// The commands that the rig has calls for.
fn on_rig() -> String {
    let both = ALL
        .iter()
        .filter(|command| matches!(command.run, Run::Either(_)));
    let names: Vec<&str> = both.map(|command| command.name).collect();
    words::list(&names)
}

/// A line for each command.
fn list() -> String {
    let usages: Vec<String> = ALL.iter().map(usage).collect();
    let width = usages.iter().map(String::len).max().unwrap_or(0);
    let lines = usages.iter().zip(ALL);
    let lines = lines.map(|(usage, command)| format!("  {usage:width$}  {}\n", command.summary));
    let own = "lapyndo COMMAND --help";
    format!(
        "{}  {own:width$}  more about one command\n",
        lines.collect::<String>()
    )
}
