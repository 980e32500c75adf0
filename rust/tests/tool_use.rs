//! The program `lapyndo`: help, wrong use, and output that nobody reads.

use crate::common::folder::{pddl_parts, Folder, Printed, PDDL};
use crate::tool::lapyndo;
use campaign::engine::REFERENCE;
use campaign::generate::m1;
use campaign::harness::texted;
use std::fs::{self, File};
use std::io;
use std::os::unix::fs::symlink;
use std::process::{Command, Stdio};

/// The commands, and how each is given.
const COMMANDS: [(&str, &str); 9] = [
    ("show", "[--rig] show FILE"),
    ("decide", "[--rig] decide FOLDER"),
    ("plan", "[--rig] plan FOLDER"),
    ("why", "why FOLDER"),
    ("step", "[--rig] step FOLDER MOVE"),
    ("check", "check FOLDER LIST"),
    ("timetable", "timetable FOLDER"),
    ("pddl", "pddl FOLDER"),
    ("rewrite", "rewrite FILE OUT"),
];

fn here() -> Folder {
    Folder::of(&m1().table, &m1().state)
}

/// What is printed where the use is right.
fn answer(words: &[&str]) -> String {
    let printed = lapyndo(&here().0, words);
    assert_eq!((printed.status, &*printed.error), (0, ""), "{words:?}");
    printed.out
}

/// The one line on standard error where it is wrong.
pub fn complaint(printed: Printed) -> String {
    assert_eq!(
        (printed.status, &*printed.out),
        (2, ""),
        "{}",
        printed.error
    );
    assert_eq!(printed.error.lines().count(), 1, "{}", printed.error);
    let line = printed.error.strip_prefix("lapyndo: ");
    line.expect("the program's name").trim_end().into()
}

#[test]
fn help_of_all() {
    let help = answer(&["--help"]);
    for (_, usage) in COMMANDS {
        assert!(help.contains(&format!("lapyndo {usage} ")), "{help}");
    }
    for said in [
        "Exit status: 0",
        "1 a refusal",
        "2 wrong use",
        "of check 0 yes and 3 no",
        "standard output",
    ] {
        assert!(help.contains(said), "{help}");
    }
    assert_eq!(answer(&["help"]), help);
    assert_eq!(answer(&["-h"]), help);
}

#[test]
fn help_of_each() {
    for (name, usage) in COMMANDS {
        let help = answer(&[name, "--help"]);
        let usage = format!("usage: lapyndo {usage}\n");
        assert!(help.starts_with(&usage), "{help}");
        assert!(help.contains("Exit status: 0"), "{help}");
        assert!(help.lines().all(|line| line.len() <= 100), "{help}");
        for words in [
            vec!["help", name],
            vec![name, "-h"],
            vec![name, ".", "--help"],
        ] {
            assert_eq!(answer(&words), help, "{words:?}");
        }
    }
}

#[test]
fn no_command_at_all() {
    let printed = lapyndo(&here().0, &[]);
    assert_eq!((printed.status, &*printed.out), (2, ""));
    assert!(printed.error.starts_with("lapyndo: a command is missing\n"));
    assert!(
        printed.error.contains("lapyndo [--rig] plan FOLDER "),
        "{}",
        printed.error
    );
}

#[test]
fn wrong_words() {
    let here = here();
    let no_move = "is no move: a move is a number, such as 3 or a3";
    for (words, expected) in [
        ("pan .", "there is no command 'pan'; see lapyndo --help"),
        ("help pan", "there is no command 'pan'; see lapyndo --help"),
        ("help plan .", "usage: lapyndo help [COMMAND]"),
        (
            "plan",
            "0 arguments given; usage: lapyndo [--rig] plan FOLDER",
        ),
        ("why . x", "2 arguments given; usage: lapyndo why FOLDER"),
        (
            "timetable",
            "0 arguments given; usage: lapyndo timetable FOLDER",
        ),
        (
            "show task.bin x",
            "2 arguments given; usage: lapyndo [--rig] show FILE",
        ),
        (
            "step .",
            "1 argument given; usage: lapyndo [--rig] step FOLDER MOVE",
        ),
        (
            "rewrite task.bin",
            "1 argument given; usage: lapyndo rewrite FILE OUT",
        ),
        ("step . b1", &format!("'b1' {no_move}")),
        ("step . a", &format!("'a' {no_move}")),
        ("step . +1", &format!("'+1' {no_move}")),
        ("step . -1", &format!("'-1' {no_move}")),
        ("plan ", ": there is no such folder"),
    ] {
        let words: Vec<&str> = words.split(' ').collect();
        assert_eq!(complaint(lapyndo(&here.0, &words)), expected, "{words:?}");
    }
}

#[test]
fn files_that_cannot_be_read() {
    let here = here();
    let complain = |words: &[&str]| complaint(lapyndo(&here.0, words));
    assert_eq!(
        complain(&["show", "none.bin"]),
        "none.bin: there is no such file"
    );
    assert_eq!(
        complain(&["show", "."]),
        ".: this is a folder, and not a file"
    );
    assert_eq!(complain(&["plan", "none"]), "none: there is no such folder");
    assert_eq!(
        complain(&["plan", "task.bin"]),
        "task.bin: there is no such folder"
    );
    fs::remove_file(here.0.join("state.bin")).expect("the state is there");
    for words in [
        vec!["decide", "."],
        vec!["plan", "."],
        vec!["why", "."],
        vec!["step", ".", "0"],
        vec!["check", ".", "task.bin"],
        vec!["timetable", "."],
        vec!["pddl", "."],
    ] {
        assert_eq!(complain(&words), "./state.bin: there is no such file");
    }
    fs::create_dir(here.0.join("state.bin")).expect("a folder");
    assert_eq!(
        complain(&["plan", "."]),
        "./state.bin: this is a folder, and not a file"
    );
    fs::remove_file(here.0.join("task.bin")).expect("the table is there");
    assert_eq!(
        complain(&["plan", "."]),
        "./task.bin: there is no such file"
    );
}

#[test]
fn files_that_cannot_be_written() {
    let here = here();
    let complain = || complaint(lapyndo(&here.0, &["pddl", "."]));
    let [domain, problem] = PDDL.map(|file| here.0.join(file));
    fs::create_dir(&domain).expect("a folder");
    assert_eq!(
        complain(),
        "./domain.pddl: this is a folder, and not a file"
    );
    assert!(!problem.exists());
    fs::remove_dir(&domain).expect("the folder is empty");
    symlink("/dev/full", &problem).expect("a link");
    let said = complain();
    assert!(said.starts_with("./problem.pddl: "), "{said}");
}

/// Longer files of these names are replaced, and a refusal keeps them.
#[test]
fn files_that_were_there() {
    let old = "; old\n".repeat(500);
    let here = PDDL
        .iter()
        .fold(here(), |here, file| here.with(file, old.as_bytes()));
    let here = here.with("state.bin", &[]);
    assert_eq!(lapyndo(&here.0, &["pddl", "."]).status, 1);
    let read = |file| fs::read_to_string(here.0.join(file)).expect("a file");
    assert_eq!(PDDL.map(read), [&*old, &*old]);
    fs::write(here.0.join("state.bin"), m1().state).expect("a file");
    assert_eq!(lapyndo(&here.0, &["pddl", "."]).status, 0);
    let text = texted(&REFERENCE, &m1()).expect("M1 is accepted");
    assert_eq!(PDDL.map(read), pddl_parts(&text));
}

#[test]
fn files_that_are_too_long() {
    let table = "the file has more than 64000 bytes, and no table has more";
    let long = Folder::of(&vec![0x4E; 64_001], &[]);
    let complain = |words: &[&str]| complaint(lapyndo(&long.0, words));
    assert_eq!(
        complain(&["show", "task.bin"]),
        format!("task.bin: {table}")
    );
    assert_eq!(complain(&["plan", "."]), format!("./task.bin: {table}"));
    // A file without end is not read to its end.
    assert_eq!(
        complain(&["show", "/dev/zero"]),
        format!("/dev/zero: {table}")
    );
    let state = Folder::of(&m1().table, &[0; 185]);
    let said = complaint(lapyndo(&state.0, &["step", ".", "0"]));
    assert_eq!(
        said,
        "./state.bin: the file has more than 184 bytes, and no state has more"
    );
    let accepted = Folder::of(&m1().table, &[0; 184]);
    let printed = lapyndo(&accepted.0, &["step", ".", "0"]);
    assert!(
        printed.out.starts_with("refusal 8 place 0: "),
        "{printed:?}"
    );
}

/// The exit status and the errors of `lapyndo` with another standard output.
fn writing_to(out: impl Into<Stdio>, words: &[&str]) -> (Option<i32>, String) {
    let here = here();
    let mut command = Command::new(env!("CARGO_BIN_EXE_lapyndo"));
    let command = command.args(words).current_dir(&here.0).stdout(out);
    let output = command.stderr(Stdio::piped()).spawn();
    let output = output.and_then(|child| child.wait_with_output());
    let output = output.expect("the program runs");
    let error = String::from_utf8(output.stderr).expect("text");
    (output.status.code(), error)
}

#[test]
fn a_closed_pipe_is_no_error() {
    let closed = || io::pipe().expect("a pipe").1;
    assert_eq!(
        writing_to(closed(), &["show", "task.bin"]),
        (Some(0), "".into())
    );
    assert_eq!(
        writing_to(closed(), &["step", ".", "1"]),
        (Some(1), "".into())
    );
    assert_eq!(writing_to(closed(), &["--help"]), (Some(0), "".into()));
}

#[test]
fn a_full_disk_is_an_error() {
    let full = File::options().write(true).open("/dev/full");
    let (status, error) = writing_to(full.expect("a full device"), &["show", "task.bin"]);
    assert_eq!(status, Some(2));
    assert!(error.starts_with("lapyndo: standard output: "), "{error}");
}
