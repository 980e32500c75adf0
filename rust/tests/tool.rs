//! The program `lapyndo`: every command on every example, every refusal explained, and what it
//! says of damaged tables.
//!
//! A session in `data/tool/` has the files of a folder, as hexadecimal, as text or as the name of an
//! example; then for each `$` line the words given, all that is printed, and `=` with the status.
//! `cat` with a file's name stands for the file itself, which may be one that was written, and
//! `hex` for its bytes in hexadecimal.

use crate::common::folder::{examples, pddl_parts, repository, run, Folder, Printed, PDDL};
use crate::common::tasks::{normal_tasks, spoilt_tasks};
use campaign::answer::Refusal;
use campaign::generate::{full_length, long_stored, m1, stored, task, wrong_state, Rng, Task};
use campaign::harness::{normalised, planned, rewritten, texted};
use campaign::hex::{bytes, hex};
use campaign::proved::{self, PROVED};
use campaign::reference::table::Kind;
use std::fs;
use std::path::Path;

const EXAMPLES: &str = include_str!("data/tool/examples.txt");
const REFUSALS: &str = include_str!("data/tool/refusals.txt");
const ANSWERS: &str = include_str!("data/tool/answers.txt");

/// The file that `rewrite` is asked to write.
const OUT: &str = "out.bin";

/// Runs `lapyndo` in a folder.
pub fn lapyndo(folder: &Path, words: &[&str]) -> Printed {
    run(Path::new(env!("CARGO_BIN_EXE_lapyndo")), folder, words)
}

/// A file as text; nothing, and status 1, where there is no such file.
fn shown(folder: &Path, file: &str, text: fn(Vec<u8>) -> String) -> Printed {
    let found = fs::read(folder.join(file));
    Printed {
        status: i32::from(found.is_err()),
        out: found.map_or_else(|_| String::new(), text),
        error: String::new(),
    }
}

fn prints(folder: &Path, words: &str) -> Printed {
    match words.split_once(' ') {
        Some(("cat", file)) => shown(folder, file, |bytes| {
            String::from_utf8(bytes).expect("text")
        }),
        Some(("hex", file)) => shown(folder, file, |bytes| hex(&bytes) + "\n"),
        _ => lapyndo(folder, &words.split(' ').collect::<Vec<_>>()),
    }
}

/// Runs a session in a folder and answers how many commands it has.
///
/// # Panics
/// At the first command that prints anything else.
fn check_session(folder: &Path, session: &str) -> usize {
    let mut commands = session.split("$ ");
    let name = commands.next().expect("a session begins with its files");
    let mut count = 0;
    for command in commands {
        let (words, expected) = command.split_once('\n').expect("a line of words");
        let (expected, status) = expected.rsplit_once("= ").expect("a status");
        let printed = prints(folder, words);
        assert_eq!(printed.out, expected, "{name}$ {words}");
        assert_eq!(printed.error, "", "{name}$ {words}");
        assert_eq!(printed.status.to_string(), status.trim(), "{name}$ {words}");
        count += 1;
    }
    count
}

/// The folder of a session: a file for each line such as `task ..` behind its first. A name with an
/// ending is that of a text, with `\n` for the ends of its lines.
fn folder_of(session: &str) -> Folder {
    let lines = session.lines().skip(1);
    let lines = lines.take_while(|line| !line.starts_with("$ "));
    lines.fold(Folder::new(), |folder, line| {
        let (name, text) = line.split_once(' ').unwrap_or((line, ""));
        match name.contains('.') {
            true => folder.with(name, text.replace("\\n", "\n").as_bytes()),
            false => folder.with(&format!("{name}.bin"), &bytes(text)),
        }
    })
}

/// Runs sessions, each in a folder with its files, and answers how many commands they have.
pub fn check_sessions(text: &str) -> usize {
    let sessions = text.trim_end().split("\n\n# ");
    let checked = sessions.map(|session| check_session(&folder_of(session).0, session));
    checked.sum()
}

#[test]
fn every_command_on_every_example() {
    let mut sessions = EXAMPLES.trim_end().split("\n\nin ");
    for example in examples() {
        let session = sessions.next().expect("each example has a session");
        let name = session.trim_start_matches("in ").lines().next();
        assert_eq!(name, example.file_name().and_then(|name| name.to_str()));
        let read = |name| fs::read(example.join(name)).expect("a file");
        let folder = Folder::of(&read("task.bin"), &read("state.bin"));
        assert_eq!(check_session(&folder.0, session), 7);
        for file in PDDL {
            let written = fs::read(folder.0.join(file)).expect("a file");
            assert_eq!(written, read(file), "{}/{file}", example.display());
        }
    }
    assert_eq!(sessions.next(), None);
}

#[test]
fn answers_that_no_example_has() {
    assert!(check_sessions(ANSWERS) >= 53);
}

/// 13 and, without --rig, 14 never come up, and 1 needs a long table.
#[test]
fn refusals_are_explained() {
    assert!(check_sessions(REFUSALS) >= 99);
    for number in [2, 3, 4, 5, 6, 7, 8, 9, 10, 11, 12, 15, 16] {
        assert!(
            REFUSALS.contains(&format!("refusal {number} place ")),
            "{number}"
        );
    }
}

#[test]
fn a_long_written_table_is_refused() {
    let long = full_length(&mut Rng::new(701), Kind::Written, 32_001);
    let folder = Folder::of(&long.table, &long.state);
    let text = "\
refusal 1 place 0: the table is too long
  where    task.bin as a whole: 32001 bytes
  why      a written table has 32000 bytes at most
";
    for words in [
        "show task.bin",
        "decide .",
        "plan .",
        "why .",
        "pddl .",
        "rewrite task.bin out.bin",
    ] {
        let words: Vec<&str> = words.split(' ').collect();
        let printed = lapyndo(&folder.0, &words);
        assert_eq!((printed.status, &*printed.out), (1, text), "{words:?}");
    }
}

#[test]
fn the_longest_tables_are_shown_planned_and_rewritten() {
    let mut rng = Rng::new(702);
    for (kind, length) in [(Kind::Written, 32_000), (Kind::Normal, 64_000)] {
        let task = full_length(&mut rng, kind, length);
        let folder = Folder::of(&task.table, &task.state);
        let shown = lapyndo(&folder.0, &["show", "task.bin"]);
        assert_eq!(shown.status, 0);
        let last = format!("{:6}  end\n", length - 1);
        assert!(shown.out.ends_with(&last), "{:?}", shown.out.lines().last());
        check_printed(&task, &folder);
        let task = long_stored(&mut rng, kind, length);
        check_printed(&task, &Folder::of(&task.table, &task.state));
    }
}

/// What the proved engine answers is what is printed, whatever the table and the state are.
#[test]
fn damaged_campaigns() {
    let mut rng = Rng::new(703);
    let mut tasks = spoilt_tasks(&mut rng, 80);
    tasks.extend((0..40).map(|_| task(&mut rng, Kind::Written)));
    tasks.extend(normal_tasks(704, 20));
    tasks.extend(normal_tasks(705, 20).map(|task| stored(&mut rng, &task)));
    for (i, task) in tasks.iter_mut().enumerate() {
        let state = wrong_state(&mut rng, &task.state);
        if state.len() <= 184 && i % 4 == 0 {
            task.state = state;
        }
    }
    let mut refused = 0;
    for task in tasks.iter().chain([&m1()]) {
        refused += check_printed(task, &Folder::of(&task.table, &task.state));
    }
    assert!(refused > 100, "{refused} refusals");
}

/// Compares what is printed with what the engine answers; answers how many calls were refused.
fn check_printed(task: &Task, folder: &Folder) -> usize {
    let Task { table, state } = task;
    let normal = match table.first() {
        Some(0x4E) => proved::read(table).map(|_| table.clone()),
        _ => normalised(&PROVED, table),
    };
    let plan = normal.and_then(|normal| planned(&PROVED, &normal, state));
    let after = proved::step(table, state, 0, &mut vec![0; state.len()]);
    let text = texted(&PROVED, task);
    let rewritten = rewritten(&PROVED, table);
    let answers: [(&[&str], Option<Refusal>); 7] = [
        (&["show", "task.bin"], proved::read(table).err()),
        (&["decide", "."], plan.as_ref().err().copied()),
        (&["plan", "."], plan.as_ref().err().copied()),
        (&["why", "."], plan.as_ref().err().copied()),
        (&["step", ".", "a0"], after.err()),
        (&["pddl", "."], text.as_ref().err().copied()),
        (
            &["rewrite", "task.bin", OUT],
            rewritten.as_ref().err().copied(),
        ),
    ];
    for (words, refusal) in &answers {
        check_answer(task, &lapyndo(&folder.0, words), *refusal);
    }
    check_files(task, folder, text.ok(), rewritten.ok());
    answers
        .iter()
        .filter(|(_, refusal)| refusal.is_some())
        .count()
}

/// A refusal is printed, with its status; otherwise there is an answer.
pub fn check_answer(task: &Task, printed: &Printed, refusal: Option<Refusal>) {
    assert_eq!(printed.error, "", "{task}");
    let status = i32::from(refusal.is_some());
    assert_eq!(printed.status, status, "{task}\n{}", printed.out);
    if let Some(refusal) = refusal {
        let line = format!("{refusal}: ");
        let found = printed.out.lines().any(|found| found.starts_with(&line));
        assert!(found, "{task} {line}\n{}", printed.out);
    }
}

/// The files that `pddl` wrote are the parts of the engine's text, and what `rewrite` wrote is the
/// engine's table; after a refusal there are none.
fn check_files(task: &Task, folder: &Folder, text: Option<String>, rewritten: Option<Vec<u8>>) {
    let written = PDDL.map(|file| fs::read_to_string(folder.0.join(file)).ok());
    let expected = text.map_or([None, None], |text| pddl_parts(&text).map(Some));
    assert_eq!(written, expected, "{task}");
    assert_eq!(fs::read(folder.0.join(OUT)).ok(), rewritten, "{task}");
}

/// The script finds the program and the campaign from any folder, through a link and with a
/// path that has blanks, and says nothing of building.
#[test]
fn the_script_runs_from_another_folder() {
    let script = repository().join("lapyndo");
    let folder = Folder::of(&m1().table, &m1().state);
    let inner = folder.0.join("a campaign");
    std::fs::create_dir(&inner).expect("a folder");
    let link = inner.join("link to it");
    std::os::unix::fs::symlink(&script, &link).expect("a link");
    let expected = lapyndo(&folder.0, &["plan", "."]);
    assert_eq!(expected.status, 0);
    for program in [&script, &link] {
        assert_eq!(run(program, &inner, &["plan", ".."]), expected);
        assert_eq!(
            run(program, &folder.0, &["plan", "a campaign/.."]),
            expected
        );
        assert_eq!(run(program, &folder.0, &["plan"]).status, 2);
    }
}
