//! `lapyndo --rig`: what it says of the rig's limits and memory, put to the rig's calls, and that it
//! says everything else as without `--rig`.

use crate::common::folder::{examples, Folder, Printed};
use crate::tool::{check_answer, check_sessions, lapyndo};
use crate::tool_use::complaint;
use campaign::answer::{Decision, Reason, Refusal};
use campaign::generate::{m1, task_of, wrong_state, Rng, Task};
use campaign::proved::rig;
use campaign::reference::table::Kind;
use std::fs;

const SESSIONS: &str = include_str!("data/tool/rig.txt");

/// The numbers of layer memory on the rig's board.
const NUMBERS: usize = 2048;

#[test]
fn limits_and_memory_are_explained() {
    assert!(check_sessions(SESSIONS) >= 45);
    for number in [3, 7, 10, 11, 14, 15, 17] {
        let line = format!("refusal {number} place ");
        assert!(SESSIONS.contains(&line), "{number}");
    }
}

/// Runs `lapyndo --rig`.
fn on_rig(folder: &Folder, words: &[&str]) -> Printed {
    lapyndo(&folder.0, &[&["--rig"], words].concat())
}

/// What is printed, without what is said of the rig's memory.
fn without_memory(printed: &Printed) -> String {
    let lines = printed.out.lines();
    let other = lines.filter(|line| !line.is_empty() && !line.starts_with("memory "));
    other.collect::<Vec<_>>().join("\n")
}

/// Within the limits the rig says what the full engine says.
#[test]
fn examples_within_the_limits() {
    let mut told = 0;
    for example in examples() {
        let read = |name| fs::read(example.join(name)).expect("a file");
        let folder = Folder::of(&read("task.bin"), &read("state.bin"));
        for words in [
            &["show", "task.bin"][..],
            &["decide", "."],
            &["plan", "."],
            &["step", ".", "a0"],
        ] {
            let (rig, full) = (on_rig(&folder, words), lapyndo(&folder.0, words));
            assert_eq!((rig.status, &rig.error), (full.status, &full.error));
            assert_eq!(without_memory(&rig), without_memory(&full), "{words:?}");
            assert!(!full.out.contains("memory "), "{words:?}");
            told += usize::from(rig.out.contains("memory "));
        }
    }
    assert_eq!(told, 3 * examples().len());
}

/// Tables at the limits and beyond them, some with a wrong state.
fn around_the_limits(rng: &mut Rng) -> Vec<Task> {
    let mut tasks = Vec::new();
    for moves in [1, 15, 16, 17, 64] {
        for variables in [0, 4, 7, 8, 9, 16] {
            let propositions = [0, 5, 120][rng.below(3)];
            let written = [propositions, variables, moves];
            tasks.push(task_of(rng, Kind::Written, written));
            let normal = [propositions, 2 * variables, moves];
            tasks.push(task_of(rng, Kind::Normal, normal));
        }
    }
    for task in tasks.iter_mut().step_by(4) {
        let state = wrong_state(rng, &task.state);
        if state.len() <= 184 {
            task.state = state;
        }
    }
    for propositions in [0, 1, 60, 120] {
        tasks.extend((0..8).map(|wanted| chain(propositions, wanted)));
    }
    tasks
}

/// At the ceiling: the goal is met in layer 121 + the number of the variable that it wants.
///
/// The first move hands each value on, so that v7 has what v0 had seven layers before. Each of the
/// others waits for v7 to have what the one before it gave to v0, and gives it one more; then v0 is
/// unbounded.
fn chain(propositions: usize, wanted: u8) -> Task {
    let mut table = vec![0x54, propositions as u8, 8, 16, 0x41];
    for v in 1..8 {
        table.extend([0x57, v - 1, 0, 1, 0x46, 0, v, 0, 0, 0, 0]);
    }
    table.extend([0x57, 7, 0, 1, 0x46, 1, 0, 0xFF, 0xFF, 0xFF, 0xF2]);
    for value in 1..16 {
        table.extend([0x41, 0x57, 7, 0, 1, 0x43, 0, 0, 0, 0, value - 1]);
        table.extend([0x46, 0, 0, 0, 0, 0, value]);
    }
    table.extend([0x47, 0x57, wanted, 0, 1, 0x43, 0, 0, 0, 0, 100, 0x45]);
    Task {
        table,
        state: vec![0; propositions + 4 * 8],
    }
}

/// The rig's decision on a table that is normalised if it is written, with as many numbers lent.
fn decided(task: &Task, numbers: usize) -> Result<Decision, Refusal> {
    let mut normal = vec![0; 64_000];
    let table = match task.table.first() {
        Some(0x4E) => &task.table[..],
        _ => {
            let length = rig::normalise(&task.table, &mut normal)?;
            &normal[..length]
        }
    };
    rig::decide(table, &task.state, &mut vec![0; numbers])
}

/// What the rig's calls answer is what is printed.
#[test]
fn what_is_printed_is_what_the_rig_answers() {
    let mut rng = Rng::new(709);
    let (mut refused, mut beyond) = (0, 0);
    for task in around_the_limits(&mut rng) {
        let folder = Folder::of(&task.table, &task.state);
        let decision = decided(&task, NUMBERS).err();
        let step = rig::step(&task.table, &task.state, 0, &mut vec![0; task.state.len()]);
        let answers: [(&[&str], Option<Refusal>); 4] = [
            (&["show", "task.bin"], rig::read(&task.table).err()),
            (&["decide", "."], decision),
            (&["plan", "."], decision),
            (&["step", ".", "a0"], step.err()),
        ];
        for (words, refusal) in answers {
            check_answer(&task, &on_rig(&folder, words), refusal);
            refused += usize::from(refusal.is_some());
            beyond += usize::from(refusal == Some(Reason::BeyondRig.at(0)));
        }
    }
    assert!(beyond >= 110 && refused >= 200, "{beyond} {refused}");
}

/// The number in front of some words.
fn number_before(text: &str, words: &str) -> usize {
    let (before, _) = text.split_once(words).expect("these words");
    let number = before.split(' ').next_back().expect("a word");
    number.parse().expect("a number")
}

/// As many numbers as are said to be used suffice, and one less does not; as many as are said to be
/// needed are more than the rig has, and `show` names the layer before.
#[test]
fn what_is_said_of_the_memory() {
    let mut rng = Rng::new(710);
    let (mut answered, mut short) = (0, 0);
    for task in around_the_limits(&mut rng) {
        let folder = Folder::of(&task.table, &task.state);
        let printed = on_rig(&folder, &["decide", "."]).out;
        match decided(&task, NUMBERS) {
            Ok(decision) => {
                let used = number_before(&printed, " of the rig's 2048 numbers");
                assert_eq!(decided(&task, used), Ok(decision), "{task}");
                let less = used.checked_sub(1).map(|less| decided(&task, less));
                let short = Some(Err(Reason::MemoryShort));
                let less = less.map(|less| less.map_err(|refusal| refusal.reason));
                assert!(used == 0 || less == short, "{task}");
                answered += 1;
            }
            Err(refusal) if refusal.reason == Reason::MemoryShort => {
                let needed = number_before(&printed, " numbers: ");
                assert!((NUMBERS + 1..=NUMBERS + 16).contains(&needed), "{task}");
                let shown = on_rig(&folder, &["show", "task.bin"]).out;
                let held = format!("hold layer 0 to layer {} of", refusal.place - 1);
                assert!(shown.contains(&held), "{task}");
                short += 1;
            }
            Err(_) => {}
        }
    }
    assert!(answered >= 30 && short >= 19, "{answered} {short}");
}

#[test]
fn commands_that_the_rig_does_not_have() {
    let folder = Folder::of(&m1().table, &m1().state);
    for (name, words) in [
        ("why", "--rig why ."),
        ("why", "--rig why"),
        ("why", "why --rig ."),
        ("check", "--rig check . task.bin"),
        ("timetable", "--rig timetable ."),
        ("pddl", "--rig pddl ."),
        ("rewrite", "--rig rewrite task.bin out.bin"),
    ] {
        let words: Vec<&str> = words.split(' ').collect();
        let expected = format!(
            "the rig has no such call as {name}; --rig goes with show, decide, plan and step"
        );
        assert_eq!(complaint(lapyndo(&folder.0, &words)), expected, "{words:?}");
    }
    let files = fs::read_dir(&folder.0).expect("the folder");
    assert_eq!(files.count(), 2, "a file was written");
}

#[test]
fn wrong_words() {
    let folder = Folder::of(&m1().table, &m1().state);
    let usage = "usage: lapyndo [--rig] plan FOLDER";
    for (words, expected) in [
        (
            "plan --rig .",
            &*format!("--rig stands before the command; {usage}"),
        ),
        ("--rig plan", &format!("0 arguments given; {usage}")),
        ("--rig plan . .", &format!("2 arguments given; {usage}")),
        (
            "--rig pan .",
            "there is no command 'pan'; see lapyndo --help",
        ),
        (
            "--rig --rig plan .",
            "there is no command '--rig'; see lapyndo --help",
        ),
        (
            "--rig step . b1",
            "'b1' is no move: a move is a number, such as 3 or a3",
        ),
        ("--rig plan none", "none: there is no such folder"),
    ] {
        let words: Vec<&str> = words.split(' ').collect();
        assert_eq!(complaint(lapyndo(&folder.0, &words)), expected, "{words:?}");
    }
    let missing = lapyndo(&folder.0, &["--rig"]);
    assert_eq!(missing, lapyndo(&folder.0, &[]));
}

/// Help is the same with `--rig`, and tells of it.
#[test]
fn help_tells_of_the_rig() {
    let folder = Folder::new();
    let help = lapyndo(&folder.0, &["--help"]);
    assert_eq!(on_rig(&folder, &["--help"]), help);
    assert_eq!(on_rig(&folder, &["help"]), help);
    let limits = "more than 8 variables or 16 moves (17)";
    assert!(help.out.contains(limits), "{}", help.out);
    for name in ["show", "decide", "plan", "step"] {
        let help = lapyndo(&folder.0, &[name, "--help"]);
        assert_eq!(on_rig(&folder, &[name, "--help"]), help);
        assert!(help.out.contains(limits), "{}", help.out);
    }
    for name in ["why", "check", "timetable", "pddl", "rewrite"] {
        let help = lapyndo(&folder.0, &[name, "--help"]);
        assert_eq!(on_rig(&folder, &[name, "--help"]), help);
        let no_call = "The rig has no such call: --rig goes with show, decide, plan and step.";
        assert!(help.out.contains(no_call), "{}", help.out);
    }
}
