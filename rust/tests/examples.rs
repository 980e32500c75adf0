//! The example campaigns: each commented listing is its binary file, each prints what is expected,
//! the files for other planners are what the engine writes, and stored tables are rewritten.

use crate::common::folder::{examples, pddl_parts, repository, PDDL};
use campaign::answer::{Checked, Fault, Head, Reason};
use campaign::engine::{Engine, REFERENCE};
use campaign::generate::Task;
use campaign::harness::{rewritten, texted};
use campaign::proved::{rig, PROVED};
use campaign::reference;
use campaign::reference::semantics::{real_run, RealRun};
use std::fs;
use std::path::{Path, PathBuf};

fn read(path: &Path, name: &str) -> Vec<u8> {
    fs::read(path.join(name)).unwrap_or_else(|e| panic!("{}/{name}: {e}", path.display()))
}

/// The bytes of a listing: hexadecimal digits before each `#`.
fn bytes_of_listing(text: &str) -> Vec<u8> {
    let digits: Vec<u8> = text
        .lines()
        .flat_map(|line| line.split('#').next().unwrap_or("").bytes())
        .filter(|byte| !byte.is_ascii_whitespace())
        .map(|byte| (byte as char).to_digit(16).expect("a hexadecimal digit") as u8)
        .collect();
    assert_eq!(digits.len() % 2, 0, "half a byte");
    digits
        .chunks(2)
        .map(|pair| pair[0] * 16 + pair[1])
        .collect()
}

/// A file that has a commented listing beside it.
fn listed(example: &Path, name: &str) -> Vec<u8> {
    let [listing, bytes] = ["hex", "bin"].map(|kind| read(example, &format!("{name}.{kind}")));
    let listing = String::from_utf8(listing).expect("text");
    assert_eq!(bytes_of_listing(&listing), bytes, "{}", example.display());
    bytes
}

#[test]
fn each_listing_is_its_file() {
    let mut folders = examples();
    for example in &folders {
        listed(example, "task");
    }
    while let Some(folder) = folders.pop() {
        let entries = fs::read_dir(&folder).expect("a folder");
        for path in entries.map(|entry| entry.expect("a file").path()) {
            if path.is_dir() {
                folders.push(path);
            } else if path.extension().is_some_and(|kind| kind == "hex") {
                let name = path.file_stem().and_then(|name| name.to_str());
                listed(&folder, name.expect("a name"));
            }
        }
    }
}

/// The night has a placement, and the shorter one beside it, which is the same otherwise, has none.
#[test]
fn one_night_has_a_placement_and_the_other_does_not() {
    let night = repository().join("examples/closure_night");
    let short = night.join("short_night");
    for file in ["task.bin", "state.bin", "durations.bin"] {
        assert_eq!(read(&night, file), read(&short, file), "{file}");
    }
    let durations = listed(&night, "durations");
    let placed = |folder: &Path| {
        let windows = listed(folder, "windows");
        let mut starts = vec![0; durations.len()];
        PROVED.place(&windows, &durations, &mut starts)
    };
    assert_eq!(placed(&night).map(|placed| placed.end), Ok(280));
    assert_eq!(placed(&short), Err(Reason::NoPlacement.at(7)));
}

/// One of the lists solves the campaign, and over unlimited whole numbers also the one that leaves the range.
#[test]
fn one_bought_list_solves() {
    let example = repository().join("examples/bought_schedule");
    let (table, state) = (read(&example, "task.bin"), read(&example, "state.bin"));
    let text = |name| {
        let text = String::from_utf8(read(&example, name)).expect("text");
        let lines = text.lines().filter(|line| !line.starts_with(';'));
        let words: Vec<&str> = lines.flat_map(str::split_whitespace).collect();
        let digits = words.iter().map(|word| word.trim_matches(['(', 'a', ')']));
        let moves = digits.map(|digits| digits.parse().expect("a number"));
        moves.collect::<Vec<u8>>()
    };
    let fails = |index, fault| Checked::Fails { index, fault };
    for (list, expected, solves) in [
        (
            listed(&example, "delivered"),
            Checked::Yes { length: 19 },
            true,
        ),
        (text("heater_on.txt"), fails(7, Fault::NotAllowed), false),
        (text("overcharged.txt"), fails(2, Fault::OutOfRange), true),
        (text("ballast_left.txt"), Checked::GoalNotMet, false),
    ] {
        let checked = PROVED.check(&table, &state, &list, &mut vec![0; state.len()]);
        assert_eq!(checked, Ok(expected));
        let moves: Vec<u64> = list.into_iter().map(u64::from).collect();
        let run = real_run(&table, &state, &moves).expect("the campaign is accepted");
        let solved = matches!(run, RealRun::Finished { goal: true, .. });
        assert_eq!(solved, solves, "{expected}");
    }
}

/// The campaign at the rig's ceiling is taken by the rig's calls, and the one beside it, which has one
/// more variable, by the full ones alone.
#[test]
fn the_rig_takes_one_table_and_not_the_other() {
    let example = repository().join("examples/load_rig");
    let counts = |head: Head| (head.v_or_n, head.a);
    let table = listed(&example, "task");
    assert_eq!(rig::read(&table).map(counts), Ok((8, 16)));
    let beyond = listed(&example.join("ninth_variable"), "task");
    assert_eq!(rig::read(&beyond), Err(Reason::BeyondRig.at(0)));
    assert_eq!(PROVED.read(&beyond).map(counts), Ok((9, 16)));
}

/// A stored table is refused for a move without an effect, and its campaign is what the rewriter
/// makes of it.
#[test]
fn each_stored_table_is_rewritten() {
    let stored = |example: &PathBuf| example.join("stored.bin").is_file();
    let examples: Vec<PathBuf> = examples().into_iter().filter(stored).collect();
    assert!(!examples.is_empty());
    for example in examples {
        let stored = listed(&example, "stored");
        for engine in [PROVED, REFERENCE] {
            let refused = engine.read(&stored).expect_err("an unfinished row");
            assert_eq!(refused.reason, Reason::IdleMove);
            let rewritten = rewritten(&engine, &stored);
            assert_eq!(rewritten, Ok(read(&example, "task.bin")));
        }
    }
}

#[test]
fn each_example_prints_what_is_expected() {
    for example in examples() {
        let printed = reference::listing(&read(&example, "task.bin"), &read(&example, "state.bin"));
        assert_eq!(
            printed.as_bytes(),
            read(&example, "expected.txt"),
            "{}",
            example.display()
        );
    }
}

#[test]
fn each_example_has_its_pddl_text() {
    for example in examples() {
        let [table, state] = ["task.bin", "state.bin"].map(|file| read(&example, file));
        let task = Task { table, state };
        let text = texted(&PROVED, &task).expect("the example is accepted");
        let files = PDDL.map(|file| read(&example, file));
        assert_eq!(files, pddl_parts(&text).map(String::into_bytes), "{task}");
    }
}
