//! The listing program, run as a user runs it: in a folder with task.bin and state.bin.

use crate::common::folder::{examples, repository, run, Folder};
use campaign::call::CallKind;
use campaign::harness::outcomes;
use campaign::hex::{bytes, unhex};
use std::fs;
use std::path::Path;

/// What the program prints in a folder.
fn listing(folder: &Path) -> String {
    let program = repository().join("target/bin/listing");
    assert!(program.exists(), "`./build listing` builds the program");
    let printed = run(&program, folder, &[]);
    assert_eq!((printed.status, &*printed.error), (0, ""));
    printed.out
}

#[test]
fn every_line_of_the_outcomes() {
    for (file, count) in CallKind::Listing.records() {
        let outcomes = outcomes(file);
        for (number, line) in outcomes.lines().enumerate() {
            let (call, expected) = line.split_once(" -> ").expect("an outcome");
            let (task, state) = call.split_once(' ').expect("two files");
            let [task, state] = [task, state].map(|text| unhex(text).expect("hexadecimal"));
            assert_eq!(
                listing(&Folder::of(&task, &state).0),
                expected.replace("\\n", "\n"),
                "{file}:{}: {line}",
                number + 1
            );
        }
        assert_eq!(outcomes.lines().count(), *count, "lines of {file}");
    }
}

#[test]
fn missing_files_are_empty() {
    assert_eq!(listing(&Folder::new().0), "refusal 2 place 0\n");
    let table = Folder::new().with("task.bin", &bytes("540000004745"));
    assert_eq!(listing(&table.0), "plan 0 layers 0\n");
}

#[test]
fn a_file_longer_than_any_accepted_one_gets_its_refusal() {
    let table = Folder::of(&vec![0x54; 1_000_000], &[]);
    assert_eq!(listing(&table.0), "refusal 1 place 0\n");
    let state = Folder::of(&bytes("540000004745"), &vec![0; 100_000]);
    assert_eq!(listing(&state.0), "refusal 8 place 0\n");
}

#[test]
fn each_example() {
    for example in examples() {
        let expected = fs::read_to_string(example.join("expected.txt")).expect("a text");
        assert_eq!(listing(&example), expected, "{}", example.display());
    }
}
