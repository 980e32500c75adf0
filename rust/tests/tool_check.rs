//! `lapyndo check`: its sessions, wrong use, text that is no list, and long lists.

mod printed;

use crate::common::folder::{Folder, Printed};
use crate::tool::{check_sessions, lapyndo};
use crate::tool_use::complaint;
use campaign::generate::{m1, Task};
use campaign::hex::bytes;
use std::fs;
use std::os::unix::fs::symlink;

const SESSIONS: &str = include_str!("data/tool/check.txt");

#[test]
fn answers_and_refusals() {
    assert!(check_sessions(SESSIONS) >= 55);
    for number in [2, 3, 4, 7, 8, 9, 16] {
        let refused = SESSIONS.contains(&format!("refusal {number} place "));
        assert!(refused, "{number}");
    }
}

/// A folder with a campaign and a list of this name.
fn folder(task: &Task, name: &str, list: &[u8]) -> Folder {
    Folder::of(&task.table, &task.state).with(name, list)
}

/// What is printed of a list.
fn check(task: &Task, name: &str, list: &[u8]) -> Printed {
    lapyndo(&folder(task, name, list).0, &["check", ".", name])
}

/// The same list as text, several entries a line.
fn text_of(list: &[u8]) -> Vec<u8> {
    let lines = list.chunks(7).map(|line| {
        let words: Vec<String> = line.iter().map(u8::to_string).collect();
        words.join(" ") + "\n"
    });
    lines.collect::<String>().into_bytes()
}

/// A move that adds 1, and one that takes it away; the goal wants a number.
fn counter(goal: i32) -> Task {
    let mut table = bytes("54 00 01 02; 41 46 01 00 00000001; 41 46 02 00 00000001");
    table.extend(bytes("47 57 00 0001 43 04"));
    table.extend(goal.to_be_bytes());
    table.push(0x45);
    Task {
        table,
        state: vec![0; 4],
    }
}

#[test]
fn a_list_that_cannot_be_read() {
    let task = m1();
    let folder = folder(&task, "list.bin", &[0]);
    let said = |words: &[&str]| complaint(lapyndo(&folder.0, words));
    for file in ["none.bin", "none.txt", "none/list.bin"] {
        let expected = format!("{file}: there is no such file");
        assert_eq!(said(&["check", ".", file]), expected);
    }
    let expected = ".: this is a folder, and not a file";
    assert_eq!(said(&["check", ".", "."]), expected);
    let expected = "none: there is no such folder";
    assert_eq!(said(&["check", "none", "list.bin"]), expected);
    fs::remove_file(folder.0.join("task.bin")).expect("the table is there");
    let expected = "./task.bin: there is no such file";
    assert_eq!(said(&["check", ".", "list.bin"]), expected);
}

#[test]
fn other_counts_of_arguments() {
    let folder = folder(&m1(), "list.bin", &[0]);
    let usage = "usage: lapyndo check FOLDER LIST";
    for (words, given) in [
        (&["check"][..], "0 arguments"),
        (&["check", "."], "1 argument"),
        (&["check", ".", "list.bin", "list.bin"], "3 arguments"),
    ] {
        let expected = format!("{given} given; {usage}");
        assert_eq!(complaint(lapyndo(&folder.0, words)), expected);
    }
}

/// The line is named, and the word as far as it fits a line; also where the table would be refused.
#[test]
fn text_that_is_no_list() {
    let why = "is no move: a move is a number, 0 to 255, such as 3, a3 or (a3)";
    for (text, line, word) in [
        ("x", 1, "x"),
        ("0 1\n2 b3\n", 2, "b3"),
        ("0\r\n\r\n-1\r\n", 3, "-1"),
        ("+1", 1, "+1"),
        ("0 256", 1, "256"),
        ("99999999999999999999999", 1, "99999999999999999999999"),
        ("0,1", 1, "0,1"),
        ("0 1 # two", 1, "#"),
        ("a", 1, "a"),
        ("()", 1, ""),
        ("(a0 a1)", 1, "a0 a1"),
        ("(a0) (a1)", 1, "a0) (a1"),
        ("0 (a1)", 1, "(a1)"),
        ("((a0))", 1, "(a0)"),
        ("0x1", 1, "0x1"),
        ("1.0", 1, "1.0"),
        ("\u{1B}[2J", 1, "\\u{1b}[2J"),
    ] {
        let expected = format!("list.txt: line {line}: '{word}' {why}");
        for task in [
            &m1(),
            &Task {
                table: vec![],
                state: vec![],
            },
        ] {
            let said = complaint(check(task, "list.txt", text.as_bytes()));
            assert_eq!(said, expected, "{text:?}");
        }
    }
    let long = "7".repeat(100);
    let said = complaint(check(&m1(), "list.txt", long.as_bytes()));
    assert_eq!(said, format!("list.txt: line 1: '{}' {why}", &long[..40]));
    let said = complaint(check(&m1(), "list.txt", &[0, 1, 0xFF]));
    assert!(said.starts_with("list.txt: line 1: '\\0\\u{1}\u{FFFD}' is no move"));
}

/// A mark at the start and ends of lines with two bytes, as some editors write them.
#[test]
fn text_from_other_editors() {
    let expected = check(&m1(), "list.bin", &[0, 0, 2]);
    assert_eq!(expected.status, 3);
    for text in [
        "\u{FEFF}0 0\r\n2\r\n",
        "\t0\u{B}0\n\n2",
        "(A0)\r\n0\r\n(a2)",
    ] {
        let printed = check(&m1(), "list.txt", text.as_bytes());
        assert_eq!(printed, expected, "{text:?}");
    }
}

/// Any name that does not end in .txt is that of bytes.
#[test]
fn only_one_ending_is_text() {
    let bytes = check(&m1(), "list.bin", b"0 0 2");
    assert!(bytes.out.contains("entry     0, move a48\n"));
    for name in ["txt", ".txt", "list", "list.txt.bin", "list.text"] {
        assert_eq!(check(&m1(), name, b"0 0 2"), bytes, "{name}");
    }
    let text = check(&m1(), "list.bin", &[0, 0, 2]);
    for name in ["list.txt", "list.TXT", "a list.Txt", "list.bin.txt"] {
        assert_eq!(check(&m1(), name, b"0 0 2"), text, "{name}");
    }
}

/// Far more than 255 entries, as bytes and as text.
#[test]
fn a_long_list() {
    let mut list = vec![0; 300_000];
    list.extend([1; 100_000]);
    let said = |printed: Printed, lines: [&str; 3]| {
        assert_eq!(printed.error, "");
        let mut found = printed.out.lines();
        assert!(lines.iter().all(|line| found.any(|found| found == *line)));
        printed.status
    };
    let entries = "list      400000 entries, numbers 0 to 399999";
    let yes = "answer    yes: every move can be made, and the goal is met at the end";
    let no = "answer    no: every move can be made, and the goal is not met at the end";
    let end = "  v0    0 -> 200000";
    for (name, file) in [("list.bin", list.clone()), ("list.txt", text_of(&list))] {
        let printed = check(&counter(200_000), name, &file);
        assert_eq!(said(printed, [entries, yes, end]), 0);
        let printed = check(&counter(5), name, &file);
        assert_eq!(said(printed, [entries, no, end]), 3);
    }
    list[399_999] = 2;
    let before = "state     before entry 399999:";
    let printed = check(&counter(200_000), "list.bin", &list);
    let entry = "entry     399999, move a2";
    assert_eq!(said(printed, [entry, before, "  v0    0 -> 200001"]), 3);
    let printed = check(&counter(200_000), "list.txt", &text_of(&list));
    let entry = "entry     399999 in line 57143, move a2";
    assert_eq!(said(printed, [entry, before, "  v0    0 -> 200001"]), 3);
}

/// A million moves up reach the end of the range, and the next one leaves it.
#[test]
fn a_list_to_the_end_of_the_range() {
    let mut list = vec![0; 1_000_000];
    assert_eq!(check(&counter(1_000_000), "list.bin", &list).status, 0);
    list.extend([0, 1]);
    let printed = check(&counter(1_000_000), "list.bin", &list);
    let why = "why       byte 5: v0 += 1 gives 1000001\n";
    assert_eq!(printed.status, 3);
    assert!(printed
        .out
        .contains("\nentry     1000000, move a0: v0 += 1\n"));
    assert!(printed.out.contains(why), "{}", printed.out);
}

/// A file without end is not read to its end.
#[test]
fn a_file_that_is_too_long() {
    let folder = folder(&m1(), "list.bin", &[]);
    symlink("/dev/zero", folder.0.join("list.txt")).expect("a link");
    for file in ["/dev/zero", "list.txt"] {
        let said = complaint(lapyndo(&folder.0, &["check", ".", file]));
        let limit = "the file has more than 16000000 bytes, and no longer list is read";
        assert_eq!(said, format!("{file}: {limit}"));
    }
}
