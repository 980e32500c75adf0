//! `lapyndo rewrite`: what it says and writes of stored tables, and which files it leaves alone.

use crate::common::folder::{Folder, Printed};
use crate::common::rows::rows;
use crate::tool::{check_sessions, lapyndo};
use crate::tool_use::complaint;
use campaign::generate::{task_of, Rng};
use campaign::hex::bytes;
use campaign::proved;
use campaign::reference::table::Kind;
use std::fs::{self, Permissions};
use std::os::unix::fs::{symlink, PermissionsExt};
use std::path::Path;
use std::process::Command;

const SESSIONS: &str = include_str!("data/tool/rewrite.txt");

#[test]
fn stored_tables_are_rewritten_or_refused() {
    assert!(check_sessions(SESSIONS) >= 32);
    for number in 2..=7 {
        let refused = SESSIONS.contains(&format!("refusal {number} place "));
        assert!(refused, "{number}");
    }
    assert!(!SESSIONS.contains("refusal 16 "));
}

/// A stored table whose moves are known by how it was made.
struct Stored {
    /// What it is without its moves that do nothing.
    rewritten: Vec<u8>,
    /// Its moves, and of those that do nothing their conditions in words.
    moves: Vec<(Vec<u8>, Option<String>)>,
    table: Vec<u8>,
}

/// A move with conditions only, and these in words.
fn idle_move(rng: &mut Rng, propositions: usize) -> (Vec<u8>, Option<String>) {
    let (mut bytes, mut words) = (vec![0x41], Vec::new());
    let needed = rng.below(3).min(propositions);
    for p in rng.subset(needed, propositions) {
        bytes.extend([0x50, p as u8]);
        words.push(format!("needs p{p}"));
    }
    for constant in 0..rng.below(3) as u8 {
        bytes.extend([0x43, 0, 0, 0, 0, constant]);
        words.push(format!("needs 0 >= {constant}"));
    }
    if words.is_empty() {
        words.push("needs nothing".into());
    }
    (bytes, Some(words.join("; ")))
}

/// A table of moves with effects, and between them moves that do nothing.
fn stored(rng: &mut Rng, kind: Kind) -> Stored {
    let counts = [1 + rng.below(5), 2 * rng.below(3), rng.below(9)];
    let rewritten = task_of(rng, kind, counts).table;
    let block = |b: u64| proved::block(&rewritten, b).expect("an accepted table");
    let mut moves = Vec::new();
    for b in 0..=counts[2] {
        for _ in 0..rng.below(3) {
            moves.push(idle_move(rng, counts[0]));
        }
        if b < counts[2] {
            moves.push((block(b as u64).to_vec(), None));
        }
    }
    let mut table = rewritten[..3].to_vec();
    table.push(moves.len() as u8);
    table.extend(moves.iter().flat_map(|(bytes, _)| bytes));
    table.extend(block(counts[2] as u64));
    table.push(0x45);
    Stored {
        rewritten,
        moves,
        table,
    }
}

/// Checks what is said of each move of the stored table against the bytes of both tables.
fn check_moves(stored: &Stored, text: &str) {
    let mut offset = 4;
    let mut dropped = rows(text, " byte ");
    let mut kept = rows(text, " -> a");
    for (old, (bytes, conditions)) in stored.moves.iter().enumerate() {
        match conditions {
            Some(conditions) => {
                let said = format!("{offset}: {conditions}");
                assert_eq!(dropped.next(), Some((old, &*said)), "{text}");
            }
            None => {
                let (number, new) = kept.next().expect("a line");
                assert_eq!(number, old, "{text}");
                let new = new.parse().expect("a number");
                let found = proved::block(&stored.rewritten, new);
                assert_eq!(found, Ok(&**bytes), "{text}");
            }
        }
        offset += bytes.len();
    }
    assert_eq!((dropped.next(), kept.next()), (None, None), "{text}");
}

/// Reading refuses the first move that does nothing, and says which one that is.
fn check_refused(stored: &Stored, text: &str) {
    let mut closes = 4;
    let mut moves = stored.moves.iter().enumerate();
    let first = moves.find_map(|(number, (bytes, conditions))| {
        closes += bytes.len();
        Some((number, closes - bytes.len(), conditions.as_ref()?))
    });
    let (number, opens, conditions) = first.expect("a move that does nothing");
    for line in [
        format!("refusal 16 place {closes}: a move has no effect: nearly always an unfinished row"),
        format!("  where    byte {closes} of stored.bin, behind move a{number}"),
        format!("  move     opened at byte {opens}, closed at byte {closes}: {conditions}"),
    ] {
        assert!(text.lines().any(|found| found == line), "{line}\n{text}");
    }
}

#[test]
fn what_is_said_of_moves_fits_the_bytes() {
    let mut rng = Rng::new(710);
    let (mut changed, mut kept) = (0, 0);
    for i in 0..120 {
        let stored = stored(&mut rng, [Kind::Written, Kind::Normal][i % 2]);
        let folder = Folder::new().with("stored.bin", &stored.table);
        let printed = lapyndo(&folder.0, &["rewrite", "stored.bin", "out.bin"]);
        assert_eq!((printed.status, &*printed.error), (0, ""));
        let read = |name| fs::read(folder.0.join(name)).expect("a file");
        assert_eq!(read("out.bin"), stored.rewritten);
        assert_eq!(read("stored.bin"), stored.table);
        let text = &printed.out;
        match stored.table == stored.rewritten {
            true => assert!(text.contains(": equal to stored.bin, "), "{text}"),
            false => {
                check_moves(&stored, text);
                check_refused(&stored, &lapyndo(&folder.0, &["show", "stored.bin"]).out);
                changed += 1;
                kept += rows(text, " -> a").count();
            }
        }
    }
    assert!(changed > 80 && kept > 200, "{changed} {kept}");
}

/// A table whose only move does nothing, and what it is without it.
const IDLE: &str = "54 00 00 01; 41; 47; 45";
const EMPTY: &str = "54 00 00 00; 47; 45";

fn folder() -> Folder {
    Folder::new().with("stored.bin", &bytes(IDLE))
}

fn rewrite(folder: &Folder, file: &str, out: &str) -> Printed {
    lapyndo(&folder.0, &["rewrite", file, out])
}

fn read(folder: &Folder, file: &str) -> Vec<u8> {
    fs::read(folder.0.join(file)).expect("a file")
}

/// The names of the files in a folder, in order.
fn names(folder: &Path) -> Vec<String> {
    let entries = fs::read_dir(folder).expect("a folder");
    let names = entries.map(|entry| entry.expect("a file").file_name());
    let mut names: Vec<String> = names.filter_map(|name| name.into_string().ok()).collect();
    names.sort();
    names
}

/// Checks the one line on standard error, and that no file came or went.
fn check_wrong(here: &Folder, file: &str, out: &str, expected: &str) {
    let before = names(&here.0);
    assert_eq!(complaint(rewrite(here, file, out)), expected);
    assert_eq!(names(&here.0), before);
    assert_eq!(read(here, "stored.bin"), bytes(IDLE));
}

#[test]
fn stored_files_that_cannot_be_read() {
    let here = folder().with("long.bin", &[0x4E; 64_001]);
    let long = "long.bin: the file has more than 64000 bytes, and no table has more";
    for (file, expected) in [
        ("none.bin", "none.bin: there is no such file"),
        (".", ".: this is a folder, and not a file"),
        ("long.bin", long),
    ] {
        check_wrong(&here, file, "out.bin", expected);
    }
}

#[test]
fn files_that_cannot_be_written() {
    let here = folder().with("file", &[]);
    for (out, expected) in [
        (".", ".: this is a folder, and not a file"),
        ("none/out.bin", "none: there is no such folder"),
        ("file/out.bin", "file: there is no such folder"),
        ("/dev/full", "/dev/full: this is no ordinary file"),
        ("", ": there is no such file"),
    ] {
        check_wrong(&here, "stored.bin", out, expected);
    }
}

/// The stored table is kept under whatever name it is to be overwritten.
#[test]
fn the_stored_file_is_never_written() {
    let here = folder();
    symlink("stored.bin", here.0.join("link.bin")).expect("a link");
    let kept = "this is the file that is read, and it is kept: name another one";
    for [file, out] in [
        ["stored.bin", "stored.bin"],
        ["stored.bin", "./stored.bin"],
        ["stored.bin", "link.bin"],
        ["link.bin", "stored.bin"],
    ] {
        let said = complaint(rewrite(&here, file, out));
        assert_eq!(said, format!("{out}: {kept}"));
        assert_eq!(read(&here, "stored.bin"), bytes(IDLE));
    }
    // A second name of the same bytes gets bytes of its own.
    fs::hard_link(here.0.join("stored.bin"), here.0.join("second.bin")).expect("a name");
    assert_eq!(rewrite(&here, "stored.bin", "second.bin").status, 0);
    assert_eq!(read(&here, "stored.bin"), bytes(IDLE));
    assert_eq!(read(&here, "second.bin"), bytes(EMPTY));
}

#[test]
fn a_file_that_was_there_is_replaced() {
    let here = folder().with("out.bin", &[7; 500]).with("bad.bin", &[]);
    symlink("out.bin", here.0.join("link.bin")).expect("a link");
    assert_eq!(rewrite(&here, "bad.bin", "out.bin").status, 1);
    assert_eq!(read(&here, "out.bin"), [7; 500]);
    assert_eq!(rewrite(&here, "stored.bin", "link.bin").status, 0);
    assert_eq!(read(&here, "out.bin"), bytes(EMPTY));
    let link = fs::symlink_metadata(here.0.join("link.bin")).expect("a link");
    assert!(link.is_symlink());
    let all = ["bad.bin", "link.bin", "out.bin", "stored.bin"];
    assert_eq!(names(&here.0), all);
}

#[test]
fn a_protected_file_is_not_replaced() {
    let here = folder().with("out.bin", &[7; 5]);
    let out = here.0.join("out.bin");
    fs::set_permissions(&out, Permissions::from_mode(0o444)).expect("a mode");
    let said = complaint(rewrite(&here, "stored.bin", "out.bin"));
    assert_eq!(said, "out.bin: the file may not be written");
    assert_eq!(read(&here, "out.bin"), [7; 5]);
}

/// Where the disk takes no more bytes, what was there stays, and nothing is left over.
#[test]
fn a_failed_write_keeps_what_was_there() {
    let here = folder().with("out.bin", &[7; 5]);
    let limited = "trap '' XFSZ; ulimit -f 0; exec \"$0\" rewrite stored.bin \"$1\"";
    for out in ["out.bin", "new.bin"] {
        let mut shell = Command::new("sh");
        let shell = shell.args(["-c", limited, env!("CARGO_BIN_EXE_lapyndo"), out]);
        let output = shell.current_dir(&here.0).output().expect("a shell");
        let error = String::from_utf8(output.stderr).expect("text");
        assert_eq!(output.status.code(), Some(2), "{error}");
        assert!(error.starts_with(&format!("lapyndo: {out}: ")), "{error}");
        assert_eq!(names(&here.0), ["out.bin", "stored.bin"]);
        assert_eq!(read(&here, "out.bin"), [7; 5]);
    }
}
