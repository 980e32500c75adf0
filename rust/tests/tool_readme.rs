//! What the README files show of `lapyndo` is what it prints.

use crate::common::folder::{examples, repository, Folder};
use crate::common::rows::rows;
use crate::tool::lapyndo;
use campaign::answer::Answer;
use campaign::engine::Engine;
use campaign::harness::campaigned;
use campaign::proved::{self, PROVED};
use std::fs;
use std::iter;
use std::path::Path;

fn text(path: &Path) -> String {
    fs::read_to_string(path).unwrap_or_else(|error| panic!("{}: {error}", path.display()))
}

/// A copy of the examples, in which files may be written.
fn copy() -> Folder {
    let copy = Folder::new();
    for example in examples() {
        let name = example.file_name().expect("a name");
        copy_folder(&example, &copy.0.join("examples").join(name));
    }
    copy
}

/// Copies tables, states and lists, and those of the folders inside.
fn copy_folder(from: &Path, to: &Path) {
    fs::create_dir_all(to).expect("a folder");
    for entry in fs::read_dir(from).expect("a folder") {
        let path = entry.expect("a file").path();
        let target = to.join(path.file_name().expect("a name"));
        if path.is_dir() {
            copy_folder(&path, &target);
        } else if path
            .extension()
            .is_some_and(|kind| kind == "bin" || kind == "txt")
        {
            fs::copy(&path, &target).expect("a file");
        }
    }
}

/// Indented lines, without their indent.
fn indented(text: &str) -> impl Iterator<Item = &str> {
    text.lines().filter_map(|line| line.strip_prefix("    "))
}

/// The sessions with `lapyndo` that a page shows: the words given and all that is printed.
fn sessions(page: &str) -> Vec<(&str, String)> {
    let mut sessions: Vec<(&str, String)> = Vec::new();
    let mut open = false;
    for line in page.lines() {
        let Some(line) = line.strip_prefix("    ") else {
            open = false;
            continue;
        };
        if let Some(words) = line.strip_prefix("$ ./lapyndo ") {
            sessions.push((words, String::new()));
            open = true;
        } else if let Some((_, printed)) = sessions.last_mut().filter(|_| open) {
            *printed += &format!("{line}\n");
        }
    }
    sessions
}

/// Runs the sessions of a page in a folder and answers their commands, with --rig in front of those that have it.
fn check_shown(folder: &Folder, page: &str) -> Vec<String> {
    let checked = sessions(page).into_iter().map(|(line, expected)| {
        let words: Vec<&str> = line.split(' ').collect();
        assert_eq!(lapyndo(&folder.0, &words).out, expected, "{words:?}");
        words[..1 + usize::from(words[0] == "--rig")].join(" ")
    });
    checked.collect()
}

#[test]
fn the_readme_shows_what_is_printed() {
    let readme = text(&repository().join("README.md"));
    let commands = check_shown(&copy(), &readme);
    let rig = "--rig decide";
    assert_eq!(
        commands,
        [
            "plan",
            "step",
            "why",
            "pddl",
            rig,
            rig,
            "timetable",
            "check",
            "rewrite"
        ]
    );
}

/// An example's README shows lines of what `why` prints.
#[test]
fn an_example_shows_what_blocks() {
    let copy = copy();
    let printed = lapyndo(&copy.0, &["why", "examples/warm_deck"]).out;
    let readme = text(&repository().join("examples/warm_deck/README.md"));
    let shown: Vec<&str> = indented(&readme).collect();
    assert_eq!(shown.len(), 4);
    for line in shown {
        assert!(printed.lines().any(|found| found == line), "{line}");
    }
}

/// Files of an example.
fn files<const N: usize>(example: &str, names: [&str; N]) -> [Vec<u8>; N] {
    let folder = repository().join("examples").join(example);
    names.map(|name| fs::read(folder.join(name)).expect("a file"))
}

/// Makes real moves and checks that they reach the goal.
fn check_solves(table: &[u8], state: &[u8], moves: &[u64]) {
    let mut state = state.to_vec();
    for mv in moves {
        let mut after = state.clone();
        proved::step(table, &state, *mv, &mut after).expect("a move that can be made");
        state = after;
    }
    let planned = campaigned(&PROVED, table, &state).expect("an accepted campaign");
    assert_eq!(planned.plan.answer, Answer::Layer(0));
}

/// Each move's row says whether it is helpful, and each helpful one does in place of the first.
#[test]
fn an_example_shows_helpful_moves() {
    let [page, table, state] = files("spare_jacks", ["README.md", "task.bin", "state.bin"]);
    let page = String::from_utf8(page).expect("text");
    assert_eq!(check_shown(&copy(), &page), ["plan", "step"]);
    let rows = page.lines().filter(|line| line.matches('|').count() == 5);
    let rows: Vec<&str> = rows.skip(2).collect();
    assert_eq!(rows.len(), 8);
    let said = (0..).zip(rows).filter(|(_, row)| row.contains("| yes"));
    let planned = campaigned(&PROVED, &table, &state).expect("an accepted campaign");
    assert!(planned.plan.helpful().eq(said.map(|(mv, _)| mv)));
    for moves in [&[1, 1, 1, 7][..], &[2, 2, 7], &[4, 7]] {
        check_solves(&table, &state, moves);
    }
}

/// The campaign at the rig's ceiling, and a list that carries it out.
#[test]
fn an_example_shows_the_rigs_ceiling() {
    let [page, table, state] = files("load_rig", ["README.md", "task.bin", "state.bin"]);
    let page = String::from_utf8(page).expect("text");
    let shown = check_shown(&copy(), &page);
    assert_eq!(shown, ["--rig plan", "--rig decide", "decide"]);
    check_solves(&table, &state, &list(&page, "moves "));
}

/// The plan of the night is a list that can be carried out, and the page's tables say what its files have.
#[test]
fn an_example_shows_a_closure() {
    let names = [
        "README.md",
        "task.bin",
        "state.bin",
        "windows.bin",
        "durations.bin",
    ];
    let [page, table, state, windows, durations] = files("closure_night", names);
    let page = String::from_utf8(page).expect("text");
    assert_eq!(check_shown(&copy(), &page), ["timetable", "timetable"]);
    let planned = campaigned(&PROVED, &table, &state).expect("an accepted campaign");
    let list = planned.records.iter();
    let list = list.flat_map(|(mv, count)| iter::repeat_n(*mv, *count as usize));
    check_solves(&table, &state, &list.clone().collect::<Vec<u64>>());
    let minute = |four: &[u8]| u32::from_be_bytes(four.try_into().expect("four bytes"));
    let hours = windows.chunks(4).map(minute);
    let hours = hours.map(|minute| format!("{:02}:{:02}", minute / 60, minute % 60));
    for (number, hours) in hours.collect::<Vec<_>>().chunks(2).enumerate() {
        let row = format!("| {number} | {} | {} | ", hours[0], hours[1]);
        assert!(page.lines().any(|line| line.starts_with(&row)), "{row}");
    }
    for (mv, minutes) in list.zip(durations.chunks(4).map(minute)) {
        let count = planned.records[mv as usize].1;
        let each = if count == 1 { "" } else { " each" };
        let (start, end) = (
            format!("| {mv} "),
            format!(" | {count} | {minutes}{each} |"),
        );
        let named = |line: &str| line.starts_with(&start) && line.ends_with(&end);
        assert!(page.lines().any(named), "{start}..{end}");
    }
}

/// One list that was delivered solves the campaign, and three do not, each for another reason.
#[test]
fn an_example_shows_bought_lists() {
    let [page, table, state, list] = files(
        "bought_schedule",
        ["README.md", "task.bin", "state.bin", "delivered.bin"],
    );
    let page = String::from_utf8(page).expect("text");
    let copy = copy();
    assert_eq!(check_shown(&copy, &page), ["check"; 4]);
    let moves: Vec<u64> = list.iter().map(|mv| u64::from(*mv)).collect();
    check_solves(&table, &state, &moves);
    for (line, printed) in sessions(&page) {
        let words: Vec<&str> = line.split(' ').collect();
        let solves = words[2].ends_with("/delivered.bin");
        let status = if solves { 0 } else { 3 };
        assert_eq!(lapyndo(&copy.0, &words).status, status, "{line}");
        let answer = if solves { "yes: " } else { "no: " };
        assert!(printed.contains(&format!("\nanswer    {answer}")), "{line}");
    }
}

/// The list of moves that a page shows behind a name.
fn list(page: &str, name: &str) -> Vec<u64> {
    let list = indented(page).find_map(|line| line.strip_prefix(name));
    let numbers = list.expect("a list").split_whitespace();
    numbers
        .map(|number| number.parse().expect("a number"))
        .collect()
}

/// The page, the stored and the rewritten table and the state of the example of the rewriter.
fn unfinished_rows() -> (String, [Vec<u8>; 3]) {
    let names = ["README.md", "stored.bin", "task.bin", "state.bin"];
    let [page, files @ ..] = files("unfinished_rows", names);
    (String::from_utf8(page).expect("text"), files)
}

#[test]
fn an_example_shows_how_a_stored_table_is_rewritten() {
    let (page, [stored, table, state]) = unfinished_rows();
    let copy = copy();
    assert_eq!(check_shown(&copy, &page), ["rewrite", "rewrite"]);
    let rewritten = fs::read(copy.0.join("rewritten.bin")).expect("a file");
    assert_eq!(rewritten, table);
    let listed = PROVED.listing(&stored, &state);
    assert!(listed.starts_with("refusal 16 place "), "{listed}");
    assert!(indented(&page).any(|line| line == listed.trim_end()));
}

/// The list of the stored table, numbered as the page says, is the list that it shows beside it,
/// and that one reaches the goal.
#[test]
fn an_example_shows_a_list_with_new_numbers() {
    let (page, [_, table, state]) = unfinished_rows();
    let (_, printed) = sessions(&page).swap_remove(0);
    let numbers: Vec<(u64, u64)> = rows(&printed, " -> a")
        .map(|(old, new)| (old as u64, new.parse().expect("a number")))
        .collect();
    let new = |old: &u64| numbers.iter().find(|(number, _)| number == old);
    let renumbered = list(&page, "stored ");
    let renumbered = renumbered.iter().filter_map(new).map(|(_, new)| *new);
    let renumbered: Vec<u64> = renumbered.collect();
    assert_eq!(renumbered, list(&page, "now "));
    check_solves(&table, &state, &renumbered);
}
