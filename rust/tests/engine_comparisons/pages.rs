//! The bytes that `docs/COMPARISONS.md` and the example of a comparison show.

use crate::common::folder::repository;
use campaign::commands::commands;
use campaign::generate::hex;
use campaign::harness::normalised;
use campaign::hex::bytes;
use campaign::proved::PROVED;
use std::fs;

/// The rows below a heading row of a page, each as its cells.
fn rows(page: &str, heading: &str) -> Vec<Vec<String>> {
    let path = repository().join(page);
    let text = fs::read_to_string(&path).unwrap_or_else(|error| panic!("{page}: {error}"));
    let mut lines = text.lines().skip_while(|line| line.trim() != heading);
    assert!(lines.next().is_some(), "{page} has no row {heading}");
    let rule = lines.next().unwrap_or_default();
    assert!(rule.starts_with("|---"), "{page}: {rule}");
    let rows = lines.take_while(|line| line.starts_with('|'));
    let cells = |row: &str| {
        let row = row.trim().trim_matches('|');
        row.split('|').map(|cell| cell.trim().into()).collect()
    };
    rows.map(cells).collect()
}

/// The bytes between a cell's backticks.
fn shown(cell: &str) -> Vec<u8> {
    let inner = cell
        .strip_prefix('`')
        .and_then(|cell| cell.strip_suffix('`'));
    bytes(inner.unwrap_or_else(|| panic!("no bytes: {cell}")))
}

/// A goal of these bytes behind a head, and no moves.
fn goal(head: &str, parts: &[u8]) -> Vec<u8> {
    [&bytes(head)[..], &[0x47], parts, &[0x45]].concat()
}

#[test]
fn the_page_shows_what_each_comparison_becomes() {
    let rows = rows("docs/COMPARISONS.md", "| o | Written | Normal |");
    let numbers: Vec<&str> = rows.iter().map(|row| &*row[0]).collect();
    assert_eq!(numbers, ["0", "1", "2", "3", "4"]);
    for row in rows {
        let [number, written, normal] = &row[..] else {
            panic!("a row has three cells: {row:?}");
        };
        let [written, normal] = [written, normal].map(|cell| shown(cell));
        let closing = commands(&written).filter(|(_, command)| command[0] == 0x43);
        let numbers: Vec<String> = closing.map(|(_, command)| command[1].to_string()).collect();
        assert_eq!(numbers, [number.as_str()], "{row:?}");
        let form = normalised(&PROVED, &goal("54 00 02 00", &written));
        let form = form.unwrap_or_else(|refusal| panic!("{row:?}: {refusal}"));
        assert_eq!(hex(&form), hex(&goal("4e 00 04 00", &normal)), "{row:?}");
    }
}

/// The example's table and its normal form, part by part.
#[test]
fn the_example_shows_its_normal_form() {
    let rows = rows(
        "examples/lowered_jack/README.md",
        "| Written | Normal form | 002 |",
    );
    assert_eq!(rows.len(), 6);
    let [written, normal] = [0, 1].map(|column| {
        let cells = rows.iter().map(|row| shown(&row[column]));
        cells.collect::<Vec<_>>().concat()
    });
    let task = repository().join("examples/lowered_jack/task.bin");
    assert_eq!(written, fs::read(task).expect("a table"));
    assert_eq!(normalised(&PROVED, &written), Ok(normal));
}
