//! A list of moves from its file: a byte for each move or, where the name ends in .txt, text.

use crate::files;
use crate::outcome::Misuse;
use std::ffi::OsStr;
use std::path::Path;

pub struct List {
    pub moves: Vec<u8>,
    /// Of text: the line of each move, counted from 1.
    lines: Option<Vec<usize>>,
}

impl List {
    pub fn read(name: &OsStr) -> Result<List, Misuse> {
        let file = Path::new(name);
        let bytes = files::list(file)?;
        if !is_text(file) {
            return Ok(List {
                moves: bytes,
                lines: None,
            });
        }
        let entries = entries(&bytes).map_err(|wrong| files::misuse(file, &wrong))?;
        let (lines, moves) = entries.into_iter().unzip();
        Ok(List {
            moves,
            lines: Some(lines),
        })
    }

    /// The line of an entry, if the list is text.
    pub fn line(&self, entry: usize) -> Option<usize> {
        self.lines.as_ref().map(|lines| lines[entry])
    }

    /// Whether the bytes, which were taken as moves, would be moves as text too.
    pub fn may_be_text(&self) -> bool {
        let read_as_text = || entries(&self.moves).is_ok_and(|entries| !entries.is_empty());
        self.lines.is_none() && read_as_text()
    }
}

fn is_text(file: &Path) -> bool {
    let ending = file.extension();
    ending.is_some_and(|ending| ending.eq_ignore_ascii_case("txt"))
}

/// The moves of a text, each behind its line; an error says what is no move.
fn entries(bytes: &[u8]) -> Result<Vec<(usize, u8)>, String> {
    let text = String::from_utf8_lossy(bytes);
    // Some editors mark a text at its start.
    let text = text.strip_prefix('\u{FEFF}').unwrap_or(&text);
    let mut entries = Vec::new();
    for (line, text) in (1..).zip(text.lines()) {
        for word in words(text) {
            let number = number(word).and_then(|number| u8::try_from(number).ok());
            let number = number.ok_or_else(|| format!("line {line}: {}", wrong(word)))?;
            entries.push((line, number));
        }
    }
    Ok(entries)
}

/// The moves in a line, up to a comment: words, or the one action of a PDDL plan.
fn words(line: &str) -> Vec<&str> {
    let text = line.split(';').next().unwrap_or("").trim();
    let action = text.strip_prefix('(');
    match action.and_then(|action| action.strip_suffix(')')) {
        Some(action) => vec![action.trim()],
        None => text.split_whitespace().collect(),
    }
}

fn wrong(word: &str) -> String {
    let shown: String = word.chars().take(40).flat_map(char::escape_debug).collect();
    format!("'{shown}' is no move: a move is a number, 0 to 255, such as 3, a3 or (a3)")
}

/// A move's number, with or without its a.
pub fn number(text: &str) -> Option<u64> {
    let digits = text.strip_prefix(['a', 'A']).unwrap_or(text);
    let is_number = digits.bytes().all(|byte| byte.is_ascii_digit());
    digits.parse().ok().filter(|_| is_number)
}
