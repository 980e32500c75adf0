//! The calls that are kept, from fuzzing and some by hand, a line each: the call's name, then its
//! fields.

use crate::call::{Call, CallKind, GROWN_SETS};
use crate::harness::outcomes;
use std::fs;
use std::path::Path;

/// The kept calls.
///
/// # Panics
/// If their file cannot be read.
pub fn kept() -> Vec<Call> {
    let file = Path::new(env!("CARGO_MANIFEST_DIR")).join("tests/data/corpus.txt");
    let text = fs::read_to_string(file).expect("the corpus is there");
    let calls: Result<Vec<Call>, String> = text.lines().map(parse).collect();
    calls.expect("every line is a call")
}

/// The calls of all recorded outcomes.
///
/// # Panics
/// If their files cannot be read.
pub fn recorded() -> Vec<Call> {
    let calls = |kind: CallKind, file| {
        let calls = outcomes(file);
        let fields = calls.lines().filter_map(|line| line.split_once(" -> "));
        let calls: Result<Vec<Call>, String> =
            fields.map(|(call, _)| Call::parse(kind, call)).collect();
        calls.expect("every line has a call")
    };
    let files = |kind: CallKind| kind.records().iter().map(move |(file, _)| (kind, *file));
    let files = CallKind::ALL.into_iter().flat_map(files);
    let files = files.chain([(CallKind::Plan, GROWN_SETS.0)]);
    files.flat_map(|(kind, file)| calls(kind, file)).collect()
}

/// The line of a call.
pub fn line(call: &Call) -> String {
    format!("{} {call}", call.kind.name())
}

/// The call of a line.
pub fn parse(line: &str) -> Result<Call, String> {
    let (name, fields) = line.split_once(' ').ok_or("a line has fields")?;
    let kind = CallKind::ALL.into_iter().find(|kind| kind.name() == name);
    Call::parse(kind.ok_or_else(|| format!("no call: {name}"))?, fields)
}

#[cfg(test)]
mod tests {
    use super::*;

    #[test]
    fn lines_are_read_back() {
        let call = Call {
            table: vec![0x4E, 0, 0, 0, 0x47, 0x45],
            index: 3,
            ..CallKind::Block.call()
        };
        assert_eq!(line(&call), "block 4e0000004745 3");
        assert_eq!(parse(&line(&call)), Ok(call));
        assert!(parse("block").is_err());
        assert!(parse("blocks 45 0").is_err());
    }

    #[test]
    fn every_recorded_call_is_there() {
        let records = CallKind::ALL.into_iter().flat_map(CallKind::records);
        let lines: usize = records.map(|(_, lines)| lines).sum();
        assert_eq!(recorded().len(), lines + GROWN_SETS.1);
    }
}
