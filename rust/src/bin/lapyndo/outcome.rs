//! What a command comes to, where it is written, and the exit status.

use std::io::{self, ErrorKind, Write};
use std::process::ExitCode;

/// What is written to standard output.
#[derive(Debug)]
pub enum Outcome {
    /// Exit status 0.
    Answer(String),
    /// A refusal of the engine, explained: exit status 1.
    Refused(String),
    /// An answer that is no, of a command that asks whether something is so: exit status 3.
    No(String),
}

/// Wrong use, in words for standard error: exit status 2.
#[derive(Debug)]
pub struct Misuse(pub String);

pub type Done = Result<Outcome, Misuse>;

/// Writes the outcome and answers the exit status.
pub fn report(done: Done) -> ExitCode {
    let written = match done {
        Ok(Outcome::Answer(text)) => written(&text).map(|()| 0),
        Ok(Outcome::Refused(text)) => written(&text).map(|()| 1),
        Ok(Outcome::No(text)) => written(&text).map(|()| 3),
        Err(misuse) => Err(misuse),
    };
    written.map_or_else(complain, ExitCode::from)
}

/// A reader who closes the pipe has seen enough: that is no error.
fn written(text: &str) -> Result<(), Misuse> {
    let mut out = io::stdout().lock();
    match out.write_all(text.as_bytes()).and_then(|()| out.flush()) {
        Err(error) if error.kind() != ErrorKind::BrokenPipe => {
            Err(Misuse(format!("standard output: {error}")))
        }
        _ => Ok(()),
    }
}

fn complain(Misuse(text): Misuse) -> ExitCode {
    // Nothing is left to be told to where standard error is closed too.
    let _ = writeln!(io::stderr(), "lapyndo: {text}");
    ExitCode::from(2)
}
