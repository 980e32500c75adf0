//! Folders of campaigns, their files, and programs run in them.

use std::fs;
use std::path::{Path, PathBuf};
use std::process::{self, Command};
use std::sync::atomic::{AtomicUsize, Ordering};

/// The top folder of the repository.
pub fn repository() -> PathBuf {
    let folder = Path::new(env!("CARGO_MANIFEST_DIR")).join("..");
    folder.canonicalize().expect("the repository is there")
}

/// The folders of the example campaigns.
pub fn examples() -> Vec<PathBuf> {
    let entries = fs::read_dir(repository().join("examples")).expect("the examples");
    let paths = entries.map(|entry| entry.expect("an example").path());
    let mut found: Vec<PathBuf> = paths.filter(|path| path.is_dir()).collect();
    found.sort();
    assert!(found.len() >= 9, "examples are missing");
    found
}

/// The files that PDDL text goes into.
pub const PDDL: [&str; 2] = ["domain.pddl", "problem.pddl"];

/// What each of them has of a text: all before the problem's line, and all from there.
pub fn pddl_parts(text: &str) -> [String; 2] {
    let (domain, problem) = text.split_once("(define (problem ").expect("a problem");
    [domain.into(), format!("(define (problem {problem}")]
}

/// A folder of its own, removed when it is dropped.
pub struct Folder(pub PathBuf);

impl Folder {
    pub fn new() -> Folder {
        static MADE: AtomicUsize = AtomicUsize::new(0);
        let number = MADE.fetch_add(1, Ordering::Relaxed);
        let name = format!("campaign {} {number}", process::id());
        let path = std::env::temp_dir().join(name);
        fs::create_dir_all(&path).expect("a folder");
        Folder(path)
    }

    pub fn with(self, file: &str, bytes: &[u8]) -> Folder {
        fs::write(self.0.join(file), bytes).expect("a file");
        self
    }

    /// With the two files of a campaign.
    pub fn of(task: &[u8], state: &[u8]) -> Folder {
        let folder = Folder::new();
        folder.with("task.bin", task).with("state.bin", state)
    }
}

impl Drop for Folder {
    fn drop(&mut self) {
        let _ = fs::remove_dir_all(&self.0);
    }
}

/// What a program wrote, and its exit status.
#[derive(Debug, PartialEq, Eq)]
pub struct Printed {
    pub out: String,
    pub error: String,
    pub status: i32,
}

/// Runs a program in a folder.
///
/// # Panics
/// If a signal ends it, or if it writes anything but text.
pub fn run(program: &Path, folder: &Path, words: &[&str]) -> Printed {
    let mut command = Command::new(program);
    let output = command.current_dir(folder).args(words).output();
    let output = output.unwrap_or_else(|error| panic!("{}: {error}", program.display()));
    let [out, error] =
        [output.stdout, output.stderr].map(|text| String::from_utf8(text).expect("text"));
    Printed {
        out,
        error,
        status: output.status.code().expect("an exit status"),
    }
}
