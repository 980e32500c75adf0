//! The files of a campaign, of a closure and of a list.

use crate::outcome::Misuse;
use std::ffi::OsStr;
use std::fs::{self, File};
use std::io::{self, ErrorKind, Read, Write};
use std::path::Path;
use std::process;

/// The longest table that is ever accepted, in bytes.
const TABLE_LIMIT: usize = 64_000;
/// The longest state that is ever accepted: 120 propositions and 16 values.
const STATE_LIMIT: usize = 184;
/// More windows and durations than are ever accepted and placed, so that it is the engine that refuses
/// them: a closure has 64 windows, and each entry takes one of its 1,000,000 minutes at least.
const WINDOWS_LIMIT: usize = 8_000;
const DURATIONS_LIMIT: usize = 8_000_000;
/// The longest list that is read. The engine has no such limit.
const LIST_LIMIT: usize = 16_000_000;

/// What the two files of a campaign are called.
pub const TASK: &str = "task.bin";
pub const STATE: &str = "state.bin";
/// And those of a closure.
pub const WINDOWS: &str = "windows.bin";
pub const DURATIONS: &str = "durations.bin";

/// A campaign's folder.
pub struct Folder {
    pub table: Vec<u8>,
    pub state: Vec<u8>,
}

impl Folder {
    pub fn read(name: &OsStr) -> Result<Folder, Misuse> {
        let folder = Path::new(name);
        if !folder.is_dir() {
            return Err(misuse(folder, "there is no such folder"));
        }
        Ok(Folder {
            table: table(&folder.join(TASK))?,
            state: bytes(&folder.join(STATE), STATE_LIMIT, "no state has more")?,
        })
    }
}

/// The windows of a closure, and the minutes of the entries that are placed in them.
pub struct Closure {
    pub windows: Vec<u8>,
    pub durations: Vec<u8>,
}

impl Closure {
    pub fn read(name: &OsStr) -> Result<Closure, Misuse> {
        let folder = Path::new(name);
        let [windows, durations] = [WINDOWS, DURATIONS].map(|file| folder.join(file));
        Ok(Closure {
            windows: bytes(&windows, WINDOWS_LIMIT, "64 windows have 512")?,
            durations: bytes(
                &durations,
                DURATIONS_LIMIT,
                "a list that fits a closure has 4000000 at most",
            )?,
        })
    }
}

pub fn table(file: &Path) -> Result<Vec<u8>, Misuse> {
    bytes(file, TABLE_LIMIT, "no table has more")
}

/// A list of moves, bytes or text.
pub fn list(file: &Path) -> Result<Vec<u8>, Misuse> {
    bytes(file, LIST_LIMIT, "no longer list is read")
}

/// The bytes of a file, of which no more are read than the limit and one; and what is said of the limit.
fn bytes(file: &Path, limit: usize, said: &str) -> Result<Vec<u8>, Misuse> {
    let mut bytes = Vec::new();
    let opened = File::open(file);
    opened
        .and_then(|opened| opened.take(limit as u64 + 1).read_to_end(&mut bytes))
        .map_err(|error| misuse(file, &reason(&error, "read")))?;
    if bytes.len() > limit {
        let longest = format!("the file has more than {limit} bytes, and {said}");
        return Err(misuse(file, &longest));
    }
    Ok(bytes)
}

/// Writes a file, or replaces it.
pub fn write(file: &Path, bytes: &[u8]) -> Result<(), Misuse> {
    fs::write(file, bytes).map_err(|error| misuse(file, &reason(&error, "written")))
}

/// Whether a file may be written: it is not the one that is to be kept, and what is there, if
/// anything, is an ordinary file that may be written.
pub fn check_replaceable(file: &Path, kept: &Path) -> Result<(), Misuse> {
    let folder = file.parent().filter(|folder| *folder != Path::new(""));
    if let Some(folder) = folder.filter(|folder| !folder.is_dir()) {
        return Err(misuse(folder, "there is no such folder"));
    }
    let Ok(found) = fs::metadata(file) else {
        return Ok(());
    };
    let whole = |path: &Path| path.canonicalize().ok();
    let text = if whole(file).is_some() && whole(file) == whole(kept) {
        "this is the file that is read, and it is kept: name another one"
    } else if found.is_dir() {
        "this is a folder, and not a file"
    } else if !found.is_file() {
        "this is no ordinary file"
    } else if found.permissions().readonly() {
        "the file may not be written"
    } else {
        return Ok(());
    };
    Err(misuse(file, text))
}

/// Writes a file, or replaces it as a whole: what was there stays where something fails.
pub fn replace(file: &Path, bytes: &[u8]) -> Result<(), Misuse> {
    let place = file.canonicalize().unwrap_or_else(|_| file.into());
    let mut name = place.file_name().unwrap_or_default().to_owned();
    name.push(format!(".{}.new", process::id()));
    let new = place.with_file_name(name);
    let failed = |error| misuse(file, &reason(&error, "written"));
    let mut opened = File::create_new(&new).map_err(failed)?;
    let written = opened.write_all(bytes).and_then(|()| opened.sync_all());
    let replaced = written.and_then(|()| fs::rename(&new, &place));
    replaced.map_err(|error| {
        // What is told is why it failed; the new file may be left over.
        let _ = fs::remove_file(&new);
        failed(error)
    })
}

/// Why a file cannot be read or written.
fn reason(error: &io::Error, done: &str) -> String {
    match error.kind() {
        ErrorKind::NotFound => "there is no such file".into(),
        ErrorKind::IsADirectory => "this is a folder, and not a file".into(),
        ErrorKind::PermissionDenied => format!("the file may not be {done}"),
        _ => error.to_string(),
    }
}

pub fn misuse(path: &Path, text: &str) -> Misuse {
    Misuse(format!("{}: {text}", path.display()))
}
