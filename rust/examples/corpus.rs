//! The inputs of a fuzzer, from calls and back.
//!
//! usage: corpus unpack FOLDER    writes an input for each recorded and each kept call
//!        corpus pack FOLDER      prints the calls of the inputs, a line each

use campaign::call::Call;
use campaign::corpus::{kept, line, recorded};
use campaign::input::{decode, encode};
use std::env::args;
use std::fs;
use std::io;
use std::path::{Path, PathBuf};

fn main() -> io::Result<()> {
    let arguments: Vec<String> = args().skip(1).collect();
    match arguments.iter().map(String::as_str).collect::<Vec<_>>()[..] {
        ["unpack", folder] => unpack(Path::new(folder)),
        ["pack", folder] => pack(Path::new(folder)),
        _ => panic!("usage: corpus unpack|pack FOLDER"),
    }
}

fn unpack(folder: &Path) -> io::Result<()> {
    let calls: Vec<Call> = recorded().into_iter().chain(kept()).collect();
    for (i, input) in calls.iter().filter_map(encode).enumerate() {
        fs::write(folder.join(format!("seed-{i:04}")), input)?;
    }
    Ok(())
}

fn pack(folder: &Path) -> io::Result<()> {
    let names: io::Result<Vec<PathBuf>> = folder.read_dir()?.map(|e| Ok(e?.path())).collect();
    let inputs: io::Result<Vec<Vec<u8>>> = names?.into_iter().map(fs::read).collect();
    let mut lines: Vec<String> = inputs?.iter().map(|input| line(&decode(input))).collect();
    lines.sort_unstable();
    lines.dedup();
    for line in lines {
        println!("{line}");
    }
    Ok(())
}
