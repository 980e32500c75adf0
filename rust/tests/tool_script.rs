//! The script `lapyndo`: which library it takes, and when it builds one. `rt` and `cargo` stand in
//! for those that prove and build, and write down what they are called with.

use crate::common::folder::{repository, Folder, Printed};
use std::fs;
use std::path::Path;
use std::process::Command;

const NOTED: &str = "noted";

/// A repository with the script, its program, and tools that say what they are asked for.
fn copy() -> Folder {
    let copy = Folder::new();
    for folder in [
        "tools",
        "rust/target/release",
        "crates/engine",
        "target",
        "a library",
    ] {
        fs::create_dir_all(copy.0.join(folder)).expect("a folder");
    }
    for name in ["lapyndo", "build"] {
        let script = fs::read_to_string(repository().join(name)).expect("the script");
        put_program(&copy.0.join(name), &script);
    }
    let noted = copy.0.join(NOTED);
    let noted = noted.display();
    let rt = format!("echo \"rt $*\" >>'{noted}'; mkdir -p out; >out/libengine.a");
    let cargo = format!("echo \"cargo $1 ${{LAPYNDO_LIB_DIR-none}}\" >>'{noted}'");
    let program = "echo \"lapyndo $*\"".into();
    for (name, line) in [
        ("tools/rt", rt),
        ("tools/cargo", cargo),
        ("rust/target/release/lapyndo", program),
    ] {
        put_program(&copy.0.join(name), &format!("#!/bin/sh\n{line}\n"));
    }
    copy
}

/// Writes a program, from another process: none that another test starts meanwhile can have it open.
fn put_program(file: &Path, text: &str) {
    let write = "printf %s \"$1\" >\"$0\" && chmod 755 \"$0\"";
    let mut shell = Command::new("sh");
    let shell = shell.args(["-c", write]).arg(file).arg(text);
    assert!(shell.status().expect("a shell").success());
}

/// Runs the script in the folder above the library; what it prints, and what the tools noted.
fn script(copy: &Folder, library: Option<&str>) -> (Printed, String) {
    let mut command = Command::new(copy.0.join("lapyndo"));
    command.args(["why", "a folder"]).current_dir(&copy.0);
    command.env_remove("LAPYNDO_LIB_DIR");
    command.envs(library.map(|folder| ("LAPYNDO_LIB_DIR", folder)));
    let path = std::env::var("PATH").expect("a path");
    let tools = copy.0.join("tools");
    command.env("PATH", format!("{}:{path}", tools.display()));
    let output = command.output().expect("the script runs");
    let [out, error] =
        [output.stdout, output.stderr].map(|text| String::from_utf8(text).expect("text"));
    let printed = Printed {
        out,
        error,
        status: output.status.code().expect("an exit status"),
    };
    let noted = fs::read_to_string(copy.0.join(NOTED)).unwrap_or_default();
    (printed, noted)
}

/// The program ran, with the words that were given and without a word about building.
fn silent() -> Printed {
    Printed {
        out: "lapyndo why a folder\n".into(),
        error: String::new(),
        status: 0,
    }
}

fn put_library(folder: &Path) {
    fs::create_dir_all(folder).expect("a folder");
    fs::write(folder.join("libengine.a"), "").expect("a library");
}

#[test]
fn a_library_that_is_named_is_taken() {
    let copy = copy();
    let library = copy.0.join("a library");
    put_library(&library);
    let noted = format!("cargo build {}\n", library.display());
    let absolute = library.to_str().expect("text");
    assert_eq!(script(&copy, Some(absolute)), (silent(), noted.clone()));
    // From the folder that the script is called from, and before the library of the repository.
    put_library(&copy.0.join("target/staticlib"));
    let twice = noted.repeat(2);
    assert_eq!(script(&copy, Some("a library")), (silent(), twice));
}

#[test]
fn a_named_folder_without_the_library_is_wrong_use() {
    let copy = copy();
    put_library(&copy.0.join("target/staticlib"));
    for folder in ["a library", "none"] {
        let (printed, noted) = script(&copy, Some(folder));
        let error = format!(
            "lapyndo: {folder}/libengine.a: there is no such file; LAPYNDO_LIB_DIR names its folder\n"
        );
        assert_eq!((printed.status, printed.out), (2, String::new()));
        assert_eq!((printed.error, &*noted), (error, ""));
    }
}

#[test]
fn a_library_is_built_where_none_is_named() {
    let built = "rt lib\ncargo build none\n";
    for library in [None, Some("")] {
        let copy = copy();
        let (printed, noted) = script(&copy, library);
        assert_eq!((printed.status, &*noted), (0, built), "{}", printed.error);
        assert!(printed.error.starts_with("building the engine's library: "));
        let again = format!("{built}cargo build none\n");
        assert_eq!(script(&copy, library), (silent(), again));
    }
}
