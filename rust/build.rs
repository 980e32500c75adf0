//! Links the engine's static library.

use std::env;
use std::path::PathBuf;
use std::process::exit;

/// The folder of the library, if it is not `target/staticlib` of the repository.
const FOLDER: &str = "LAPYNDO_LIB_DIR";

fn main() {
    println!("cargo:rerun-if-env-changed={FOLDER}");
    let folder = library_folder();
    let library = folder.join("libengine.a");
    println!("cargo:rerun-if-changed={}", library.display());
    if !library.is_file() {
        eprintln!(
            "the engine's static library is missing: {}",
            library.display()
        );
        eprintln!("build it with './build engine', or set {FOLDER} to its folder");
        exit(1);
    }
    println!("cargo:rustc-link-search=native={}", folder.display());
    println!("cargo:rustc-link-lib=static=engine");
}

fn library_folder() -> PathBuf {
    let default = || {
        let manifest = env::var_os("CARGO_MANIFEST_DIR").expect("cargo names the package's folder");
        PathBuf::from(manifest).join("../target/staticlib")
    };
    env::var_os(FOLDER).map_or_else(default, PathBuf::from)
}
