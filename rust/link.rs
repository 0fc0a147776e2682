// What the build scripts of `compare` and `wegrusamt` do: they link the port's static library.

use std::env;
use std::path::PathBuf;

/// The name of the library: the archive is called libNAME.a.
const LIBRARY: &str = "abi";

/// The environment variable that names the folder with the archive.
const FOLDER_VARIABLE: &str = "WEGRUSAMT_LIB";

/// Where the archive is looked for when the variable is not set, seen from the folder of the crate that is built.
const DEFAULT_FOLDER: &str = "../../target/staticlib";

fn main() {
    println!("cargo::rerun-if-env-changed={FOLDER_VARIABLE}");
    let folder = archive_folder();
    let archive = folder.join(format!("lib{LIBRARY}.a"));
    println!("cargo::rerun-if-changed={}", archive.display());

    if !archive.is_file() {
        println!(
            "cargo::error={} is missing: run `rust/archive` at the top of the repository, and set \
             {FOLDER_VARIABLE} to the folder that it prints where that is not target/staticlib",
            archive.display()
        );
        return;
    }
    println!("cargo::rustc-link-search=native={}", folder.display());
    println!("cargo::rustc-link-lib=static={LIBRARY}");
}

/// The folder with the archive. A relative path is taken from the folder of the crate that is built.
fn archive_folder() -> PathBuf {
    let own_folder = env::var("CARGO_MANIFEST_DIR").expect("cargo names this folder");
    let given = env::var(FOLDER_VARIABLE).unwrap_or_else(|_| DEFAULT_FOLDER.to_string());
    PathBuf::from(own_folder).join(given)
}
