//! Links libgihvendu.a, the static library of the core: from the folder GIHVENDU_LIB where that is set, else as
//! `rt lib` makes it in crates/gihvendu of this repository.

use std::path::{Path, PathBuf};
use std::process::{Command, exit};
use std::{env, fs};

const ARCHIVE: &str = "libgihvendu.a";

const WANTED: &str = "gihvendu links libgihvendu.a. Either the Rattle kit's `rt` is on PATH, and this package stands in its \
                      repository (then `rt lib` makes it), or GIHVENDU_LIB is the absolute path of a folder that has it.";

fn stop(reason: &str) -> ! {
    eprintln!("\n{reason}\n{WANTED}\n");
    exit(1);
}

/// The folder that GIHVENDU_LIB names. Its archive is linked again where it changes; that of `made` is newer than any run
/// of this program, so there the sources tell.
fn given(folder: PathBuf) -> PathBuf {
    if folder.is_relative() {
        stop(&format!(
            "GIHVENDU_LIB is {}, which is not absolute.",
            folder.display()
        ));
    }
    println!("cargo::rerun-if-changed={}", folder.join(ARCHIVE).display());
    folder
}

/// The folder that `rt` writes to, after it proved and compiled the core.
fn made() -> PathBuf {
    let package = env::var_os("CARGO_MANIFEST_DIR").expect("cargo sets CARGO_MANIFEST_DIR");
    let above = Path::new(&package).join("../..");
    let root = fs::canonicalize(&above).unwrap_or(above);
    if !root.join("crates.txt").is_file() {
        stop(&format!("There is no crates.txt in {}.", root.display()));
    }
    println!("cargo::rerun-if-changed={}", root.join("crates.txt").display());
    // not the whole of crates: `rt` writes there what it makes
    for folder in fs::read_dir(root.join("crates")).into_iter().flatten().flatten() {
        for source in ["src", "specs", "proofs"] {
            let source = folder.path().join(source);
            if source.is_dir() {
                println!("cargo::rerun-if-changed={}", source.display());
            }
        }
    }
    let core = root.join("crates/gihvendu");
    let run = Command::new("rt").arg("lib").current_dir(&core).output();
    match run {
        Err(error) => stop(&format!("`rt` cannot be run: {error}.")),
        Ok(run) if !run.status.success() => stop(&format!(
            "`rt lib` failed in {}:\n{}{}",
            core.display(),
            String::from_utf8_lossy(&run.stdout),
            String::from_utf8_lossy(&run.stderr)
        )),
        Ok(_) => core.join("out"),
    }
}

fn main() {
    println!("cargo::rerun-if-changed=build.rs");
    println!("cargo::rerun-if-env-changed=GIHVENDU_LIB");
    let folder = match env::var_os("GIHVENDU_LIB") {
        Some(folder) => given(folder.into()),
        None => made(),
    };
    let archive = folder.join(ARCHIVE);
    if !archive.is_file() {
        stop(&format!("There is no {}.", archive.display()));
    }
    println!("cargo::rustc-link-search=native={}", folder.display());
    println!("cargo::rustc-link-lib=static=gihvendu");
}
