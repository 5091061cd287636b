//! Writes the declarations of the three reference modules, by the paths of the files in the folder TEALDUST_SRC.

use std::path::{Path, PathBuf};
use std::{env, fs, process};

const MODULES: [&str; 3] = ["intops", "filter", "looprestoration"];

fn stop(message: &str) -> ! {
    eprintln!("\n{message}\n");
    process::exit(1);
}

/// The file of a module in one of the spellings that are taken.
fn find(folder: &Path, module: &str) -> PathBuf {
    let spellings = [
        format!("src--src--{module}.rs.txt"),
        format!("src/{module}.rs"),
        format!("{module}.rs"),
        format!("{module}.rs.txt"),
    ];
    for spelling in &spellings {
        let path = folder.join(spelling);
        if path.is_file() {
            return fs::canonicalize(&path).unwrap_or(path);
        }
    }
    stop(&format!(
        "TEALDUST_SRC is {}, which has none of {}",
        folder.display(),
        spellings.join(", ")
    ))
}

fn main() {
    println!("cargo::rerun-if-changed=build.rs");
    println!("cargo::rerun-if-env-changed=TEALDUST_SRC");

    let Some(folder) = env::var_os("TEALDUST_SRC") else {
        stop(
            "Set TEALDUST_SRC to the folder that has the unchanged files filter.rs, looprestoration.rs and intops.rs\n\
             of tealdust (also found as src/NAME.rs and as src--src--NAME.rs.txt), and build again.",
        )
    };
    let mut text = String::new();
    for module in MODULES {
        let path = find(Path::new(&folder), module);
        println!("cargo::rerun-if-changed={}", path.display());
        let path = path.to_string_lossy().into_owned();
        text.push_str(&format!(
            "#[allow(dead_code, unused, clippy::all)]\n#[path = {path:?}]\nmod {module};\n"
        ));
    }
    let out = PathBuf::from(env::var_os("OUT_DIR").expect("cargo sets OUT_DIR"));
    fs::write(out.join("reference.rs"), text).expect("OUT_DIR can be written");
}
