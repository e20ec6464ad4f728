//! Links the proved library, libhost.a.
//!
//! `SAFETEAL_LIB` names a folder with a finished one; without it `tools/library` of the project is run. A
//! relative folder is taken from the folder `host`.

use std::path::{Path, PathBuf};
use std::process::Command;

#[path = "build/folder.rs"]
mod folder;
use folder::{host, library, named, stop};

fn main() {
    println!("cargo:rerun-if-changed=build.rs");
    println!("cargo:rerun-if-changed=build/folder.rs");
    let folder = named("SAFETEAL_LIB").unwrap_or_else(made);
    library("SAFETEAL_LIB", &folder);
    println!("cargo:rustc-link-search=native={}", folder.display());
    println!("cargo:rustc-link-lib=static=host");
    println!("cargo:rustc-env=SAFETEAL_LINKED={}", folder.display());
    println!("cargo:folder={}", folder.display());
}

/// The folder of the library that is made here, again whenever a source is changed.
fn made() -> PathBuf {
    let host = host();
    let root = host.parent().expect("the folder host stands in the root");
    println!(
        "cargo:rerun-if-changed={}",
        root.join("crates.txt").display()
    );
    // What a check keeps in a crate's folder `out` is no source.
    for folder in root
        .join("crates")
        .read_dir()
        .expect("the crates")
        .flatten()
    {
        for part in ["src", "specs", "proofs"] {
            let source = folder.path().join(part);
            if source.is_dir() {
                println!("cargo:rerun-if-changed={}", source.display());
            }
        }
    }
    prove(root);
    root.join("target/staticlib")
}

/// Proves the C interface and writes target/staticlib/libhost.a in the project's root.
fn prove(root: &Path) {
    let run = Command::new(root.join("tools/library")).output();
    match run {
        Err(error) => stop(&format!(
            "the script tools/library could not be started ({error}).\n\
             To do without it, set SAFETEAL_LIB to a folder with a finished libhost.a."
        )),
        Ok(run) if !run.status.success() => stop(&format!(
            "`tools/library` failed ({}):\n{}{}\
             To do without it, set SAFETEAL_LIB to a folder with a finished libhost.a.",
            run.status,
            String::from_utf8_lossy(&run.stdout),
            String::from_utf8_lossy(&run.stderr)
        )),
        Ok(_) => {}
    }
}
