//! What the build scripts of these packages share: the folders, and how a build is stopped.

use std::env;
use std::path::{Path, PathBuf};

/// The folder `host`, in which the packages stand.
pub fn host() -> PathBuf {
    let package = env::var_os("CARGO_MANIFEST_DIR").expect("cargo names the package's folder");
    let host = Path::new(&package).parent();
    host.expect("the package stands in the folder host")
        .to_owned()
}

/// The folder that a variable names, as it is seen from everywhere: a relative one is taken from the folder `host`.
/// Another value of the variable makes the build run again; an empty one is none.
pub fn named(variable: &str) -> Option<PathBuf> {
    println!("cargo:rerun-if-env-changed={variable}");
    let folder = env::var_os(variable).filter(|folder| !folder.is_empty())?;
    let folder = host().join(folder);
    Some(std::path::absolute(&folder).unwrap_or(folder))
}

/// The libhost.a of a folder, where there is one; `variable` names such a folder, or may.
pub fn library(variable: &str, folder: &Path) -> PathBuf {
    let library = folder.join("libhost.a");
    if !library.is_file() {
        let absent = if folder.is_dir() {
            "there is no libhost.a in it"
        } else {
            "there is no such folder"
        };
        stop(&format!(
            "the library is looked for in {}, and {absent}.\n\
             Set {variable} to a folder with a finished libhost.a, or unset it.",
            folder.display()
        ));
    }
    println!("cargo:rerun-if-changed={}", library.display());
    library
}

/// Ends the build with words instead of a backtrace.
pub fn stop(words: &str) -> ! {
    eprintln!("{}: {words}", env!("CARGO_PKG_NAME"));
    std::process::exit(1)
}
