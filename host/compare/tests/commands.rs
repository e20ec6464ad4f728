//! The built commands: help, words that are refused before anything is done, and pipes that nobody reads any more.

use std::fs::{self, Permissions};
use std::os::unix::fs::PermissionsExt;
use std::path::{Path, PathBuf};
use std::process::{Command, Output};

use words::unread;

/// The commands of this package, each with words that it would run on.
const COMMANDS: [(&str, &str, &[&str]); 5] = [
    ("bench", env!("CARGO_BIN_EXE_bench"), &["distances"]),
    ("exhaustive", env!("CARGO_BIN_EXE_exhaustive"), &[]),
    ("memory", env!("CARGO_BIN_EXE_memory"), &["1"]),
    ("record", env!("CARGO_BIN_EXE_record"), &["answers"]),
    ("scale", env!("CARGO_BIN_EXE_scale"), &["--cases", "1"]),
];

/// The scripts of the project.
const SCRIPTS: [&str; 9] = [
    "demo",
    "test",
    "host/memory",
    "tools/documents",
    "tools/lines",
    "tools/prose",
    "tools/quotes",
    "tools/shape",
    "tools/trace",
];

fn root() -> PathBuf {
    Path::new(env!("CARGO_MANIFEST_DIR")).join("../..")
}

/// An empty folder of that name.
fn folder(name: &str) -> PathBuf {
    let folder = Path::new(env!("CARGO_TARGET_TMPDIR")).join(name);
    let _ = fs::remove_dir_all(&folder);
    fs::create_dir_all(&folder).expect("a folder for the test");
    folder
}

fn run(program: &Path, words: &[&str], folder: &Path) -> Output {
    let mut command = Command::new(program);
    let run = command.args(words).current_dir(folder).output();
    run.unwrap_or_else(|error| panic!("{}: {error}", program.display()))
}

/// A script with these words and this SAFETEAL_LIB, where all that builds and proves is a command that leaves a file
/// `reached` behind it and fails: it must not come so far.
fn script(name: &str, words: &[&str], folder: &Path, library: &str) -> Output {
    let path = std::env::var("PATH").unwrap_or_default();
    for command in ["rt", "cargo", "valgrind"] {
        let (file, reached) = (folder.join(command), folder.join("reached"));
        let text = format!("#!/bin/sh\n: > {:?}\nexit 1\n", reached.display());
        fs::write(&file, text).expect("a command for the test");
        fs::set_permissions(&file, Permissions::from_mode(0o755)).expect("its run bit");
    }
    let run = Command::new(root().join(name))
        .args(words)
        .current_dir(folder)
        .env("SAFETEAL_LIB", library)
        .env("PATH", format!("{}:{path}", folder.display()))
        .output();
    let run = run.unwrap_or_else(|error| panic!("{name}: {error}"));
    assert!(!folder.join("reached").exists(), "{name} {words:?}");
    run
}

fn text(bytes: &[u8]) -> String {
    String::from_utf8_lossy(bytes).into_owned()
}

/// Help is printed with status 0, whatever stands beside it, and nothing is done.
#[test]
fn help_is_printed_and_nothing_done() {
    let folder = folder("help");
    for (name, program, words) in COMMANDS {
        for help in ["--help", "-h"] {
            let words: Vec<&str> = words.iter().copied().chain([help]).collect();
            let run = run(Path::new(program), &words, &folder);
            let said = text(&run.stdout);
            assert_eq!(run.status.code(), Some(0), "{name} {words:?}");
            assert!(
                said.starts_with(name) && said.contains("\n  --help, -h "),
                "{said}"
            );
            assert!(run.stderr.is_empty(), "{name}: {}", text(&run.stderr));
        }
    }
    assert_eq!(fs::read_dir(&folder).expect("the folder").count(), 0);
}

/// A word that is not known is named, with status 2, and nothing is done.
#[test]
fn unknown_words_are_refused() {
    let folder = folder("unknown");
    for (name, program, words) in COMMANDS {
        for wrong in ["--nonsense", "-x", "a b"] {
            let words: Vec<&str> = words.iter().copied().chain([wrong]).collect();
            let run = run(Path::new(program), &words, &folder);
            let noted = text(&run.stderr);
            assert_eq!(run.status.code(), Some(2), "{name} {words:?}: {noted}");
            let named = noted.contains(&format!("{wrong:?}"));
            assert!(named && noted.contains("--help"), "{name}: {noted}");
            assert!(run.stdout.is_empty(), "{name} {words:?}");
        }
    }
    assert_eq!(fs::read_dir(&folder).expect("the folder").count(), 0);
}

#[test]
fn a_missing_word_is_named() {
    let run = run(Path::new(COMMANDS[3].1), &[], &folder("missing"));
    let noted = text(&run.stderr);
    assert_eq!(run.status.code(), Some(2));
    assert!(
        noted.starts_with("record: FILE is missing: the file to write"),
        "{noted}"
    );
}

/// The scripts do the same, before they build or prove anything.
#[test]
fn scripts_have_help_and_refuse_unknown_words() {
    let folder = folder("scripts");
    for path in SCRIPTS {
        let name = path.rsplit('/').next().expect("a name");
        for help in ["--help", "-h"] {
            let run = script(path, &[help], &folder, "");
            let said = text(&run.stdout);
            assert_eq!(run.status.code(), Some(0), "{path}");
            assert!(said.contains(name) && said.contains("\n  --help"), "{said}");
        }
        for wrong in ["--nonsense", "-x"] {
            let run = script(path, &[wrong], &folder, "");
            let noted = text(&run.stderr);
            let begin = format!("{name}: there is no option {wrong:?}; ");
            assert_eq!(run.status.code(), Some(2), "{path}: {noted}");
            assert!(
                noted.starts_with(&begin) && noted.contains("--help"),
                "{noted}"
            );
        }
    }
    let run = script("host/memory", &["0"], &folder, "");
    let noted = text(&run.stderr);
    let begin = "memory: CASES takes a whole number of 1 or more, not \"0\"";
    assert!(noted.starts_with(begin), "{noted}");
    assert_eq!(run.status.code(), Some(2));
}

/// The script and the command that it runs take the same words.
#[test]
fn both_helps_of_memory_list_the_same() {
    let rows = |program: &Path| {
        let said = text(&run(program, &["--help"], &root()).stdout);
        let rows = said.lines().filter(|line| line.starts_with("  "));
        rows.map(str::to_owned).collect::<Vec<_>>()
    };
    let script = rows(&root().join("host/memory"));
    assert_eq!(script.len(), 3);
    assert_eq!(script, rows(Path::new(COMMANDS[2].1)));
}

/// Where nobody reads what they print, the commands end without a word, as by SIGPIPE.
#[test]
fn a_closed_pipe_ends_quietly() {
    let folder = folder("closed");
    for (name, program, words) in COMMANDS {
        let help = ["--help"];
        let rows = ["--rounds", "1", "--size", "64x64"];
        let runs: &[&[&str]] = match name {
            // The rows, and the progress of the others, come one by one.
            "bench" => &[&help, &rows],
            "memory" | "scale" => &[&help, words],
            _ => &[&help],
        };
        for words in runs {
            let mut command = Command::new(program);
            command.args(*words).current_dir(&folder).stdout(unread());
            let run = command.output().expect("the command");
            let noted = text(&run.stderr);
            assert!(!noted.contains("panicked"), "{name} {words:?}: {noted}");
            let ended = run.status.code();
            assert!(
                ended == Some(141) || oracle_absent(&noted),
                "{name} {words:?}: {ended:?}, {noted}"
            );
        }
    }
}

/// The same for what goes to standard error: progress, and the words of a refusal.
#[test]
fn a_closed_pipe_for_notes_ends_quietly() {
    let folder = folder("notes");
    for (name, program, words) in COMMANDS {
        let words: &[&str] = match name {
            "scale" | "record" | "memory" => words,
            _ => &["--nonsense"],
        };
        let mut command = Command::new(program);
        command.args(words).current_dir(&folder).stderr(unread());
        let run = command.output().expect("the command");
        assert_eq!(run.status.code(), Some(141), "{name} {words:?}");
    }
}

/// Without the Rust nothing is run, and a line says so.
fn oracle_absent(noted: &str) -> bool {
    cfg!(oracle_absent) && noted.contains("is not at hand")
}

/// The build says it as well, as its first step.
#[test]
fn a_bad_library_stops_the_build() {
    let folder = folder("build");
    let run = Command::new(env!("CARGO"))
        .args([
            "build",
            "--offline",
            "--package",
            "safeteal",
            "--target-dir",
        ])
        .arg(folder.join("target"))
        .current_dir(root().join("host"))
        .env("SAFETEAL_LIB", folder.join("nowhere"))
        .output()
        .expect("cargo");
    let noted = text(&run.stderr);
    assert!(!run.status.success());
    assert!(
        noted.contains("nowhere, and there is no such folder"),
        "{noted}"
    );
    assert!(
        noted.contains("Set SAFETEAL_LIB to a folder with a finished libhost.a, or unset it"),
        "{noted}"
    );
}

/// A SAFETEAL_LIB that names no library is said by the scripts before anything is built.
#[test]
fn a_bad_library_is_said_first() {
    let folder = folder("library");
    for name in ["demo", "host/memory", "test"] {
        for (value, absent) in [
            ("nowhere", "there is no such folder"),
            (".", "there is no libhost.a in it"),
        ] {
            let run = script(name, &[], &folder, value);
            let noted = text(&run.stderr);
            assert_eq!(run.status.code(), Some(1), "{name}: {noted}");
            assert!(
                noted.contains("SAFETEAL_LIB names /") && noted.contains(absent),
                "{noted}"
            );
            assert!(
                noted.contains("Set it to a folder with a finished libhost.a"),
                "{noted}"
            );
            assert_eq!(noted.lines().count(), 1, "{noted}");
        }
    }
}
