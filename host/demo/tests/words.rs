//! The demo's words: help, what is refused, and a pipe that nobody reads any more.

use std::process::{Command, Output, Stdio};

use words::unread;

fn demo(words: &[&str], to: Stdio) -> Output {
    let mut command = Command::new(env!("CARGO_BIN_EXE_demo"));
    let command = command.args(words).stdout(to).stderr(Stdio::piped());
    let child = command.spawn().expect("the demo");
    child.wait_with_output().expect("its end")
}

/// The lines are those of the file that `./demo` reads its options from.
#[test]
fn help_is_the_file() {
    for word in ["--help", "-h"] {
        let run = demo(&[word], Stdio::piped());
        assert!(run.status.success());
        assert_eq!(run.stdout, include_bytes!("../help.txt"));
    }
}

/// Every option of the file is one that the demo knows: without its value it is asked for.
#[test]
fn every_option_of_the_help_is_known() {
    let lines = include_str!("../help.txt").lines();
    let options = lines.filter_map(|line| line.strip_prefix("  --")?.split(' ').next());
    let options: Vec<String> = options.map(|name| format!("--{name}")).collect();
    assert!(options.len() >= 6, "{options:?}");
    for option in options.iter().filter(|option| *option != "--help") {
        let run = demo(&[option], Stdio::piped());
        let noted = String::from_utf8_lossy(&run.stderr);
        assert_eq!(run.status.code(), Some(2), "{option}: {noted}");
        assert!(!noted.contains("there is no option"), "{option}: {noted}");
        assert!(noted.contains(option.as_str()), "{option}: {noted}");
    }
}

#[test]
fn unknown_words_are_refused() {
    for word in ["--colour", "now", "-x"] {
        let run = demo(&[word], Stdio::piped());
        let noted = String::from_utf8_lossy(&run.stderr);
        assert_eq!(run.status.code(), Some(2), "{noted}");
        assert!(
            noted.contains(&format!("{word:?}")) && noted.contains("--help"),
            "{noted}"
        );
        assert!(run.stdout.is_empty());
    }
}

#[test]
fn a_closed_pipe_ends_quietly() {
    let folder = std::path::Path::new(env!("CARGO_TARGET_TMPDIR")).join("closed-out");
    let folder = folder.display().to_string();
    for words in [
        &["--help"][..],
        &["--width", "160", "--height", "120", "--out", &folder],
    ] {
        let run = demo(words, unread());
        assert_eq!(run.status.code(), Some(141));
        assert_eq!(String::from_utf8_lossy(&run.stderr), "");
    }
}
