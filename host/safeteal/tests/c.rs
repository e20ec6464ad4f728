//! The C programs of `host/c` compile without a warning with each compiler that is there, link with the library alone,
//! run, and print what they should; and the header is one for C++ as well.

use std::fs;
use std::path::{Path, PathBuf};
use std::process::{Command, Output};

/// What every compiler is asked: no program and no use of the header has a warning.
const STRICT: [&str; 4] = ["-Wall", "-Wextra", "-pedantic", "-Werror"];
const C: [&str; 2] = ["gcc", "clang"];
const CPP: [&str; 2] = ["g++", "clang++"];

fn host() -> PathBuf {
    let package = Path::new(env!("CARGO_MANIFEST_DIR"));
    package.parent().expect("the folder host").to_owned()
}

fn text(bytes: &[u8]) -> String {
    String::from_utf8_lossy(bytes).into_owned()
}

/// Those of the compilers that are there. A machine without any would show nothing.
fn present(compilers: [&'static str; 2]) -> Vec<&'static str> {
    let starts = |name: &&str| Command::new(name).arg("--version").output().is_ok();
    let found: Vec<_> = compilers.into_iter().filter(starts).collect();
    let [first, second] = compilers;
    assert!(
        !found.is_empty(),
        "neither {first} nor {second} is there: install one of them (on Debian: apt-get install {first})"
    );
    println!("compiled with {}", found.join(" and "));
    found
}

/// A program of one source: made from it and the library by this compiler, by this standard.
fn compiled(compiler: &str, standard: &str, source: &Path) -> (PathBuf, Output) {
    let name = source.file_name().expect("a file").to_string_lossy();
    let folder = Path::new(env!("CARGO_TARGET_TMPDIR"));
    let program = folder.join(format!("{name}-{compiler}-{standard}"));
    let run = Command::new(compiler)
        .arg(format!("-std={standard}"))
        .args(STRICT)
        .arg("-I")
        .arg(host())
        .arg("-o")
        .arg(&program)
        .arg(source)
        .arg(Path::new(env!("SAFETEAL_LINKED")).join("libhost.a"))
        .output()
        .expect("a compiler that was there");
    (program, run)
}

/// What a program of `host/c` prints, by each compiler and standard; it must compile, end well and complain of nothing.
fn each(
    file: &str,
    compilers: [&'static str; 2],
    standards: &[&str],
    right: impl Fn(&str) -> bool,
) {
    for compiler in present(compilers) {
        for standard in standards {
            let of = format!("{file} by {compiler} -std={standard}");
            let (program, made) = compiled(compiler, standard, &host().join("c").join(file));
            assert!(made.status.success(), "{of}:\n{}", text(&made.stderr));
            let run = Command::new(program).output().expect("the program");
            let (said, complained) = (text(&run.stdout), text(&run.stderr));
            assert!(
                run.status.success(),
                "{of}: {}\n{said}{complained}",
                run.status
            );
            assert_eq!(complained, "", "{of}");
            assert!(right(&said), "{of} printed:\n{said}");
        }
    }
}

#[test]
fn the_short_example_runs() {
    each("example.c", C, &["c99", "c11"], |said| {
        let lines: Vec<&str> = said.lines().collect();
        lines.len() == 3
            && lines[0] == "number 0 (accepted), count 1"
            && lines[1] == "the byte 110 became 50"
            && lines[2].starts_with(
                "number 2 (the ratio is not 1, 2 or 4, or does not divide width and height",
            )
    });
}

#[test]
fn the_whole_chain_runs() {
    let version = env!("CARGO_PKG_VERSION");
    let expected = format!(
        "safeteal.h {version}: 12 pairs of frames of 64 by 32\n\
         the other desk has a parcel of 10346 bytes, a layer of 64 by 32\n\
         lifted: 64 pixels of luma, 16 and 16 of chroma\n\
         the frame was up to 89 off the scene, and is up to 1 off it now\n\
         laid back: 64 pixels of luma, 16 and 16 of chroma\n\
         the frame is as it was\n\
         laid onto a frame in between: 64 pixels of luma, 16 and 16 of chroma\n\
         it is up to 0 off that frame with the bar on it\n\
         a thirteenth pair: refused (7), a number of pairs is outside its range: \
         0 to 11 summed before safeteal_stats; in safeteal_fit 1 to 12 of the part itself and 0 to 12 of a neighbour\n\
         after pair 23 of 30: layer 0 lifts 64 pixels of luma\n\
         after pair 29 of 30: layer 1 lifts 64 pixels of luma\n\
         after pair 29 of 30: layer 2 lifts 64 pixels of luma\n\
         pair 30: refused (12), a pair is handed over to a walk out of turn, after the clip's last or while a layer is \
         due, or a layer is taken when none is due: hand over pair walk.added, and take each layer before the next \
         pair\n"
    );
    each("chain.c", C, &["c99", "c11"], |said| said == expected);
}

#[test]
fn what_the_header_says_holds() {
    each("check.c", C, &["c99", "c11"], |said| {
        let counted = said.strip_suffix(" checks hold, 0 do not\n");
        counted.and_then(|number| number.parse().ok()) > Some(11_000)
    });
}

#[test]
fn the_header_is_cpp_as_well() {
    each("example.cpp", CPP, &["c++11", "c++17"], |said| {
        said.starts_with("2 1 0 1 2 accepted\na width or height is outside 1 to 4096")
    });
}

/// What a tool that comes with the compilers prints of the library.
fn told(tool: &str, arguments: &[&str]) -> String {
    let library = Path::new(env!("SAFETEAL_LINKED")).join("libhost.a");
    let run = Command::new(tool).args(arguments).arg(library).output();
    let run = run
        .unwrap_or_else(|error| panic!("{tool}, of the binutils that cargo links with: {error}"));
    assert!(run.status.success(), "{tool}: {}", text(&run.stderr));
    text(&run.stdout)
}

/// The library has no variables, so that threads share nothing, and takes nothing from elsewhere that could allocate.
#[test]
fn calls_keep_nothing_and_allocate_nothing() {
    let sizes = told("size", &["--format=berkeley"]);
    for object in sizes.lines().skip(1) {
        let columns: Vec<&str> = object.split_whitespace().collect();
        assert_eq!(columns[1..3], ["0", "0"], "data and bss in {sizes}");
    }
    assert_eq!(sizes.lines().count(), 2, "one object in {sizes}");
    let taken = told("nm", &["--undefined-only", "--format=posix"]);
    let names = taken.lines().filter_map(|line| line.split_once(' '));
    for (name, _) in names {
        assert!(
            ["memset", "memcpy", "memmove", "memcmp"].contains(&name),
            "{name}"
        );
    }
}

/// The header is enough by itself, and may stand in a program twice.
#[test]
fn the_header_stands_alone() {
    let source = Path::new(env!("CARGO_TARGET_TMPDIR")).join("alone.c");
    let twice = "#include \"safeteal.h\"\n#include \"safeteal.h\"\nint main(void) { return 0; }\n";
    fs::write(&source, twice).expect("a file of the test's own");
    for compiler in present(C) {
        let (_, made) = compiled(compiler, "c11", &source);
        assert!(made.status.success(), "{compiler}:\n{}", text(&made.stderr));
    }
}

/// An output that is an input as well is seen by gcc: what is written is `restrict` in the header.
#[test]
fn gcc_sees_an_output_that_is_read() {
    let source = Path::new(env!("CARGO_TARGET_TMPDIR")).join("overlap.c");
    let call = |held: &str| {
        format!(
            "#include \"safeteal.h\"\n\
             int main(void) {{\n\
                 uint8_t made[1] = {{1}}, other[1] = {{2}};\n\
                 return (int)safeteal_hold(made, 1, 1, {held}, 1, 1, 1, 1, other, 1, 1);\n\
             }}\n"
        )
    };
    if !present(C).contains(&"gcc") {
        return;
    }
    for (held, apart) in [("other", true), ("made", false)] {
        fs::write(&source, call(held)).expect("a file of the test's own");
        let (_, made) = compiled("gcc", "c11", &source);
        let complained = text(&made.stderr);
        assert_eq!(
            made.status.success(),
            apart,
            "held is {held}:\n{complained}"
        );
        assert_eq!(
            complained.contains("-Werror=restrict"),
            !apart,
            "{complained}"
        );
    }
}
