//! The demo at small sizes, as a newcomer runs it: what it prints, what it writes, and what it says when it cannot.

use std::fs;
use std::path::{Path, PathBuf};
use std::process::{Command, Output};

#[path = "../src/reader.rs"]
mod reader;

/// A folder for one test, which is not there yet.
fn fresh(name: &str) -> PathBuf {
    let folder = Path::new(env!("CARGO_TARGET_TMPDIR")).join(name);
    let _ = fs::remove_dir_all(&folder);
    folder
}

/// The demo with these options, and its pictures in that folder.
fn demo(options: &str, out: &Path) -> Command {
    let mut command = Command::new(env!("CARGO_BIN_EXE_demo"));
    command
        .args(options.split_whitespace())
        .arg("--out")
        .arg(out);
    command
}

fn run(mut command: Command) -> Output {
    command.output().expect("the demo")
}

/// What a run that ends well prints, with lines joined.
fn printed(command: Command) -> String {
    let run = run(command);
    let said = String::from_utf8_lossy(&run.stderr);
    assert!(run.status.success() && said.is_empty(), "{said}");
    let words = String::from_utf8(run.stdout).expect("plain words");
    words.split_whitespace().collect::<Vec<_>>().join(" ")
}

/// What a run says that is refused.
fn refused(command: Command) -> String {
    let run = run(command);
    assert_eq!(run.status.code(), Some(2));
    assert!(
        run.stdout.is_empty(),
        "it is refused before anything is done"
    );
    String::from_utf8(run.stderr).expect("plain words")
}

/// The numbers between words, where the text has `#`.
fn numbers(text: &str, form: &str) -> Vec<usize> {
    let mut parts = form.split('#');
    let start = text.find(parts.next().expect("a first part"));
    let mut rest = &text[start.unwrap_or_else(|| panic!("no {form:?} in {text}"))..];
    rest = &rest[form.find('#').expect("a number")..];
    let mut found = Vec::new();
    for part in parts {
        let end = rest.find(|letter: char| !letter.is_ascii_digit() && letter != ',');
        let (number, after) = rest.split_at(end.expect("words after a number"));
        // A comma at the end is a word's.
        let (digits, after) = match number.strip_suffix(',') {
            Some(digits) => (digits, &rest[digits.len()..]),
            None => (number, after),
        };
        found.push(digits.replace(',', "").parse().expect("a number"));
        rest = after
            .strip_prefix(part)
            .unwrap_or_else(|| panic!("{part:?} before {after:?}"));
    }
    found
}

#[test]
fn leaves_seven_pictures_that_can_be_read() {
    let folder = fresh("seven");
    let words = printed(demo("--width 160 --height 120 --frames 13", &folder));
    let mut sizes = Vec::new();
    for file in fs::read_dir(&folder).expect("the folder") {
        let file = file.expect("a file");
        let bytes = fs::read(file.path()).expect("its bytes");
        let ([width, height], pixels) = reader::png(&bytes);
        assert!(
            bytes.len() < pixels.len() * 3 / 4,
            "{:?} is compressed",
            file.path()
        );
        assert!(words.contains(&file.path().display().to_string()));
        sizes.push((
            file.file_name().into_string().expect("a name"),
            width,
            height,
        ));
    }
    sizes.sort();
    let names: Vec<&str> = sizes.iter().map(|(name, ..)| name.as_str()).collect();
    let frames = [
        "1-frame",
        "3-lifted",
        "4-between-plain",
        "5-between-laid-back",
        "6-between-rendered",
    ];
    assert_eq!(names.len(), 7);
    for (name, width, height) in &sizes {
        let frame = frames.iter().any(|frame| name.starts_with(frame));
        assert!(names.contains(&"overview.png") && names.contains(&"2-dots.png"));
        assert!(if frame {
            (*width, *height) == (160, 120)
        } else {
            *width >= 480 && *height > 360
        });
    }
}

/// Clips of one chunk, of two, of three and of more: a layer for each, in turn, and the pictures are of the middle one.
#[test]
fn each_chunk_has_its_layer() {
    let folder = fresh("chunks");
    let full = ["pairs 1 to 12", "pairs 13 to 24", "pairs 25 to 36"];
    for (frames, middle, full, rest) in [
        (8, 1, &full[..0], Some("pairs 1 to 7")),
        (13, 1, &full[..1], None),
        (14, 1, &full[..1], Some("pair 13")),
        (25, 1, &full[..2], None),
        (37, 2, &full[..], None),
        (40, 2, &full[..], Some("pairs 37 to 39")),
    ] {
        let pairs: Vec<&str> = full.iter().copied().chain(rest).collect();
        let size = "--width 160 --height 120";
        let words = printed(demo(&format!("{size} --frames {frames}"), &folder));
        let chunks = pairs.len();
        for (pairs, number) in pairs.iter().zip(1..) {
            let begin = format!("Layer {number} of {chunks}, for {pairs}: ");
            let counts = numbers(&words, &format!("{begin}# dots at figure #, # at #."));
            // Turned down, the figure finds more.
            let more = counts[0] < counts[2] && counts[1] > counts[3];
            assert!(more, "{begin}{counts:?}");
        }
        assert_eq!(words.matches("Layer ").count(), chunks, "{words}");
        let heading = format!("What was found in chunk {middle} of {chunks} (the colours");
        assert!(words.contains(&heading), "{words}");
        let sent = format!("== sending layer {middle} to another desk");
        assert!(words.contains(&sent), "{words}");
    }
}

/// What is said of the middle chunk's layers while they come is what is counted at the end.
#[test]
fn the_middle_chunk_is_the_one_that_is_shown() {
    let folder = fresh("middle");
    let words = printed(demo("--width 160 --height 120", &folder));
    let layer = numbers(
        &words,
        "Layer 2 of 3, for pairs 13 to 24: # dots at figure 72, # at 40.",
    );
    let passed = numbers(&words, "At evidence figure 72: # dots passed,");
    let turned = "Turned down to 40: all # stayed as they were; # dots new,";
    let turned = numbers(&words, turned);
    assert_eq!(layer, [passed[0], turned[0] + turned[1]]);
}

/// The layer that is lifted went through a parcel of these bytes: 42, 4 a pixel of luma and of a chroma plane, 2 a cell.
#[test]
fn the_layer_is_sent_as_a_parcel() {
    let folder = fresh("parcel");
    let words = printed(demo("--width 160 --height 120 --frames 8", &folder));
    let bytes = numbers(&words, "to another desk: a parcel of # bytes");
    let expected = 42 + 4 * 160 * 120 + 4 * 80 * 60 + 2 * 20 * 15;
    assert_eq!(bytes, [expected]);
}

/// The dots of each colour in the picture of a clip of 160 by 120, where a dot is a square of 3 by 3.
fn shown(folder: &Path) -> [usize; 4] {
    let bytes = fs::read(folder.join("2-dots.png")).expect("the picture");
    let ([width, _], pixels) = reader::png(&bytes);
    assert_eq!(width, 480);
    [[0, 128, 128], [245, 150, 0], [0, 0, 0], [140, 0, 215]].map(|colour| {
        let frame = pixels[..480 * 360 * 3].chunks_exact(3);
        let count = frame.filter(|pixel| *pixel == colour).count();
        assert_eq!(count % 9, 0);
        count / 9
    })
}

#[test]
fn counts_add_up_and_are_those_of_the_picture() {
    let folder = fresh("counts");
    // So low a figure finds much that is no lettering.
    let options = "--width 160 --height 120 --frames 25 --lower 2";
    let words = printed(demo(options, &folder));
    let passed = "figure 48: # dots passed, # of lettering and # not.";
    let passed = numbers(&words, passed);
    assert_eq!(passed[0], passed[1] + passed[2]);
    let new = "down to 2: all # stayed as they were; # dots new, # of lettering and # not.";
    let new = numbers(&words, new);
    assert_eq!(new[..2], [passed[0], new[2] + new[3]]);
    let lettering = "frame: # dots. Passed and stayed # (teal), new # (orange), missed # (black).";
    let lettering = numbers(&words, lettering);
    assert_eq!(lettering[0], lettering[1..].iter().sum());
    assert_eq!(lettering[1..3], [passed[1], new[2]]);
    let strays = "no lettering: # dots (violet), # of them passed at 48 and # new.";
    let strays = numbers(&words, strays);
    assert_eq!(strays, [passed[2] + new[3], passed[2], new[3]]);
    let counted = [lettering[1], lettering[2], lettering[3], strays[0]];
    assert!(!counted.contains(&0), "{counted:?}");
    assert_eq!(shown(&folder), counted);
}

#[test]
fn the_small_sheet_is_small() {
    let folder = fresh("sheet");
    for options in [
        "--width 160 --height 120",
        "--width 318 --height 120",
        "--width 900 --height 200",
    ] {
        let file = folder.join("sheet.png");
        let mut command = demo(&format!("{options} --frames 8"), &folder);
        command.arg("--picture").arg(&file);
        let words = printed(command);
        assert!(words.contains("four of them on a small sheet"));
        let ([width, _], _) = reader::png(&fs::read(&file).expect("the sheet"));
        assert!((640..=900).contains(&width), "{options}: {width}");
    }
}

#[test]
fn the_picture_of_the_readme_is_the_demo_s_own() {
    let folder = fresh("readme");
    let file = folder.join("picture.png");
    let mut command = demo("", &folder);
    command.arg("--picture").arg(&file);
    printed(command);
    let kept = Path::new(env!("CARGO_MANIFEST_DIR")).join("../../docs/picture.png");
    let [made, kept] = [file, kept].map(|file| reader::png(&fs::read(file).expect("a picture")));
    assert_eq!(
        made.0, kept.0,
        "make it again: ./demo --picture docs/picture.png"
    );
    // Another machine may round a few dots another way.
    let unlike = made.1.iter().zip(&kept.1).filter(|(a, b)| a != b).count();
    assert!(
        unlike < made.1.len() / 100,
        "make it again: ./demo --picture docs/picture.png"
    );
}

#[test]
fn what_cannot_help_is_said_and_done_all_the_same() {
    let folder = fresh("notes");
    let small = "--width 160 --height 120";
    let words = printed(demo(&format!("{small} --frames 60 --evidence 90"), &folder));
    let note = "== note Evidence figure 90 is out of reach, and nothing will pass at it:";
    assert!(words.starts_with(note), "{words}");
    assert!(
        words.contains("At evidence figure 90: 0 dots passed, 0 of lettering and 0 not."),
        "{words}"
    );
    assert!(
        words.contains("Turned down to 50: there were none, so all stayed as they were;"),
        "{words}"
    );
    let words = printed(demo(
        &format!("{small} --frames 8 --evidence 90 --lower 15"),
        &folder,
    ));
    assert!(
        words.contains("Evidence figures 90 and 15 are out of reach, and nothing will be found:"),
        "{words}"
    );
    assert!(
        words.contains("Passed and stayed 0 (teal), new 0 (orange), missed 343 (black)."),
        "{words}"
    );
    assert!(!printed(demo(&format!("{small} --frames 8"), &folder)).contains("== note"));
}

#[test]
fn folders_that_cannot_be_written_are_refused_first() {
    let folder = fresh("folders");
    fs::create_dir_all(&folder).expect("a folder");
    let file = folder.join("file");
    fs::write(&file, "words").expect("a file");
    for out in [file.clone(), file.join("below")] {
        let said = refused(demo("", &out));
        let start = format!("demo: the folder {} could not be made: ", out.display());
        assert!(said.starts_with(&start), "{said}");
        assert!(said.ends_with("; name another with --out\n"), "{said}");
    }
    assert_eq!(fs::read(&file).expect("the file"), b"words");
    if Path::new("/proc/self").exists() {
        let said = refused(demo("", Path::new("/proc")));
        let start = "demo: the folder /proc cannot be written to: ";
        assert!(said.starts_with(start), "{said}");
    }
    let said = refused(demo("", Path::new("")));
    assert_eq!(said, "demo: --out takes a name, not \"\"\n");
}

#[test]
fn a_sheet_that_cannot_be_written_is_refused_first() {
    let folder = fresh("sheets");
    for (picture, why) in [
        ("missing/sheet.png", "No such file"),
        ("", "it is a folder"),
    ] {
        let mut command = demo("", &folder);
        command.arg("--picture").arg(folder.join(picture));
        let said = refused(command);
        let part = format!("cannot be written: {why}");
        assert!(said.contains(&part), "{said}");
        let end = "; give --picture another name, in a folder that is there\n";
        assert!(said.ends_with(end), "{said}");
    }
    let left = fs::read_dir(&folder).expect("the folder").count();
    assert_eq!(left, 0);
}
