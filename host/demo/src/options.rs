//! The options of the command line.

use std::path::PathBuf;
use std::str::FromStr;

use crate::finding::Chunks;
use safeteal::Size;

/// The lines of `./demo --help`. The command prints the same file before anything is built.
pub const HELP: &str = include_str!("../help.txt");

#[derive(Clone, Debug)]
pub struct Options {
    pub size: Size,
    pub frames: usize,
    /// The first evidence figure and the second, which is not above it.
    pub evidence: [f32; 2],
    pub out: PathBuf,
    /// The file for the small sheet with four steps.
    pub picture: Option<PathBuf>,
}

impl Options {
    /// What is allowed and cannot help: figures that no dot can reach.
    pub fn note(&self) -> Option<String> {
        let most = most_evidence(self.frames);
        let [high, low] = self.evidence;
        let outside = match (high > most as f32, low > most as f32) {
            (false, _) => return None,
            (true, true) => format!(
                "Evidence figures {high} and {low} are out of reach, and nothing will be found"
            ),
            (true, false) => {
                format!("Evidence figure {high} is out of reach, and nothing will pass at it")
            }
        };
        Some(format!(
            "{outside}: a pair gives two comparisons, so that in the {} pairs of the middle chunk and its neighbours a \
             dot stands apart {most} times at most. Choose {most} or less.",
            most / 2
        ))
    }
}

/// How often a dot can stand apart in the middle chunk of a clip of so many frames.
fn most_evidence(frames: usize) -> usize {
    let chunks = Chunks::of(frames);
    chunks.evidence(chunks.middle())
}

/// What the words of the command line ask for.
pub enum Asked {
    Help,
    Run(Options),
}

/// Reads the words after the command's name, or says what is wrong with them.
pub fn read(words: impl Iterator<Item = String>) -> Result<Asked, String> {
    let (mut size, mut frames, mut out) = (Size::new(640, 360), 37, PathBuf::from("demo-out"));
    let (mut evidence, mut lower, mut picture) = (None, None, None);
    let mut words = words;
    while let Some(word) = words.next() {
        let mut value = || {
            let next = words.next();
            next.ok_or_else(|| format!("{word} needs a value after it; ./demo --help shows which"))
        };
        match word.as_str() {
            "--help" | "-h" => return Ok(Asked::Help),
            "--width" => size.width = side(&word, &value()?, 160)?,
            "--height" => size.height = side(&word, &value()?, 120)?,
            "--frames" => frames = number_of_frames(&value()?)?,
            "--evidence" => evidence = Some(figure(&word, &value()?)?),
            "--lower" => lower = Some(figure(&word, &value()?)?),
            "--out" => out = path(&word, value()?)?,
            "--picture" => picture = Some(path(&word, value()?)?),
            _ => {
                return Err(format!(
                    "there is no option {word:?}; ./demo --help lists them"
                ))
            }
        }
    }
    let first = evidence.unwrap_or(most_evidence(frames) as f32);
    let second = lower.unwrap_or((first * 5.0 / 9.0).floor());
    if second > first {
        return Err(format!(
            "--lower {second} is above --evidence {first}: turn it down to {first} or less, or the first figure up"
        ));
    }
    Ok(Asked::Run(Options {
        size,
        frames,
        evidence: [first, second],
        out,
        picture,
    }))
}

fn path(option: &str, value: String) -> Result<PathBuf, String> {
    if value.is_empty() {
        return Err(format!("{option} takes a name, not \"\""));
    }
    Ok(PathBuf::from(value))
}

fn side(option: &str, value: &str, least: usize) -> Result<usize, String> {
    let inside = |side: &usize| (least..=4096).contains(side) && side % 2 == 0;
    let takes = format!("{option} takes an even whole number from {least} to 4096");
    inside_or(&takes, value, inside)
}

fn number_of_frames(value: &str) -> Result<usize, String> {
    let takes = "--frames takes a whole number from 8 to 240";
    inside_or(takes, value, |frames| (8..=240).contains(frames))
}

fn figure(option: &str, value: &str) -> Result<f32, String> {
    let takes = format!("{option} takes a number from 0 to 65536");
    inside_or(&takes, value, |figure| (0.0..=65_536.0).contains(figure))
}

/// The value as a number that is inside, or the words for what the option takes.
pub fn inside_or<T: FromStr>(
    takes: &str,
    value: &str,
    inside: impl FnOnce(&T) -> bool,
) -> Result<T, String> {
    let number = value.parse().ok().filter(inside);
    number.ok_or_else(|| format!("{takes}, not {value:?}"))
}

#[cfg(test)]
mod tests {
    use super::*;

    fn words(text: &str) -> Result<Asked, String> {
        read(text.split_whitespace().map(str::to_owned))
    }

    fn complaint(text: &str) -> String {
        words(text).err().expect("a wrong command line")
    }

    #[test]
    fn all_options() {
        let text = "--height 200 --out some/where --width 320 --frames 9 --lower 0.5 --evidence 3";
        let Ok(Asked::Run(options)) = words(text) else {
            panic!("a right command line");
        };
        assert_eq!(options.size, Size::new(320, 200));
        assert_eq!(options.frames, 9);
        assert_eq!(options.evidence, [3.0, 0.5]);
        assert_eq!(options.out, PathBuf::from("some/where"));
        assert_eq!(options.picture, None);
        assert!(matches!(words("--help"), Ok(Asked::Help)));
    }

    /// The note of a right command line, if there is one.
    fn note(text: &str) -> Option<String> {
        let Ok(Asked::Run(options)) = words(text) else {
            panic!("a right command line");
        };
        options.note()
    }

    #[test]
    fn figures_that_no_dot_can_reach_are_said() {
        for text in [
            "",
            "--evidence 72 --lower 72",
            "--frames 9 --evidence 16",
            "--frames 240",
        ] {
            assert_eq!(note(text), None, "{text}");
        }
        let said = [
            (
                "--evidence 72.5",
                "Evidence figure 72.5 is out of reach, and nothing will pass at it: ",
            ),
            (
                "--evidence 72.5",
                "in the 36 pairs of the middle chunk and its neighbours a dot stands apart 72 times at most. Choose 72 \
                 or less.",
            ),
            (
                "--frames 9 --evidence 17",
                "in the 8 pairs of the middle chunk and its neighbours a dot stands apart 16 times at most.",
            ),
            (
                "--evidence 200 --lower 73",
                "Evidence figures 200 and 73 are out of reach, and nothing will be found: ",
            ),
            ("--frames 240 --evidence 73", "in the 36 pairs of"),
        ];
        for (text, part) in said {
            let note = note(text).expect("a note");
            assert!(note.contains(part), "{text}: {note}");
        }
    }

    #[test]
    fn every_option_is_in_the_help() {
        for option in [
            "--width",
            "--height",
            "--frames",
            "--evidence",
            "--lower",
            "--out",
            "--picture",
            "--help",
        ] {
            assert_eq!(
                HELP.lines()
                    .filter(|line| line.trim_start().starts_with(option))
                    .count(),
                1,
                "{option}"
            );
        }
    }

    #[test]
    fn figures_that_go_with_the_frames() {
        let Ok(Asked::Run(options)) = words("--frames 10") else {
            panic!("a right command line");
        };
        assert_eq!(options.evidence, [18.0, 10.0]);
    }

    #[test]
    fn wrong_words_are_named() {
        let said = [
            (
                "--width 641",
                "--width takes an even whole number from 160 to 4096, not \"641\"",
            ),
            ("--height 5000", "--height takes"),
            ("--frames 7", "--frames takes a whole number from 8 to 240"),
            ("--lower NaN", "--lower takes a number from 0 to 65536"),
            ("--lower 73", "--lower 73 is above --evidence 72"),
            ("--out", "--out needs a value"),
            ("--picture", "--picture needs a value"),
            ("--colour red", "there is no option \"--colour\""),
        ];
        for (text, part) in said {
            assert!(
                complaint(text).contains(part),
                "{text}: {}",
                complaint(text)
            );
        }
    }
}
