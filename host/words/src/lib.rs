//! The words of the commands. What a command takes is said once, as a [`Command`]: its help is made of that, and its
//! words are read by it. All words are read before the command does anything.
//!
//! ```
//! use words::{Command, Takes, Word};
//!
//! const COMMAND: Command = Command {
//!     name: "wait",
//!     does: "waits, then says so",
//!     plain: &[],
//!     needed: 0,
//!     options: &[Word::new("--minutes", Takes::Above(0.0, 60.0), "how long").or("1")],
//!     more: "",
//! };
//! let words = |text: &str| text.split(' ').map(str::to_owned).collect::<Vec<_>>();
//!
//! let asked = COMMAND.read(words("--minutes 0.5")).unwrap();
//! assert_eq!(asked.number("--minutes"), Some(0.5));
//! let refused = COMMAND.read(words("--minutes 0")).unwrap_err();
//! assert_eq!(refused, "--minutes takes a number above 0 and at most 60, not \"0\"; `wait --help` says more");
//! let help = "\
//! wait [OPTION]..: waits, then says so
//!
//!   --minutes N   how long: a number above 0 and at most 60 (1)
//!   --help, -h    these lines
//! ";
//! assert_eq!(COMMAND.help(), help);
//! ```
#![deny(unsafe_code)]
#![warn(missing_docs)]

mod pipe;

pub use pipe::{line, note, print, unread};

use std::fmt::Write;
use std::str::FromStr;

/// A command, and all words that it takes.
pub struct Command {
    /// What it is called.
    pub name: &'static str,
    /// What it does, behind its name in the first line of its help.
    pub does: &'static str,
    /// The words without dashes, in their order.
    pub plain: &'static [Word],
    /// How many of these must be there.
    pub needed: usize,
    /// The options, save `--help`.
    pub options: &'static [Word],
    /// Lines below the list, if any.
    pub more: &'static str,
}

/// One word of a command: an option, or a place for a word without dashes.
pub struct Word {
    name: &'static str,
    takes: Takes,
    says: &'static str,
    without: &'static str,
    many: bool,
}

/// What an option takes after it, or what may stand in a place.
#[derive(Clone, Copy)]
pub enum Takes {
    /// Nothing follows the option.
    Nothing,
    /// A whole number: the least and the most.
    Whole(u64, u64),
    /// A number above the first and at most the second.
    Above(f64, f64),
    /// Any words, called so in the help.
    Text(&'static str),
    /// One of these; the text is what the help calls it.
    One(&'static str, fn() -> Vec<String>),
    /// One or more of these, with commas between them.
    List(&'static str, fn() -> Vec<String>),
}

/// The words that were given, each one that the command takes.
#[derive(Clone, Debug, Default, PartialEq, Eq)]
pub struct Asked {
    given: Vec<(&'static str, String)>,
}

impl Word {
    /// A word of this name, what it takes, and what it is for.
    #[must_use]
    pub const fn new(name: &'static str, takes: Takes, says: &'static str) -> Self {
        Self {
            name,
            takes,
            says,
            without: "",
            many: false,
        }
    }

    /// The same, with what holds where it is not given.
    #[must_use]
    pub const fn or(mut self, without: &'static str) -> Self {
        self.without = without;
        self
    }

    /// The same in a place where several may stand, one after another: the last place.
    #[must_use]
    pub const fn many(mut self) -> Self {
        self.many = true;
        self
    }

    /// As it stands in the list of the help: its name and the name of its value.
    fn head(&self) -> String {
        match self.takes {
            _ if !self.name.starts_with('-') => self.name.to_owned(),
            Takes::Nothing => self.name.to_owned(),
            Takes::Whole(..) | Takes::Above(..) => format!("{} N", self.name),
            Takes::Text(value) | Takes::One(value, _) | Takes::List(value, _) => {
                format!("{} {value}", self.name)
            }
        }
    }

    /// What it is for, what it takes, and what holds without it.
    fn line(&self) -> String {
        let mut line = self.says.to_owned();
        if let Some(range) = self.takes.range() {
            let _ = write!(line, ": {range}");
        }
        if !self.without.is_empty() {
            let _ = write!(line, " ({})", self.without);
        }
        line
    }
}

impl Takes {
    /// Which values these are, where that needs words.
    fn range(self) -> Option<String> {
        match self {
            Takes::Nothing | Takes::Text(_) => None,
            Takes::Whole(0, u64::MAX) => Some("a whole number".to_owned()),
            Takes::Whole(least, u64::MAX) => Some(format!("a whole number of {least} or more")),
            Takes::Whole(least, most) => Some(format!("a whole number from {least} to {most}")),
            Takes::Above(least, most) => Some(format!("a number above {least} and at most {most}")),
            Takes::One(_, these) => Some(these().join(", ")),
            Takes::List(_, these) => Some(format!("{}, with commas between", these().join(", "))),
        }
    }

    /// Whether that value is one of these.
    fn has(self, value: &str) -> bool {
        let one = |value: &str, these: fn() -> Vec<String>| these().iter().any(|one| one == value);
        match self {
            Takes::Nothing => false,
            Takes::Whole(least, most) => value
                .parse()
                .is_ok_and(|number| (least..=most).contains(&number)),
            Takes::Above(least, most) => value
                .parse()
                .is_ok_and(|number: f64| number > least && number <= most),
            Takes::Text(_) => !value.is_empty(),
            Takes::One(_, these) => one(value, these),
            Takes::List(_, these) => value.split(',').all(|value| one(value, these)),
        }
    }

    /// Words for a value that is not one of these; `name` is the option, or the place.
    fn refuses(self, name: &str, value: &str) -> String {
        let one = if matches!(self, Takes::One(..)) {
            "one of "
        } else {
            ""
        };
        match self.range() {
            Some(range) => format!("{name} takes {one}{range}, not {value:?}"),
            None => format!("{name} takes a name, not {value:?}"),
        }
    }
}

const HELP: &str = "--help, -h";

impl Command {
    /// The lines of `--help`.
    #[must_use]
    pub fn help(&self) -> String {
        let place = |(at, word): (usize, &Word)| {
            let open = if at < self.needed { "" } else { "[" };
            let shut = if at < self.needed { "" } else { "]" };
            let many = if word.many { ".." } else { "" };
            format!(" {open}{}{shut}{many}", word.name)
        };
        let places: String = self.plain.iter().enumerate().map(place).collect();
        let options = if self.options.is_empty() {
            ""
        } else {
            " [OPTION].."
        };
        let mut text = String::new();
        let first = format!("{}{places}{options}: {}", self.name, self.does);
        wrapped(&mut text, "", &first);
        text.push('\n');
        let rows = self.plain.iter().chain(self.options);
        let mut rows: Vec<_> = rows.map(|word| (word.head(), word.line())).collect();
        rows.push((HELP.to_owned(), "these lines".to_owned()));
        let wide = rows.iter().map(|(head, _)| head.len()).max().unwrap_or(0);
        for (head, line) in rows {
            wrapped(&mut text, &format!("  {head:wide$}   "), &line);
        }
        if !self.more.is_empty() {
            let _ = writeln!(text, "\n{}", self.more);
        }
        text
    }

    /// The words of this run. Help is printed where it is asked for, and the run ends; with status 2 where a word is
    /// wrong.
    #[must_use]
    pub fn asked(&self) -> Asked {
        let words = std::env::args_os().skip(1).map(|word| {
            let words = |word| self.refuse(&format!("the word {word:?} is no text (UTF-8)"));
            word.into_string().unwrap_or_else(words)
        });
        let words: Vec<String> = words.collect();
        if words.iter().any(|word| word == "--help" || word == "-h") {
            print(&self.help());
            std::process::exit(0);
        }
        self.read(words)
            .unwrap_or_else(|words| self.ends(&words, 2))
    }

    /// The words as what they ask for, or what is wrong with them.
    ///
    /// # Errors
    /// Names the first word that the command does not take, and `--help`.
    pub fn read(&self, words: impl IntoIterator<Item = String>) -> Result<Asked, String> {
        let mut asked = Asked::default();
        let (mut words, mut places) = (words.into_iter(), 0);
        while let Some(word) = words.next() {
            let value = if word.starts_with('-') {
                self.option(&word, &mut words)
            } else {
                places += 1;
                self.place(places - 1, &word)
            };
            asked
                .given
                .push(value.map_err(|words| self.with_help(&words))?);
        }
        if let Some(word) = self.plain[..self.needed].get(places) {
            return Err(self.with_help(&format!("{} is missing: {}", word.name, word.says)));
        }
        Ok(asked)
    }

    fn option(
        &self,
        word: &str,
        rest: &mut impl Iterator<Item = String>,
    ) -> Result<(&'static str, String), String> {
        let found = self.options.iter().find(|option| option.name == word);
        let option = found.ok_or_else(|| format!("there is no option {word:?}"))?;
        if matches!(option.takes, Takes::Nothing) {
            return Ok((option.name, String::new()));
        }
        let value = rest.next();
        let value = value.ok_or_else(|| format!("{word} needs a value after it"))?;
        if option.takes.has(&value) {
            return Ok((option.name, value));
        }
        Err(option.takes.refuses(word, &value))
    }

    fn place(&self, number: usize, word: &str) -> Result<(&'static str, String), String> {
        let last = self.plain.last().filter(|place| place.many);
        let place = self.plain.get(number).or(last);
        let place = place.ok_or_else(|| match self.plain.len() {
            0 => format!("{word:?}: there are no words but options"),
            _ => format!("{word:?} is one word too many"),
        })?;
        if place.takes.has(word) {
            return Ok((place.name, word.to_owned()));
        }
        Err(place.takes.refuses(place.name, word))
    }

    fn with_help(&self, words: &str) -> String {
        format!("{words}; `{} --help` says more", self.name)
    }

    /// Ends the run because of a word that was given.
    pub fn refuse(&self, words: &str) -> ! {
        self.ends(&self.with_help(words), 2)
    }

    /// Ends the run because of something else.
    pub fn stop(&self, words: &str) -> ! {
        self.ends(words, 1)
    }

    fn ends(&self, words: &str, status: i32) -> ! {
        note(&format!("{}: {words}", self.name));
        std::process::exit(status)
    }
}

impl Asked {
    /// Whether that word was given.
    #[must_use]
    pub fn has(&self, name: &str) -> bool {
        self.text(name).is_some()
    }

    /// What was given to that word; the last time, where there are several.
    #[must_use]
    pub fn text(&self, name: &str) -> Option<&str> {
        self.all(name).pop()
    }

    /// What was given to that word, each time.
    #[must_use]
    pub fn all(&self, name: &str) -> Vec<&str> {
        let these = self.given.iter().filter(|(other, _)| *other == name);
        these.map(|(_, value)| value.as_str()).collect()
    }

    /// The number that was given to that word.
    #[must_use]
    pub fn number<T: FromStr>(&self, name: &str) -> Option<T> {
        self.text(name).and_then(|value| value.parse().ok())
    }

    /// The first of these words that was given.
    #[must_use]
    pub fn first_of<'a>(&self, names: &[&'a str]) -> Option<&'a str> {
        names.iter().copied().find(|name| self.has(name))
    }
}

/// The columns of the help.
const WIDE: usize = 120;

/// Adds that line behind its head, in lines that are not too long.
fn wrapped(text: &mut String, head: &str, line: &str) {
    let mut row = head.to_owned();
    for word in line.split(' ') {
        let begun = row.len() > head.len();
        if begun && row.chars().count() + 1 + word.chars().count() > WIDE {
            let _ = writeln!(text, "{row}");
            row = " ".repeat(head.len());
        }
        if row.len() > head.len() {
            row.push(' ');
        }
        row += word;
    }
    let _ = writeln!(text, "{row}");
}

#[cfg(test)]
mod tests {
    use super::{Command, Takes, Word};

    fn colours() -> Vec<String> {
        ["red", "blue"].map(str::to_owned).to_vec()
    }

    const PAINT: Command = Command {
        name: "paint",
        does: "paints a file",
        plain: &[
            Word::new("FILE", Takes::Text("FILE"), "the file to paint"),
            Word::new("COLOUR", Takes::One("COLOUR", colours), "one or more").many(),
        ],
        needed: 1,
        options: &[
            Word::new("--coats", Takes::Whole(1, 9), "how many").or("2"),
            Word::new("--seed", Takes::Whole(0, u64::MAX), "where chance begins"),
            Word::new("--under", Takes::List("COLOURS", colours), "below it"),
            Word::new("--dry", Takes::Nothing, "lets each coat dry"),
        ],
        more: "Paint is not included.",
    };

    fn said(text: &str) -> Result<super::Asked, String> {
        PAINT.read(text.split_whitespace().map(str::to_owned))
    }

    #[test]
    fn words_as_they_were_given() {
        let asked =
            said("wall red --coats 3 blue --dry --under red,blue --coats 4").expect("right words");
        assert_eq!(asked.text("FILE"), Some("wall"));
        assert_eq!(asked.all("COLOUR"), ["red", "blue"]);
        assert_eq!(asked.number("--coats"), Some(4));
        assert_eq!(asked.text("--under"), Some("red,blue"));
        assert!(asked.has("--dry") && !asked.has("--seed"));
        assert_eq!(asked.first_of(&["--seed", "--dry"]), Some("--dry"));
    }

    #[test]
    fn wrong_words_are_named() {
        let wrong = [
            ("", "FILE is missing: the file to paint"),
            ("wall green", "COLOUR takes one of red, blue, not \"green\""),
            (
                "wall --coats 10",
                "--coats takes a whole number from 1 to 9, not \"10\"",
            ),
            ("wall --coats 0", "--coats takes"),
            ("wall --coats", "--coats needs a value after it"),
            ("wall --seed -1", "--seed takes a whole number, not \"-1\""),
            (
                "wall --under red,,blue",
                "--under takes red, blue, with commas between, not \"red,,blue\"",
            ),
            ("wall --wet", "there is no option \"--wet\""),
            ("-x wall", "there is no option \"-x\""),
        ];
        for (text, part) in wrong {
            let words = said(text).expect_err(text);
            assert!(words.starts_with(part), "{text}: {words}");
            assert!(
                words.ends_with("; `paint --help` says more"),
                "{text}: {words}"
            );
        }
        const NONE: Command = Command {
            plain: &[],
            needed: 0,
            options: &[],
            ..PAINT
        };
        let words = NONE.read(["now".to_owned()]).expect_err("a word");
        assert!(
            words.starts_with("\"now\": there are no words but options"),
            "{words}"
        );
    }

    #[test]
    fn help_lists_every_word_with_its_range() {
        let help = PAINT.help();
        let lines = [
            "paint FILE [COLOUR].. [OPTION]..: paints a file",
            "",
            "  FILE              the file to paint",
            "  COLOUR            one or more: red, blue",
            "  --coats N         how many: a whole number from 1 to 9 (2)",
            "  --seed N          where chance begins: a whole number",
            "  --under COLOURS   below it: red, blue, with commas between",
            "  --dry             lets each coat dry",
            "  --help, -h        these lines",
            "",
            "Paint is not included.",
        ];
        assert_eq!(help.lines().collect::<Vec<_>>(), lines);
    }

    #[test]
    fn long_lines_are_wrapped() {
        let mut text = String::new();
        super::wrapped(&mut text, "  --x   ", "word ".repeat(40).trim_end());
        assert!(text.lines().all(|line| line.len() <= super::WIDE));
        assert_eq!(text.split_whitespace().count(), 41);
        assert!(text
            .lines()
            .nth(1)
            .is_some_and(|line| line.starts_with("        word")));
    }
}
