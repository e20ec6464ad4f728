//! What the demo says while it works.

use std::time::{Duration, Instant};

/// How often a long step says how far it is.
const SHOWN: Duration = Duration::from_secs(2);

/// Begins a step of the demo: its name, and below it what that is.
pub fn step(name: &str, about: &str) {
    println!("== {name}");
    paragraph(about);
}

/// The letters of a line: with three spaces before it, it fits into a window of eighty.
const WIDE: usize = 77;

/// Words in lines, set in under their step.
pub fn paragraph(words: &str) {
    for text in lines(words, WIDE) {
        println!("   {text}");
    }
}

/// The words in lines of at most so many letters; a longer word is parted.
pub fn lines(words: &str, letters: usize) -> Vec<String> {
    let mut made: Vec<String> = Vec::new();
    for word in words.split_whitespace() {
        let mut word: Vec<char> = word.chars().collect();
        while !word.is_empty() {
            let room = made
                .last()
                .map_or(0, |line| letters.saturating_sub(line.chars().count() + 1));
            if word.len() <= room {
                let line = made.last_mut().expect("there is room on a line");
                line.push(' ');
                line.extend(word.drain(..));
            } else {
                made.push(word.drain(..word.len().min(letters)).collect());
            }
        }
    }
    made
}

/// How far a step is that may take long.
pub struct Progress {
    shown: Instant,
    unit: &'static str,
    all: usize,
}

impl Progress {
    /// A step that goes through so many of something.
    pub fn of(unit: &'static str, all: usize) -> Self {
        let shown = Instant::now();
        Self { shown, unit, all }
    }

    pub fn done(&mut self, done: usize) {
        if self.shown.elapsed() >= SHOWN {
            self.shown = Instant::now();
            println!("   {done} of {} {}", self.all, self.unit);
        }
    }
}

/// A number with a comma after each three digits.
pub fn grouped(number: usize) -> String {
    let digits = number.to_string();
    let groups = digits.as_bytes().rchunks(3).rev();
    let groups: Vec<_> = groups.map(String::from_utf8_lossy).collect();
    groups.join(",")
}

/// So many dots.
pub fn many(dots: usize) -> String {
    match dots {
        1 => "1 dot".to_owned(),
        _ => format!("{} dots", grouped(dots)),
    }
}

#[cfg(test)]
mod tests {
    use super::*;

    #[test]
    fn groups_of_three() {
        assert_eq!(grouped(7), "7");
        assert_eq!(grouped(999), "999");
        assert_eq!(grouped(1_000), "1,000");
        assert_eq!(grouped(12_345_678), "12,345,678");
    }

    #[test]
    fn words_go_into_lines() {
        assert_eq!(lines("", 5), [""; 0]);
        assert_eq!(lines("a bc  def", 6), ["a bc", "def"]);
        assert_eq!(lines("a bc def", 8), ["a bc def"]);
        assert_eq!(lines("abcdefgh ij", 3), ["abc", "def", "gh", "ij"]);
        assert_eq!(lines("a bcdefgh", 4), ["a", "bcde", "fgh"]);
    }
}
