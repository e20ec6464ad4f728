//! What a call answers: a word, or a struct that has the word and some figures.

use safeteal::ffi::{Sizes, Walk, Walked};

pub trait Answer: Copy + PartialEq {
    /// The answer of a refusal, "all 0 when refused".
    fn refused(number: u64) -> Self;

    /// Count * 256 + number.
    fn word(self) -> u64;

    /// All numbers of the answer: the word, which has no name where it is the whole answer, then the figures.
    fn fields(self) -> Vec<(&'static str, u64)>;
}

impl Answer for u64 {
    fn refused(number: u64) -> Self {
        number
    }

    fn word(self) -> u64 {
        self
    }

    fn fields(self) -> Vec<(&'static str, u64)> {
        vec![("", self)]
    }
}

impl Answer for Sizes {
    fn refused(number: u64) -> Self {
        Self {
            word: number,
            width: 0,
            height: 0,
            ratio: 0,
        }
    }

    fn word(self) -> u64 {
        self.word
    }

    fn fields(self) -> Vec<(&'static str, u64)> {
        vec![
            ("word", self.word),
            ("width", self.width as u64),
            ("height", self.height as u64),
            ("ratio", self.ratio as u64),
        ]
    }
}

impl Answer for Walked {
    fn refused(number: u64) -> Self {
        Self {
            word: number,
            walk: Walk {
                width: 0,
                height: 0,
                ratio: 0,
                pairs: 0,
                added: 0,
                taken: 0,
            },
        }
    }

    fn word(self) -> u64 {
        self.word
    }

    fn fields(self) -> Vec<(&'static str, u64)> {
        vec![
            ("word", self.word),
            ("walk.width", self.walk.width as u64),
            ("walk.height", self.walk.height as u64),
            ("walk.ratio", self.walk.ratio as u64),
            ("walk.pairs", self.walk.pairs as u64),
            ("walk.added", self.walk.added as u64),
            ("walk.taken", self.walk.taken as u64),
        ]
    }
}

/// The first number of the answer that is not as it should be, in words.
pub fn unlike<A: Answer>(ours: A, right: A) -> Option<String> {
    if ours.word() != right.word() {
        let (ours, right) = (said(ours.word()), said(right.word()));
        return Some(format!("the answer is {ours}, not {right}"));
    }
    let mut pairs = ours.fields().into_iter().zip(right.fields());
    let ((name, ours), (_, right)) = pairs.find(|(ours, right)| ours != right)?;
    Some(format!("the answer's {name} is {ours}, not {right}"))
}

fn said(word: u64) -> String {
    format!("{word} (number {}, count {})", word % 256, word / 256)
}

#[cfg(test)]
mod tests {
    use super::{unlike, Answer, Sizes, Walk, Walked};

    #[test]
    fn what_differs_is_named() {
        assert_eq!(unlike(3, 3), None);
        let words = unlike(513, 0).expect("a difference");
        assert_eq!(
            words,
            "the answer is 513 (number 1, count 2), not 0 (number 0, count 0)"
        );
        let right = Sizes {
            word: 0,
            width: 3,
            height: 5,
            ratio: 1,
        };
        assert_eq!(unlike(right, right), None);
        let words = unlike(Sizes { height: 4, ..right }, right);
        assert_eq!(words.as_deref(), Some("the answer's height is 4, not 5"));
        let words = unlike(Sizes::refused(9), right).expect("a difference");
        assert!(
            words.starts_with("the answer is 9 (number 9, count 0)"),
            "{words}"
        );
    }

    #[test]
    fn a_number_of_a_walk_is_named() {
        let right = Walked::refused(0);
        let walk = Walk {
            taken: 2,
            ..right.walk
        };
        let words = unlike(Walked { walk, ..right }, right);
        assert_eq!(
            words.as_deref(),
            Some("the answer's walk.taken is 2, not 0")
        );
    }
}
