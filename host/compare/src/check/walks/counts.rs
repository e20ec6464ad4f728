//! What whole walks did.

use crate::check::case::Case;
use crate::check::expected::NUMBERS;
use crate::check::run::by_number;
use crate::check::walk_due::WalkDue;
use crate::check::walk_layer::WalkLayer;
use crate::check::walk_pair::WalkPair;
use crate::check::walk_start::WalkStart;

/// The calls of a walk.
pub const CALLS: [&str; 4] = [
    WalkStart::NAME,
    WalkPair::NAME,
    WalkLayer::NAME,
    WalkDue::NAME,
];

/// Whole walks, their layers, and their calls by the number of the answer.
#[derive(Clone, Debug, Default, PartialEq, Eq)]
pub struct Walks {
    pub whole: u64,
    pub layers: u64,
    /// Layers in which a pixel is lettering.
    pub lettered: u64,
    /// How often a layer was due, when that was asked.
    pub due: u64,
    answers: [[u64; NUMBERS]; 4],
}

impl Walks {
    pub fn add(&mut self, other: &Self) {
        self.whole += other.whole;
        self.layers += other.layers;
        self.lettered += other.lettered;
        self.due += other.due;
        for (sums, answers) in self.answers.iter_mut().zip(other.answers) {
            for (sum, answers) in sums.iter_mut().zip(answers) {
                *sum += answers;
            }
        }
    }

    /// Notes the answer of a call of this name.
    pub fn note(&mut self, call: &str, word: u64) {
        self.answers[place(call)][(word % 256) as usize] += 1;
        self.due += word / 256;
    }

    /// The calls of this name by the number of the answer.
    pub fn answers(&self, call: &str) -> [u64; NUMBERS] {
        self.answers[place(call)]
    }

    /// The counts in words, where there is any walk.
    pub fn words(&self) -> Option<String> {
        let (whole, layers, lettered) = (self.whole, self.layers, self.lettered);
        let calls = CALLS.map(|call| format!("{call} {}", by_number(&self.answers(call))));
        let calls = format!("{}, {} of them yes", calls.join("; "), self.due);
        let words =
            format!("{whole} whole walks with {layers} layers, {lettered} lettered ({calls})");
        (whole > 0).then_some(words)
    }
}

/// Where the call of this name stands among those of a walk.
fn place(call: &str) -> usize {
    let found = CALLS.iter().position(|name| *name == call);
    found.expect("a call of a walk")
}
