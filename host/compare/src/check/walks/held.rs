//! A clip that is held together: all its pairs at once, from which the Rust makes the sums of each chunk.

use super::clip::{Clip, Handed};
use crate::check::fit::Part;
use crate::check::walk::Slot;
use crate::oracle::layer as rust;
use crate::second::walk::CHUNK;

pub struct Held {
    /// The sums of each chunk, gathered from the list of its pairs.
    chunks: Vec<Part>,
    /// For each pair of the clip the sums of its chunk up to it, one addition more than those before.
    grown: Vec<Slot>,
}

impl Held {
    pub fn of(clip: &Clip) -> Self {
        let (mut chunks, mut grown) = (Vec::new(), Vec::new());
        for chunk in clip.pairs.chunks(CHUNK) {
            let (whole, parts) = (summed(clip, chunk), grow(clip, chunk));
            let last = parts.last().map(|last| last.part(chunk.len()));
            assert!(
                last.as_ref() == Some(&whole),
                "pair after pair, and all at once"
            );
            chunks.push(whole);
            grown.extend(parts);
        }
        Self { chunks, grown }
    }

    /// The sums of its chunk once that pair is handed over.
    pub fn grown(&self, number: usize) -> &Slot {
        &self.grown[number]
    }

    /// What the layer of a chunk is fitted from: "The first chunk has no previous part and the last no next".
    pub fn window(&self, chunk: usize) -> [Part; 3] {
        let around = [chunk.checked_sub(1), Some(chunk), Some(chunk + 1)];
        around.map(|chunk| {
            let part = chunk.and_then(|chunk| self.chunks.get(chunk));
            part.cloned().unwrap_or_else(Part::none)
        })
    }
}

/// The Rust's sums of these pairs.
fn summed(clip: &Clip, pairs: &[Handed]) -> Part {
    let (width, height, ratio) = clip.size;
    let list = pairs
        .iter()
        .map(|pair| rust::Pair::from(pair.lent(clip.size)));
    let sums = rust::stats(&list.collect::<Vec<_>>(), (width, height), ratio);
    Part::summed(&sums, pairs.len())
}

/// For each of these pairs the sums up to it: from 0.0 on one addition for each.
fn grow(clip: &Clip, pairs: &[Handed]) -> Vec<Slot> {
    let mut grown: Vec<Slot> = Vec::with_capacity(pairs.len());
    for pair in pairs {
        let mut sums = Slot::from(summed(clip, std::slice::from_ref(pair)));
        if let Some(before) = grown.last() {
            sums.add(before);
        }
        grown.push(sums);
    }
    grown
}
