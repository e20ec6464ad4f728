//! The lettering is found: a walk over the clip, with a layer for each chunk at each of the two evidence figures.

use std::ops::Range;

use crate::clip::{Clip, RATIO};
use crate::report::{grouped, many, paragraph, Progress};
use safeteal::{Channel, Error, LayerBuf, Pair, Settings, Sums, Walk};

/// The chunks of a clip of that many pairs: twelve to a chunk, and the last one has what is left.
#[derive(Clone, Copy)]
pub struct Chunks {
    pub pairs: usize,
}

impl Chunks {
    /// The pairs of a chunk.
    pub const MOST: usize = Sums::MOST;

    pub fn of(frames: usize) -> Self {
        let pairs = frames - 1;
        Self { pairs }
    }

    pub fn count(self) -> usize {
        self.pairs.div_ceil(Self::MOST)
    }

    /// The chunk in the middle, whose layer is shown. Of two it is the first, which is full.
    pub fn middle(self) -> usize {
        (self.count() - 1) / 2
    }

    /// The pairs that a chunk's layer is fitted to: its own, and those of the chunks before and after it.
    fn around(self, chunk: usize) -> Range<usize> {
        let begins = chunk.saturating_sub(1) * Self::MOST;
        begins..self.pairs.min((chunk + 2) * Self::MOST)
    }

    /// How often a dot can stand apart in a chunk's layer: each pair compares both ways.
    pub fn evidence(self, chunk: usize) -> usize {
        2 * self.around(chunk).len()
    }

    /// What a figure for the middle chunk is for another: as large a part of the comparisons that there are.
    fn figure(self, figure: f32, chunk: usize) -> f32 {
        let [all, own] = [self.middle(), chunk].map(|chunk| self.evidence(chunk));
        match own == all {
            true => figure,
            // Evidence is counted in whole comparisons.
            false => (figure * own as f32 / all as f32).ceil(),
        }
    }
}

/// What the walk gives.
pub struct Found {
    /// The layers of the middle chunk at the first and at the second figure.
    pub layers: [LayerBuf; 2],
    /// The frame in the middle of that chunk.
    pub frame: usize,
    /// Whether the second layer of every chunk has all that passed in the first, unchanged.
    pub kept: bool,
}

/// Walks over the clip; says of each layer what was found as soon as it is due.
pub fn walk(clip: &Clip, evidence: [f32; 2]) -> Result<Found, Error> {
    let chunks = Chunks::of(clip.frames());
    let mut walk = Walk::new(clip.size, RATIO, chunks.pairs)?;
    let mut progress = Progress::of("pairs", chunks.pairs);
    let (mut middle, mut kept, mut first) = (None, true, clip.frame(0)?);
    for number in 0..chunks.pairs {
        let second = clip.frame(number + 1)?;
        walk.push(&Pair::of(&first, &second, &clip.motion(number)?)?)?;
        first = second;
        progress.done(number + 1);
        while walk.is_due() {
            let chunk = walk.taken();
            let figures = evidence.map(|figure| chunks.figure(figure, chunk));
            let layers = layers(&mut walk, figures)?;
            kept &= told(&walk, &layers, figures)?;
            if chunk == chunks.middle() {
                middle = Some(layers);
            }
        }
    }
    let pairs = walk.chunk(chunks.middle());
    Ok(Found {
        layers: middle.expect("a clip of a pair or more has a chunk in its middle"),
        frame: (pairs.start + pairs.end) / 2,
        kept,
    })
}

/// The layer that is due, at the first figure to try and at the second to take.
fn layers(walk: &mut Walk, figures: [f32; 2]) -> Result<[LayerBuf; 2], Error> {
    let [high, low] = figures.map(|evidence| Settings {
        evidence,
        ..Settings::default()
    });
    Ok([walk.preview(high)?, walk.layer(low)?])
}

/// Says what was found in the chunk whose layer was taken last; gives whether the second layer has all of the first.
fn told(
    walk: &Walk,
    [first, second]: &[LayerBuf; 2],
    [high, low]: [f32; 2],
) -> Result<bool, Error> {
    let difference = first.compare(second)?;
    let luma = difference.counts(Channel::Luma);
    let both = luma.stayed + luma.changed;
    let (passed, found) = (many(both + luma.lost), grouped(both + luma.new));
    let (number, count) = (walk.taken(), walk.chunks());
    let pairs = numbered(walk.chunk(number - 1));
    paragraph(&format!(
        "Layer {number} of {count}, for {pairs}: {passed} at figure {high}, {found} at {low}."
    ));
    Ok(difference.keeps_all())
}

/// The pairs of a chunk in words, counted from 1.
fn numbered(pairs: Range<usize>) -> String {
    match pairs.len() {
        1 => format!("pair {}", pairs.end),
        _ => format!("pairs {} to {}", pairs.start + 1, pairs.end),
    }
}

#[cfg(test)]
mod tests {
    use super::*;

    #[test]
    fn the_middle_chunk_and_what_is_around_it() {
        let middle = |frames| {
            let chunks = Chunks::of(frames);
            let own = chunks.middle();
            (chunks.count(), own, chunks.around(own))
        };
        assert_eq!(middle(2), (1, 0, 0..1));
        assert_eq!(middle(13), (1, 0, 0..12));
        assert_eq!(middle(14), (2, 0, 0..13));
        assert_eq!(middle(25), (2, 0, 0..24));
        assert_eq!(middle(26), (3, 1, 0..25));
        assert_eq!(middle(37), (3, 1, 0..36));
        assert_eq!(middle(38), (4, 1, 0..36));
        assert_eq!(middle(240), (20, 9, 96..132));
        let most = |frames| Chunks::of(frames).evidence(Chunks::of(frames).middle());
        assert_eq!([9, 25, 37, 240].map(most), [16, 48, 72, 72]);
    }

    #[test]
    fn pairs_in_words() {
        assert_eq!(numbered(0..12), "pairs 1 to 12");
        assert_eq!(numbered(24..25), "pair 25");
    }

    /// At the ends of a clip fewer pairs are around a chunk, and the figures are as much lower.
    #[test]
    fn figures_go_with_the_pairs_around_a_chunk() {
        let figures = |frames, figure| {
            let chunks = Chunks::of(frames);
            let figures = (0..chunks.count()).map(|chunk| chunks.figure(figure, chunk));
            figures.collect::<Vec<_>>()
        };
        assert_eq!(figures(37, 72.0), [48.0, 72.0, 48.0]);
        assert_eq!(figures(37, 40.0), [27.0, 40.0, 27.0]);
        assert_eq!(figures(37, 0.5), [1.0, 0.5, 1.0]);
        assert_eq!(figures(31, 60.0), [48.0, 60.0, 36.0]);
        assert_eq!(figures(25, 48.0), [48.0, 48.0]);
        assert_eq!(figures(9, 16.0), [16.0]);
        for frames in 8..=240 {
            let chunks = Chunks::of(frames);
            let most = chunks.evidence(chunks.middle()) as f32;
            for chunk in 0..chunks.count() {
                assert_eq!(chunks.figure(most, chunk), chunks.evidence(chunk) as f32);
            }
        }
    }
}
