use super::case::Case;
use super::expected::{sums_numbers, wrong_ratio, wrong_size, Length};
use super::inputs::{sizes, Sizes};
use super::motion::Motion;
use super::planes::Planes;
use super::rng::Rng;
use crate::oracle::layer as rust;
use safeteal::{groups, Pair, Size};

lent! {
    pub struct Stats {
        luma: Vec<f32>,
        chroma1: Vec<f32>,
        chroma2: Vec<f32>,
        pairs: usize,
        width: usize,
        height: usize,
        ratio: usize,
        [planes]: Planes,
        [motion]: Motion,
    }
}

impl Stats {
    fn sizes(&self) -> Sizes {
        (self.width, self.height, self.ratio)
    }

    /// The sums (of luma and of chroma) and the pair.
    pub fn lent(&mut self) -> (&mut [f32], [&mut [f32]; 2], Pair<'_>) {
        let pair = self.planes.pair(&self.motion, self.sizes());
        let chroma: [&mut [f32]; 2] = [&mut self.chroma1, &mut self.chroma2];
        (&mut self.luma, chroma, pair)
    }
}

impl Case for Stats {
    type Answer = u64;

    const NAME: &'static str = "stats";
    const NUMBERS: &'static [usize] = &[0, 1, 2, 3, 4, 5, 7];
    const WRITTEN: &'static [&'static str] = &["luma", "chroma1", "chroma2"];
    const ANY_NAN: bool = true;

    fn random(rng: &mut Rng) -> Self {
        let (width, height, ratio) = sizes(rng, 12);
        let planes = Planes::random(rng, (width, height, ratio));
        let pairs = rng.pick(&[0, 0, 1, 2, 3, 7, 10, 11]);
        let before = sums_of_kind(rng, pairs);
        let chroma = 2 * (width / ratio) * (height / ratio);
        Self {
            luma: (0..6 * width * height).map(|_| before(rng)).collect(),
            chroma1: (0..chroma).map(|_| before(rng)).collect(),
            chroma2: (0..chroma).map(|_| before(rng)).collect(),
            pairs,
            width,
            height,
            ratio,
            planes,
            motion: Motion::random(rng),
        }
    }

    fn spoil(&mut self, rng: &mut Rng) {
        self.motion.stretch(rng);
    }

    fn lengths(&self) -> Vec<Length> {
        let (sums, planes) = (
            sums_numbers(self.sizes()),
            self.planes.lengths(self.sizes()),
        );
        [&sums[..], &planes, &self.motion.lengths()].concat()
    }

    fn ours(&mut self) -> u64 {
        let (pairs, ratio) = (self.pairs, self.ratio);
        let size = Size::new(self.width, self.height);
        let (luma, chroma, pair) = self.lent();
        groups::stats(luma, chroma, pairs, size, ratio, &pair)
    }

    fn refusal(&self) -> u64 {
        if wrong_size(self.width, self.height) {
            1
        } else if wrong_ratio(self.ratio, self.width, self.height) {
            2
        } else if self.planes.wrong_pitches(self.sizes()) {
            3
        } else if self.misfits() {
            4
        } else if self.motion.wrong() {
            5
        } else if self.pairs >= 12 {
            7
        } else {
            0
        }
    }

    /// The Rust starts from 0.0 and adds pair after pair, so that one pair more is one addition more to each sum.
    fn theirs(&mut self) -> u64 {
        let (start, size, ratio) = (self.pairs == 0, (self.width, self.height), self.ratio);
        let (luma, [chroma1, chroma2], pair) = self.lent();
        let one = rust::stats(&[pair.into()], size, ratio);
        let add = |sums: &mut [f32], terms: &[f32]| {
            for (sum, term) in sums.iter_mut().zip(terms) {
                *sum = if start { *term } else { *sum + *term };
            }
        };
        add(luma, one.luma().as_flattened());
        add(chroma1, one.chroma()[0].as_flattened());
        add(chroma2, one.chroma()[1].as_flattened());
        0
    }
}

/// Sums that stood there before: whole numbers as pairs make them, or any floats.
pub fn sums_of_kind(rng: &mut Rng, pairs: usize) -> impl Fn(&mut Rng) -> f32 {
    let any = rng.once_in(3);
    move |rng| {
        if any {
            rng.any_float()
        } else {
            rng.below(1 + 130_050 * pairs) as f32
        }
    }
}

#[cfg(test)]
mod tests {
    use super::*;

    /// Two pairs gathered by the Rust in one go are the two gathered one after the other.
    #[test]
    fn one_pair_more_is_one_addition_more() {
        for index in 0..2_000 {
            let mut rng = Rng::of(5, "pairs", index);
            let mut first = Stats::random(&mut rng);
            let (size, ratio) = ((first.width, first.height), first.ratio);
            let turned = first.planes.clone().turned();
            let pairs = [&first.planes, &turned]
                .map(|planes| rust::Pair::from(planes.pair(&first.motion, first.sizes())));
            let both = rust::stats(&pairs, size, ratio);

            first.pairs = 0;
            first.theirs();
            let mut second = Stats {
                planes: turned,
                pairs: 1,
                ..first
            };
            second.theirs();
            assert_eq!(second.luma, both.luma().as_flattened(), "case {index}");
            assert_eq!(
                second.chroma1,
                both.chroma()[0].as_flattened(),
                "case {index}"
            );
            assert_eq!(
                second.chroma2,
                both.chroma()[1].as_flattened(),
                "case {index}"
            );
        }
    }
}
