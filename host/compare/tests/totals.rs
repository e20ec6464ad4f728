//! Chroma totals at the ends of what a layer stores and beyond them, by assemble and by fit: summed whole, then held to
//! -32768 or 32767. All else of the layer is the Rust's.

use safeteal::groups::{self, ABSENT};
use safeteal::{
    assemble, fit, LayerBuf, LayerMut, Part, Parts, Ratio, Refusal, Settings, Size, Work,
};

/// What the outputs hold before a call.
const BEFORE: i16 = -77;

/// A total, and what is stored for it.
type Total = (i64, i16);

/// The slices of a layer that is one row of blocks.
#[derive(Clone, Debug, PartialEq)]
struct Slices {
    luma: Vec<i16>,
    chroma: [Vec<i16>; 2],
}

impl Slices {
    /// The outputs of a call, each number as before.
    fn new(ratio: usize, blocks: usize) -> Self {
        let plane = vec![BEFORE; 2 * blocks];
        Self {
            luma: vec![BEFORE; 2 * blocks * ratio * ratio],
            chroma: [plane.clone(), plane],
        }
    }

    fn lent(&mut self) -> LayerMut<'_> {
        let [first, second] = &mut self.chroma;
        LayerMut {
            luma: &mut self.luma,
            chroma: [first, second],
        }
    }

    fn unchanged(&self) -> bool {
        let [first, second] = &self.chroma;
        [&self.luma, first, second]
            .iter()
            .all(|slice| slice.iter().all(|&number| number == BEFORE))
    }

    /// Asks for these totals in each plane, and for all else as the Rust made it, which wraps a total to 16 bits.
    fn assert_right(&self, totals: [&[Total]; 2], rust: Option<Self>) {
        for (slice, totals) in self.chroma.iter().zip(totals) {
            let stored: Vec<i16> = totals.iter().map(|&(_, stored)| stored).collect();
            assert_eq!(slice[..slice.len() / 2], stored, "{totals:?}");
        }
        let Some(mut right) = rust else {
            return;
        };
        for (slice, totals) in right.chroma.iter_mut().zip(totals) {
            for (entry, &(whole, stored)) in slice.iter_mut().zip(totals) {
                assert_eq!(*entry, whole as i16, "{whole}");
                *entry = stored;
            }
        }
        assert_eq!(*self, right);
    }
}

#[cfg(not(oracle_absent))]
impl From<compare::oracle::layer::Fit> for Slices {
    fn from(made: compare::oracle::layer::Fit) -> Self {
        Self {
            luma: made.luma,
            chroma: made.chroma,
        }
    }
}

/// A row of blocks for assemble: the terms of each in both planes. Gains and luma offsets differ from pixel to pixel.
struct Blocks {
    ratio: usize,
    width: usize,
    models: Vec<[f32; 4]>,
    cover: Vec<u8>,
}

impl Blocks {
    fn new(ratio: usize, planes: [&[Vec<i16>]; 2]) -> Self {
        let width = ratio * planes[0].len();
        let model = |at: usize| {
            let (x, y) = (at % width, at / width);
            let [first, second] = planes.map(|terms| {
                let term = terms[x / ratio][y * ratio + x % ratio];
                f32::from(term) * (ratio * ratio) as f32 / 64.0
            });
            [1.0 + at as f32 / 4096.0, at as f32 / 64.0, first, second]
        };
        Self {
            ratio,
            width,
            models: (0..width * ratio).map(model).collect(),
            cover: (7..).take(width.div_ceil(8)).collect(),
        }
    }

    /// The layer that assemble makes.
    fn made(&self) -> Slices {
        let mut made = Slices::new(self.ratio, self.width / self.ratio);
        let answer = assemble(
            Size::new(self.width, self.ratio),
            Ratio::try_from(self.ratio).expect("1, 2 or 4"),
            self.models.as_flattened(),
            &self.cover,
            made.lent(),
        );
        answer.expect("no total is refused");
        made
    }

    #[cfg(not(oracle_absent))]
    fn rust(&self) -> Option<Slices> {
        let model = |at: usize| {
            let [gain, offset, first, second] = self.models[at];
            (gain, offset, [first, second])
        };
        let (size, cover) = ((self.width, self.ratio), &self.cover);
        let made = compare::oracle::layer::assemble(size, self.ratio, model, cover);
        Some(made.into())
    }

    #[cfg(oracle_absent)]
    fn rust(&self) -> Option<Slices> {
        None
    }
}

/// Terms of a block, their total and what is stored for it. At ratio 4 four terms stand apart, with nothing between.
fn rows(ratio: usize) -> Vec<(Vec<i16>, Total)> {
    let four: [([i16; 4], Total); 11] = [
        ([8192, 8192, 8192, 8191], (32_767, 32_767)),
        ([8192; 4], (32_768, 32_767)),
        ([-8192; 4], (-32_768, -32_768)),
        ([-8192, -8192, -8192, -8193], (-32_769, -32_768)),
        ([5, -3, 2, 1], (5, 5)),
        // all of the largest
        ([32_767; 4], (131_068, 32_767)),
        ([-32_767; 4], (-131_068, -32_768)),
        // out of the range and back
        ([32_767, 32_767, -32_767, -32_767], (0, 0)),
        ([-32_767, -32_767, 32_767, 32_766], (-1, -1)),
        ([32_767, 1, 0, -1], (32_767, 32_767)),
        ([-32_767, -2, 1, 0], (-32_768, -32_768)),
    ];
    let apart = |terms: [i16; 4]| match ratio {
        4 => terms.iter().flat_map(|&term| [0, term, 0, 0]).collect(),
        _ => terms.to_vec(),
    };
    let rows = four.into_iter().map(|(terms, total)| (apart(terms), total));
    rows.chain((ratio == 4).then(sixteen).into_iter().flatten())
        .collect()
}

/// The same with sixteen terms.
fn sixteen() -> Vec<(Vec<i16>, Total)> {
    let ends = |first: i16, last: i16| [[first; 8], [last; 8]].concat();
    let then = |each: i16, last: i16| [&[each; 15][..], &[last]].concat();
    vec![
        (then(2048, 2047), (32_767, 32_767)),
        (then(2048, 2048), (32_768, 32_767)),
        (then(-2048, -2048), (-32_768, -32_768)),
        (then(-2048, -2049), (-32_769, -32_768)),
        (then(32_767, 32_767), (524_272, 32_767)),
        (then(-32_767, -32_767), (-524_272, -32_768)),
        (ends(32_767, -32_767), (0, 0)),
        (ends(-32_767, 32_767), (0, 0)),
    ]
}

/// Each block by itself, in one plane; the other has small terms.
#[test]
fn assemble_holds_a_total() {
    for ratio in [2, 4] {
        let small = [vec![3; ratio * ratio]];
        let beside = (3 * (ratio * ratio) as i64, 3 * (ratio * ratio) as i16);
        for (terms, total) in rows(ratio) {
            let terms = [terms];
            let first = Blocks::new(ratio, [&terms, &small]);
            first
                .made()
                .assert_right([&[total], &[beside]], first.rust());
            let second = Blocks::new(ratio, [&small, &terms]);
            second
                .made()
                .assert_right([&[beside], &[total]], second.rust());
        }
    }
}

/// All of them side by side, in plane 2 from the last to the first: each has its own total.
#[test]
fn assemble_leaves_the_neighbours_of_a_held_total() {
    for ratio in [2, 4] {
        let (terms, totals): (Vec<_>, Vec<_>) = rows(ratio).into_iter().unzip();
        let backwards: Vec<_> = terms.iter().rev().cloned().collect();
        let others: Vec<_> = totals.iter().rev().copied().collect();
        let blocks = Blocks::new(ratio, [&terms, &backwards]);
        blocks
            .made()
            .assert_right([&totals, &others], blocks.rust());
    }
}

/// The sums of one pair at a pixel that shows 0 and then 200 under a gain; with gain 1 nothing stands apart.
fn pixel(gain: f32) -> [f32; 6] {
    let (p, i) = (200.0, 200.0 * gain);
    let apart = f32::from(u8::from((p - i).abs() > 24.0));
    [p, i, p * p, p * i, i * i, apart]
}

/// A row of blocks for fit, one pair of it: six sums for each luma pixel, two for each block and plane.
struct Clip {
    ratio: usize,
    luma: Vec<[f32; 6]>,
    chroma: [Vec<[f32; 2]>; 2],
}

impl Clip {
    fn new(ratio: usize, gains: &[f32], chroma: [Vec<[f32; 2]>; 2]) -> Self {
        Self {
            ratio,
            luma: gains.iter().map(|&gain| pixel(gain)).collect(),
            chroma,
        }
    }

    fn blocks(&self) -> usize {
        self.chroma[0].len()
    }

    fn size(&self) -> Size {
        Size::new(self.ratio * self.blocks(), self.ratio)
    }

    fn part(&self) -> Part<'_> {
        let [first, second] = &self.chroma;
        Part {
            luma: self.luma.as_flattened(),
            chroma: [first.as_flattened(), second.as_flattened()],
            pairs: 1,
        }
    }

    /// The layer that fit makes.
    fn made(&self) -> Slices {
        let (mut made, size) = (Slices::new(self.ratio, self.blocks()), self.size());
        let pixels = self.luma.len();
        let work = Work {
            models: &mut vec![0.0; 4 * pixels],
            kept: &mut vec![0; pixels],
            cover: &mut vec![0; size.cells()],
        };
        let settings = Settings {
            evidence: 0.0,
            ..Settings::default()
        };
        let ratio = Ratio::try_from(self.ratio).expect("1, 2 or 4");
        let parts = Parts::alone(self.part());
        let answer = fit(parts, size, ratio, settings, work, made.lent());
        answer.expect("no total is refused");
        made
    }

    #[cfg(not(oracle_absent))]
    fn rust(&self) -> Option<Slices> {
        use compare::oracle::layer as rust;
        let own = rust::Stats::from_raw(self.luma.clone(), self.chroma.clone(), 2.0);
        let size = (self.size().width, self.size().height);
        let made = rust::fit([None, Some(&own), None], size, 6.0, 0.0, false, self.ratio);
        made.map(Slices::from)
    }

    #[cfg(oracle_absent)]
    fn rust(&self) -> Option<Slices> {
        None
    }
}

/// The sums for a term: with a first sum of 0 and one pair, a chroma offset is half the second sum, whatever the gain.
fn sums(term: i16, ratio: usize) -> [f32; 2] {
    let offset = f32::from(term) * (ratio * ratio) as f32 / 64.0;
    [0.0, 2.0 * offset]
}

/// One block, in which so many pixels from the first are lettered; a term for each plane.
fn lettered(ratio: usize, pixels: usize, terms: [i16; 2]) -> Clip {
    let mut gains = vec![1.0; ratio * ratio];
    gains[..pixels].fill(0.5);
    Clip::new(ratio, &gains, terms.map(|term| vec![sums(term, ratio)]))
}

#[test]
fn fit_holds_a_total() {
    let right: [(usize, usize, i16, Total); 13] = [
        (1, 1, 32_767, (32_767, 32_767)),
        (2, 1, 32_767, (32_767, 32_767)),
        (2, 4, 8192, (32_768, 32_767)),
        (2, 4, -8192, (-32_768, -32_768)),
        (2, 3, -10_923, (-32_769, -32_768)),
        (2, 4, 32_767, (131_068, 32_767)),
        (2, 4, -32_767, (-131_068, -32_768)),
        (4, 7, 4681, (32_767, 32_767)),
        (4, 16, 2048, (32_768, 32_767)),
        (4, 16, -2048, (-32_768, -32_768)),
        (4, 9, -3641, (-32_769, -32_768)),
        (4, 16, 32_767, (524_272, 32_767)),
        (4, 16, -32_767, (-524_272, -32_768)),
    ];
    for (ratio, pixels, term, total) in right {
        let beside = (7 * pixels as i64, 7 * pixels as i16);
        let first = lettered(ratio, pixels, [term, 7]);
        first
            .made()
            .assert_right([&[total], &[beside]], first.rust());
        let second = lettered(ratio, pixels, [7, term]);
        second
            .made()
            .assert_right([&[beside], &[total]], second.rust());
    }
}

/// Five blocks of lettering: what is held has neighbours that are not.
#[test]
fn fit_leaves_the_neighbours_of_a_held_total() {
    for ratio in [2, 4] {
        let pixels = (ratio * ratio) as i16;
        let full = 32_768 / i32::from(pixels);
        let terms = [1, full, -5, -full - 1, 9].map(|term| term as i16);
        let totals: Vec<Total> = terms
            .iter()
            .map(|term| i64::from(*term) * i64::from(pixels))
            .zip([pixels, i16::MAX, -5 * pixels, i16::MIN, 9 * pixels])
            .collect();
        let backwards: Vec<Total> = totals.iter().rev().copied().collect();
        let chroma = terms.map(|term| sums(term, ratio)).to_vec();
        let other = chroma.iter().rev().copied().collect();
        let clip = Clip::new(ratio, &vec![0.5; 5 * ratio * ratio], [chroma, other]);
        clip.made().assert_right([&totals, &backwards], clip.rust());
    }
}

/// Gain 0.5 adds to the total, gain 1.5 takes nearly as much away, and gain 1 is no lettering.
#[test]
fn fit_sums_a_total_whole() {
    for ratio in [2, 4] {
        let half = ratio * ratio / 2;
        let clip = |first: f32, last: f32| {
            let gains = [vec![first; half], vec![last; half]].concat();
            Clip::new(ratio, &gains, [vec![[5600.0; 2]], vec![[2.0; 2]]])
        };
        for (first, last) in [(0.5, 1.5), (1.5, 0.5)] {
            let clip = clip(first, last);
            let made = clip.made();
            let totals = [0, 1].map(|plane| made.chroma[plane][0]);
            assert!(totals[0].abs() < 100, "{totals:?}");
            let [first, second] = totals.map(|stored| (i64::from(stored), stored));
            made.assert_right([&[first], &[second]], clip.rust());
        }
        assert_eq!(clip(0.5, 1.0).made().chroma[0][0], 32_767);
        assert_eq!(clip(1.5, 1.0).made().chroma[0][0], -32_768);
    }
}

/// A part with both neighbours.
fn between<'a>(previous: Part<'a>, own: Part<'a>, next: Part<'a>) -> Parts<'a> {
    Parts {
        previous: Some(previous),
        own,
        next: Some(next),
    }
}

/// A fit of 2 by 2 pixels that is refused: no lent slice is changed.
fn refuses(right: Refusal, parts: Parts<'_>, size: Size, ratio: Ratio, settings: Settings) {
    let (mut models, mut kept, mut cover) = ([0.25; 16], [9; 4], [8]);
    let work = Work {
        models: &mut models,
        kept: &mut kept,
        cover: &mut cover,
    };
    let mut made = Slices::new(2, 1);
    let answer = fit(parts, size, ratio, settings, work, made.lent());
    assert!(made.unchanged());
    assert_eq!((models, kept, cover), ([0.25; 16], [9; 4], [8]));
    assert_eq!(answer.expect_err("a refusal").refusal(), right);
}

#[test]
fn a_refusal_leaves_the_work_slices() {
    let clip = lettered(2, 4, [1, 1]);
    let own = clip.part();
    let (square, settings) = (Size::new(2, 2), Settings::default());
    let alone = Parts::alone(own);
    let none = Part { pairs: 0, ..own };
    let many = Part { pairs: 13, ..own };
    let short = Part {
        luma: &own.luma[1..],
        ..own
    };
    let tight = Settings {
        limit: 0.25,
        ..settings
    };
    let negative = Settings {
        evidence: -1.0,
        ..settings
    };
    refuses(Refusal::Size, alone, Size::new(0, 2), Ratio::Two, settings);
    refuses(Refusal::Ratio, alone, square, Ratio::Four, settings);
    let lacking = between(short, own, own);
    refuses(Refusal::Length, lacking, square, Ratio::Two, settings);
    refuses(Refusal::Setting, alone, square, Ratio::Two, tight);
    refuses(Refusal::Setting, alone, square, Ratio::Two, negative);
    let (empty, full) = (between(own, none, own), between(own, own, many));
    refuses(Refusal::Pairs, empty, square, Ratio::Two, settings);
    refuses(Refusal::Pairs, full, square, Ratio::Two, settings);
    // A neighbour that is there and has no pair is not one that is absent.
    let (before, after) = (between(none, own, own), between(own, own, none));
    refuses(Refusal::Pairs, before, square, Ratio::Two, settings);
    refuses(Refusal::Pairs, after, square, Ratio::Two, settings);
    let (worse, none) = (between(none, short, own), between(none, own, own));
    refuses(Refusal::Length, worse, square, Ratio::Two, settings);
    refuses(Refusal::Setting, none, square, Ratio::Two, tight);
}

/// To C a part of no pairs is an absent one.
#[test]
fn absent_neighbours_are_not_looked_at() {
    let clip = lettered(2, 4, [100, 100]);
    let own = clip.part();
    let odd = [f32::NAN; 5];
    let absent = Part {
        luma: &odd,
        chroma: [&odd[1..], &[]],
        pairs: 0,
    };
    let layer = |neighbour: Part<'_>| {
        let (size, settings) = (Size::new(2, 2), Settings::default());
        let mut made = LayerBuf::new(size, Ratio::Two).expect("a small layer");
        let work = &mut Work {
            models: &mut [0.0; 16],
            kept: &mut [0; 4],
            cover: &mut [0],
        };
        let parts = [neighbour, own, neighbour];
        let word = groups::fit(parts, size, settings, 2, work, &mut made.layer_mut());
        (word, made.layer().luma.to_vec())
    };
    let right = layer(ABSENT);
    assert_eq!(right.0, 0);
    assert_eq!(layer(absent), right);
}

/// The number of a refused total is gone.
#[cfg(not(oracle_absent))]
#[test]
fn no_call_answers_8() {
    let calls = compare::check::CALLS;
    assert!(calls.iter().all(|call| !call.numbers.contains(&8)));
}

/// Over every seed of the differential run there are entries that are left out, in each way, and far more that are not.
#[cfg(not(oracle_absent))]
#[test]
fn entries_are_left_out_over_every_seed() {
    use compare::check::run::{named, seeds, Until};

    for seed in seeds() {
        for call in named("assemble,fit").expect("two calls") {
            let tally = call.run(seed, Until::Cases(5000)).expect("no difference");
            let entries = tally.entries;
            let ways = [entries.above, entries.below, entries.back];
            let place = format!("{}, seed {seed}: {entries:?}", call.name);
            assert!(!ways.contains(&0), "{place}");
            assert!(entries.compared > 5 * entries.left_out(), "{place}");
        }
    }
}
