//! Whole walks: a clip from its start to its last layer.

use std::hint::black_box;

use super::scene::{frame, plane, Lettering, RATIO};
use super::slices::{Fitting, Sums};
use super::{leave_alike, Sides, Workload};
use crate::names::WALKS;
use crate::oracle::layer as rust;
use crate::second::walk::CHUNK;
use safeteal::groups::ABSENT;
use safeteal::{ffi, groups, MotionBuf, Pair, PlaneBuf, Settings, Size};

/// A walk at the largest size takes a quarter of a minute, and keeps 1.4 GB of sums.
pub const WORKLOADS: &[Workload] = &[
    Workload::new(WALKS, "36 pairs, three layers", beside_rust).but_the_largest(),
    Workload::by_hand(WALKS, "36 pairs, three layers, by hand", beside_hand).but_the_largest(),
];

const CHUNKS: usize = 3;
const PAIRS: usize = CHUNKS * CHUNK;

/// A camera that pans over a picture, under a logo of stripes that are narrower than its steps.
struct Clip {
    frames: Vec<[PlaneBuf; 3]>,
    motion: MotionBuf,
    size: Size,
}

const STEP: (i32, i32) = (4, 2);
const STRIPES: (usize, usize) = (16, 3);

impl Clip {
    fn new(size: Size) -> Self {
        let half = Size::new(size.width / RATIO, size.height / RATIO);
        let frame = |number: usize| {
            let moved = number * STEP.0 as usize;
            let seed = 3 * number as u64;
            let chroma = |seed| plane(half, moved / RATIO, seed);
            [luma(size, moved, seed), chroma(seed + 1), chroma(seed + 2)]
        };
        Self {
            frames: (0..=PAIRS).map(frame).collect(),
            motion: MotionBuf::pan(size, STEP).expect("a size of the table"),
            size,
        }
    }

    fn pair(&self, number: usize) -> Pair<'_> {
        let [first, second] =
            [number, number + 1].map(|number| self.frames[number].each_ref().map(PlaneBuf::plane));
        Pair {
            first,
            second,
            motion: self.motion.motion(),
        }
    }
}

/// The picture, moved, under the logo.
fn luma(size: Size, moved: usize, seed: u64) -> PlaneBuf {
    let (width, height) = (size.width, size.height);
    let mut bytes = frame(width, height, moved, seed);
    for (at, byte) in bytes.iter_mut().enumerate() {
        if at % width % STRIPES.0 < STRIPES.1 {
            let (gain, offset, _) = Lettering::Logo.model(at, width, height);
            *byte = (gain * f32::from(*byte) + offset).round() as u8;
        }
    }
    PlaneBuf::from_bytes(size, bytes).expect("a size of the table")
}

/// Our side.
struct Walk {
    clip: Clip,
    slots: [Sums; 3],
    layers: [Fitting; CHUNKS],
}

impl Walk {
    fn new(width: usize, height: usize) -> Self {
        let size = Size::new(width, height);
        Self {
            clip: Clip::new(size),
            slots: [(); 3].map(|()| Sums::new(size)),
            layers: [(); CHUNKS].map(|()| Fitting::new(size)),
        }
    }

    fn pixels(&self) -> usize {
        self.clip.size.width * self.clip.size.height
    }

    fn turn(&mut self) {
        let Size { width, height } = self.clip.size;
        let mut walk = ffi::walk_start(width, height, RATIO, black_box(PAIRS)).walk;
        let mut slots = self.slots.each_mut().map(Sums::slot);
        while walk.taken < CHUNKS {
            let walked = if ffi::walk_due(walk) == 256 {
                let (mut work, mut layer) = self.layers[walk.taken].lent();
                let settings = Settings::default();
                groups::walk_layer(walk, &slots, settings, &mut work, &mut layer)
            } else {
                let pair = black_box(self.clip.pair(walk.added));
                groups::walk_pair(walk, &mut slots, walk.added, &pair)
            };
            assert_eq!(walked.word, 0, "a call in turn");
            walk = black_box(walked.walk);
        }
    }
}

struct BesideRust {
    ours: Walk,
    rust: Vec<rust::Fit>,
}

fn beside_rust(width: usize, height: usize) -> Box<dyn Sides> {
    Box::new(BesideRust {
        ours: Walk::new(width, height),
        rust: Vec::new(),
    })
}

impl Sides for BesideRust {
    fn pixels(&self) -> usize {
        self.ours.pixels()
    }

    fn ours(&mut self) {
        self.ours.turn();
    }

    fn theirs(&mut self) {
        let clip = black_box(&self.ours.clip);
        let (size, settings) = ((clip.size.width, clip.size.height), Settings::default());
        let sums = |chunk: usize| {
            let numbers = chunk * CHUNK..(chunk + 1) * CHUNK;
            let pairs: Vec<rust::Pair> = numbers.map(|number| clip.pair(number).into()).collect();
            rust::stats(&pairs, size, RATIO)
        };
        let fit = |parts: [Option<&rust::Stats>; 3]| {
            let (limit, proof, strict) = (settings.limit, settings.evidence, settings.strict);
            let made = rust::fit(parts, size, limit, proof, strict, RATIO);
            black_box(made.expect("an own part of 12 pairs"))
        };
        let (first, second) = (sums(0), sums(1));
        let earliest = fit([None, Some(&first), Some(&second)]);
        let third = sums(2);
        let middle = fit([Some(&first), Some(&second), Some(&third)]);
        let latest = fit([Some(&second), Some(&third), None]);
        self.rust = vec![earliest, middle, latest];
    }

    fn same(&mut self) -> bool {
        let mut both = self.ours.layers.iter().zip(&self.rust);
        self.rust.len() == CHUNKS && both.all(|(ours, rust)| ours.is(rust))
    }
}

/// Both sides work in the same slices, so that they wait for the memory alike.
struct BesideHand {
    ours: Walk,
}

fn beside_hand(width: usize, height: usize) -> Box<dyn Sides> {
    Box::new(BesideHand {
        ours: Walk::new(width, height),
    })
}

impl BesideHand {
    /// Gathers a chunk by stats.
    fn gather(&mut self, chunk: usize) {
        let Walk { clip, slots, .. } = &mut self.ours;
        for at in 0..CHUNK {
            let pair = black_box(clip.pair(chunk * CHUNK + at));
            let sums = slots[chunk].slot();
            let word = groups::stats(sums.luma, sums.chroma, at, clip.size, RATIO, &pair);
            assert_eq!(word, 0, "a part with room for a pair");
        }
    }

    /// Fits a chunk by fit.
    fn fit(&mut self, chunk: usize) {
        let Walk {
            clip,
            slots,
            layers,
        } = &mut self.ours;
        let part = |chunk: Option<usize>| {
            let sums = chunk.and_then(|chunk| slots.get(chunk));
            sums.map_or(ABSENT, |sums| sums.part(CHUNK))
        };
        let parts = [chunk.checked_sub(1), Some(chunk), Some(chunk + 1)].map(part);
        let (mut work, mut layer) = layers[chunk].lent();
        let settings = Settings::default();
        let word = groups::fit(parts, clip.size, settings, RATIO, &mut work, &mut layer);
        assert_eq!(black_box(word), 0, "an own part of 12 pairs");
    }
}

impl Sides for BesideHand {
    fn pixels(&self) -> usize {
        self.ours.pixels()
    }

    fn ours(&mut self) {
        self.ours.turn();
    }

    fn theirs(&mut self) {
        self.gather(0);
        self.gather(1);
        self.fit(0);
        self.gather(2);
        self.fit(1);
        self.fit(2);
    }

    fn same(&mut self) -> bool {
        let spoil = |sides: &mut Self| {
            sides.ours.slots.iter_mut().for_each(Sums::spoil);
            sides.ours.layers.iter_mut().for_each(Fitting::spoil);
        };
        let left = |sides: &Self| {
            (
                sides.ours.slots.clone(),
                sides.ours.layers.each_ref().map(Fitting::layer),
            )
        };
        leave_alike(self, spoil, left)
    }
}
