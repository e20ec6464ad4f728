//! The clips of whole walks: how they are made at random, and made smaller.

use crate::check::fit::{lettering, settings};
use crate::check::inputs::{bytes, sizes, Sizes};
use crate::check::motion::Motion;
use crate::check::parcels::smaller_sizes;
use crate::check::planes::Planes;
use crate::check::rng::Rng;
use crate::second::parcel::Head;
use crate::second::walk::CHUNK;
use safeteal::{Pair, Settings};

/// A clip, and what is done on the walk over it.
#[derive(Clone)]
pub struct Clip {
    pub size: Sizes,
    /// The number of pairs that is said at the start: that of `pairs`, or more than are ever handed over.
    pub said: usize,
    pub pairs: Vec<Handed>,
    /// Those of each layer.
    pub settings: Vec<Settings>,
    /// Calls that are made beside those in turn.
    pub beside: Vec<Beside>,
    /// What the slices of sums hold at the start is made of this; nothing, where it is 0.
    pub junk: u64,
}

/// A pair of frames.
#[derive(Clone, PartialEq)]
pub struct Handed {
    pub planes: Planes,
    pub motion: Motion,
}

/// A call beside those in turn: before which of these, and the seed that it is made of.
#[derive(Clone, Copy)]
pub struct Beside {
    pub before: usize,
    pub seed: u64,
}

/// Lengths at which another chunk begins or is complete.
const ENDS: [usize; 12] = [0, 1, 11, 12, 13, 23, 24, 25, 35, 36, 37, 40];

impl Clip {
    pub fn random(rng: &mut Rng) -> Self {
        let size = sizes(rng, 24);
        let length = match rng.below(3) {
            0 => rng.pick(&ENDS),
            _ => rng.below(41),
        };
        let said = match rng.below(8) {
            0 => usize::MAX - rng.below(40),
            1 => length + 1 + rng.below(30),
            _ => length,
        };
        let pairs = match rng.below(6) {
            0 => (0..length).map(|_| Handed::random(rng, size)).collect(),
            kind => lettered(rng, size, length, kind == 1),
        };
        let layers = length.div_ceil(CHUNK);
        let turns = 1 + length + layers;
        let beside = |_| Beside {
            before: rng.below(turns),
            seed: rng.bits(),
        };
        Self {
            size,
            said,
            pairs,
            beside: (0..turns).map(beside).collect(),
            settings: (0..layers).map(|_| settings(rng)).collect(),
            junk: rng.bits(),
        }
    }

    /// In words.
    pub fn words(&self) -> String {
        let (width, height, ratio) = self.size;
        let (length, said, beside) = (self.pairs.len(), self.said, self.beside.len());
        format!(
            "a walk over {length} pairs of {said}, {width} by {height}, ratio {ratio}, with {beside} calls beside \
             those in turn"
        )
    }

    /// Smaller clips like this one: with fewer or earlier calls beside those in turn, fewer pairs, smaller or simpler
    /// frames.
    pub fn smaller(&self) -> Vec<Self> {
        let mut made = self.quieter();
        let length = self.pairs.len();
        for (from, to) in parts(length) {
            let mut clip = self.clone();
            clip.pairs.drain(from..to);
            if self.said == length {
                clip.said = clip.pairs.len();
            }
            made.push(clip);
        }
        if self.said > length {
            made.push(Self {
                said: length,
                ..self.clone()
            });
        }
        made.extend(self.resized());
        made.extend(self.simpler());
        made
    }

    /// With fewer calls beside those in turn, or with earlier ones.
    fn quieter(&self) -> Vec<Self> {
        let mut made = Vec::new();
        for (from, to) in parts(self.beside.len()) {
            let mut clip = self.clone();
            clip.beside.drain(from..to);
            made.push(clip);
        }
        for (at, call) in self.beside.iter().enumerate() {
            let earlier = [0, call.before / 2, call.before.saturating_sub(1)].into_iter();
            for before in earlier.filter(|before| *before < call.before) {
                let mut clip = self.clone();
                clip.beside[at].before = before;
                made.push(clip);
            }
        }
        made
    }

    /// The first columns and rows of all frames.
    fn resized(&self) -> Vec<Self> {
        let (width, height, _) = self.size;
        let sizes = smaller_sizes(Head::new(self.size)).into_iter();
        let sizes = sizes.map(|head| (head.width, head.height, head.ratio));
        let smaller =
            sizes.filter(|&(wide, high, _)| wide * high > 0 && (wide, high) != (width, height));
        let resize = |size: Sizes| Self {
            size,
            pairs: self.pairs.iter().map(|pair| pair.cropped(size)).collect(),
            ..self.clone()
        };
        smaller.map(resize).collect()
    }

    /// With usual settings, with nothing in the slices at the start, or with pairs that are black, do not move or have
    /// nothing between their rows: all of them, or one.
    fn simpler(&self) -> Vec<Self> {
        let (mut usual, mut clean) = (self.clone(), self.clone());
        usual.settings.fill(Settings::default());
        clean.junk = 0;
        let mut made = vec![usual, clean];
        made.retain(|made| made.junk != self.junk || made.settings != self.settings);
        let steps: [fn(&Handed, Sizes) -> Handed; 3] =
            [Handed::cropped, Handed::still, Handed::black];
        for step in steps {
            let simple: Vec<Handed> = self
                .pairs
                .iter()
                .map(|pair| step(pair, self.size))
                .collect();
            let other = |at: &usize| simple[*at] != self.pairs[*at];
            let others: Vec<usize> = (0..simple.len()).filter(other).collect();
            let one = |at: usize| {
                let mut clip = self.clone();
                clip.pairs[at] = simple[at].clone();
                clip
            };
            let ones: Vec<Self> = others.into_iter().map(one).collect();
            if ones.len() > 1 {
                made.push(Self {
                    pairs: simple,
                    ..self.clone()
                });
            }
            made.extend(ones);
        }
        made
    }
}

/// Runs that may be left out of so many: all, each half, a chunk at either end, each by itself.
fn parts(length: usize) -> Vec<(usize, usize)> {
    let half = length / 2;
    let mut runs = vec![(0, length), (half, length), (0, half)];
    if length > CHUNK {
        runs.extend([(length - CHUNK, length), (0, CHUNK)]);
    }
    runs.extend((0..length).rev().map(|at| (at, at + 1)));
    runs.retain(|(from, to)| from < to);
    runs
}

impl Handed {
    /// Any frames, and any motion.
    pub fn random(rng: &mut Rng, size: Sizes) -> Self {
        Self {
            planes: Planes::random(rng, size),
            motion: Motion::random(rng),
        }
    }

    pub fn lent(&self, size: Sizes) -> Pair<'_> {
        self.planes.pair(&self.motion, size)
    }

    /// The first columns and rows of each plane, with nothing between them.
    fn cropped(&self, size: Sizes) -> Self {
        Self {
            planes: self.planes.cropped(size),
            motion: self.motion.clone(),
        }
    }

    fn still(&self, _: Sizes) -> Self {
        Self {
            planes: self.planes.clone(),
            motion: Motion::pan((0, 0)),
        }
    }

    fn black(&self, _: Sizes) -> Self {
        let mut black = self.clone();
        for plane in black.planes.each() {
            plane.data.fill(0);
        }
        black
    }
}

/// Pairs under lettering, which is there in most chunks. The scene is another in each pair, and moves so far between
/// its frames that most of the lettering is found; strong lettering is in a dark scene with a heavy cast.
fn lettered(rng: &mut Rng, size: Sizes, length: usize, strong: bool) -> Vec<Handed> {
    let (mut letters, mut cast) = (lettering(rng, size), None);
    if strong {
        let heavy = rng.pick(&[(3.5, 0.0), (-1.5, 150.0)]);
        let marked = letters.iter_mut().filter(|model| **model != (1.0, 0.0));
        marked.for_each(|model| *model = heavy);
        cast = Some(rng.pick(&[180, 230, 255]));
    }
    let none = vec![(1.0, 0.0); letters.len()];
    let there: Vec<bool> = (0..=length / CHUNK).map(|_| !rng.once_in(4)).collect();
    let pair = |number: usize| {
        let letters = if there[number / CHUNK] {
            &letters
        } else {
            &none
        };
        under(rng, size, letters, cast)
    };
    (0..length).map(pair).collect()
}

/// A pair of a scene that moves under these letters, mostly as its motion says; with a cast it is dark, and all chroma
/// is that.
fn under(rng: &mut Rng, size: Sizes, letters: &[(f32, f32)], cast: Option<u8>) -> Handed {
    let (width, height, _) = size;
    let mut planes = Planes::random(rng, size);
    let mut scene = bytes(rng, width * height);
    if let Some(cast) = cast {
        scene.iter_mut().for_each(|byte| *byte /= 4);
        for plane in planes.each() {
            plane.data.fill(cast);
        }
    }
    let (right, down) = (rng.between(-8, 8) as i16, rng.between(-8, 8) as i16);
    let moved = |at: usize, by: i16, side: usize| at.saturating_add_signed(by.into()).min(side - 1);
    let laid = |x: usize, y: usize, from: (usize, usize)| {
        let (gain, offset) = letters[y * width + x];
        let byte = f32::from(scene[from.1 * width + from.0]);
        (gain * byte + offset).round().clamp(0.0, 255.0) as u8
    };
    let sides = (width, height);
    planes.first0.paint(sides, |x, y| laid(x, y, (x, y)));
    planes.second0.paint(sides, |x, y| {
        laid(x, y, (moved(x, right, width), moved(y, down, height)))
    });
    let pan = Motion::pan((right, down));
    Handed {
        planes,
        motion: if rng.once_in(6) {
            Motion::random(rng)
        } else {
            pan
        },
    }
}
