//! Layers lent to peel, unpeel, render, empty and the writer of parcels, as numbers and as bytes.

use std::mem::size_of;

use super::expected::{
    layer_numbers, over, plane_bytes, wrong_pitch, wrong_plane, wrong_ratio, wrong_size, Length,
};
use super::inputs::{longer, pitch};
use super::lent::Element;
use super::rng::Rng;
use safeteal::groups::{Form, LentLayer};
use safeteal::Size;

lent! {
    /// A layer lent as numbers, or as little-endian bytes.
    pub struct Layer<T: Number> {
        luma: Vec<T>,
        chroma1: Vec<T>,
        chroma2: Vec<T>,
        luma_pitch: usize,
        chroma_pitch: usize,
        width: usize,
        height: usize,
        ratio: usize,
    }
}

/// What a layer's numbers are lent as.
pub trait Number: Form + Element {
    /// The names of its calls.
    const PEEL: &'static str;
    const UNPEEL: &'static str;

    /// A layer in this form.
    fn layer(numbers: Layer<i16>, rng: &mut Rng) -> Layer<Self>;

    /// The numbers of a layer in this form.
    fn numbers(layer: &Layer<Self>) -> Layer<i16>;
}

impl Number for i16 {
    const PEEL: &'static str = "peel_numbers";
    const UNPEEL: &'static str = "unpeel_numbers";

    fn layer(numbers: Layer<i16>, _: &mut Rng) -> Layer<i16> {
        numbers
    }

    fn numbers(layer: &Layer<i16>) -> Layer<i16> {
        layer.clone()
    }
}

impl Number for u8 {
    const PEEL: &'static str = "peel";
    const UNPEEL: &'static str = "unpeel";

    /// With a byte left over here and there.
    fn layer(numbers: Layer<i16>, rng: &mut Rng) -> Layer<u8> {
        numbers.with(|numbers| {
            let over = rng.once_in(6).then_some(rng.bits() as u8);
            let bytes = numbers.iter().flat_map(|number| number.to_le_bytes());
            bytes.chain(over).collect()
        })
    }

    /// "a byte left over at the end being passed over".
    fn numbers(layer: &Layer<u8>) -> Layer<i16> {
        let number = |pair: &[u8]| i16::from_le_bytes([pair[0], pair[1]]);
        layer.with(|bytes| bytes.chunks_exact(2).map(number).collect())
    }
}

impl<T: Number> Layer<T> {
    /// The same layer with other slices made of its own.
    fn with<U: Number>(&self, mut slice: impl FnMut(&[T]) -> Vec<U>) -> Layer<U> {
        Layer {
            luma: slice(&self.luma),
            chroma1: slice(&self.chroma1),
            chroma2: slice(&self.chroma2),
            luma_pitch: self.luma_pitch,
            chroma_pitch: self.chroma_pitch,
            width: self.width,
            height: self.height,
            ratio: self.ratio,
        }
    }

    pub fn lent(&self) -> LentLayer<'_, T> {
        LentLayer {
            luma: &self.luma,
            chroma: [&self.chroma1, &self.chroma2],
            pitch: (self.luma_pitch, self.chroma_pitch),
            size: Size::new(self.width, self.height),
            ratio: self.ratio,
        }
    }

    /// The two sizes of a plane of this layer.
    pub fn plane(&self, plane: usize) -> (usize, usize) {
        let ratio = if plane == 0 { 1 } else { self.ratio };
        (over(self.width, ratio), over(self.height, ratio))
    }

    /// The same as the library's type.
    pub fn size(&self, plane: usize) -> Size {
        let (width, height) = self.plane(plane);
        Size::new(width, height)
    }

    /// Rows 1 and 2 of a call with a layer and a plane.
    pub fn refusal(&self, plane: usize) -> u64 {
        if wrong_size(self.width, self.height) || wrong_plane(plane) {
            1
        } else if wrong_ratio(self.ratio, self.width, self.height) {
            2
        } else {
            0
        }
    }

    /// Row 3 for the layer's own pitches.
    pub fn wrong_pitches(&self) -> bool {
        wrong_pitch(self.luma_pitch, self.width)
            || wrong_pitch(self.chroma_pitch, over(self.width, self.ratio))
    }

    /// Rows 1 to 4 of a call with a layer and no plane; `misfits` is row 4.
    pub fn refusal_alone(&self, misfits: impl FnOnce() -> bool) -> u64 {
        match self.refusal(0) {
            0 if self.wrong_pitches() => 3,
            0 if misfits() => 4,
            number => number,
        }
    }

    /// What each slice must have in elements: an odd byte adds no number.
    pub fn lengths(&self) -> [Length; 3] {
        let each = size_of::<i16>() / size_of::<T>();
        let chroma = layer_numbers(self.chroma_pitch, over(self.height, self.ratio), each);
        [
            layer_numbers(self.luma_pitch, self.height, each),
            chroma,
            chroma,
        ]
    }

    /// The length of a byte plane that goes with the layer.
    pub fn bytes(&self, plane: usize, pitch: usize) -> Length {
        let (row, rows) = self.plane(plane);
        plane_bytes(pitch, row, rows)
    }
}

impl Layer<i16> {
    pub fn random(rng: &mut Rng, (width, height, ratio): (usize, usize, usize)) -> Self {
        let (half, rows) = (width / ratio, height / ratio);
        let (luma_pitch, chroma_pitch) = (pitch(rng, width, height), pitch(rng, half, rows));
        let mut layer = Self {
            luma: vec![0; 2 * luma_pitch * height + longer(rng)],
            chroma1: vec![0; 2 * chroma_pitch * rows + longer(rng)],
            chroma2: vec![0; 2 * chroma_pitch * rows + longer(rng)],
            luma_pitch,
            chroma_pitch,
            width,
            height,
            ratio,
        };
        layer.fill(rng);
        layer
    }

    /// Gains, offsets and distances of one kind each; what is not read is filled in the same way.
    fn fill(&mut self, rng: &mut Rng) {
        let gains = self.luma_pitch * self.height;
        let gain = gain_of_kind(rng);
        let offset = offset_of_kind(rng);
        let distance = distance_of_kind(rng);
        self.luma[..gains].fill_with(|| gain(rng));
        self.luma[gains..].fill_with(|| offset(rng));
        self.chroma1.fill_with(|| offset(rng));
        let cells = self.chroma_pitch * (self.height / self.ratio);
        self.chroma2[..cells].fill_with(|| offset(rng));
        self.chroma2[cells..].fill_with(|| distance(rng));
    }

    /// The distance stored for the cell of a pixel.
    pub fn distance(&self, plane: usize, x: usize, y: usize) -> i16 {
        let cell = if plane == 0 { 8 } else { 8 / self.ratio };
        let start = self.chroma_pitch * (self.height / self.ratio);
        self.chroma2[start + y / cell * self.chroma_pitch + x / cell]
    }

    /// Whether the texel is (1, 0), in whole numbers: the gains' sum is that of as many ones.
    fn plain(&self, plane: usize, x: usize, y: usize) -> bool {
        let gain = |x: usize, y: usize| i64::from(self.luma[y * self.luma_pitch + x]);
        match plane {
            0 => gain(x, y) == 4096 && self.luma[(self.height + y) * self.luma_pitch + x] == 0,
            _ => {
                let ratio = self.ratio;
                let total: i64 = (0..ratio * ratio)
                    .map(|at| gain(x * ratio + at % ratio, y * ratio + at / ratio))
                    .sum();
                let offsets = if plane == 1 {
                    &self.chroma1
                } else {
                    &self.chroma2
                };
                total == 4096 * (ratio * ratio) as i64 && offsets[y * self.chroma_pitch + x] == 0
            }
        }
    }

    /// The count of peel and unpeel: "exactly the in-plane pixels with gap at most 0 and texel not (1, 0)".
    pub fn layered(&self, plane: usize) -> u64 {
        let (width, height) = self.plane(plane);
        let written = |at: &usize| {
            let (x, y) = (at % width, at / width);
            self.distance(plane, x, y) <= 1 && !self.plain(plane, x, y)
        };
        (0..width * height).filter(written).count() as u64
    }
}

type Kind = fn(&mut Rng) -> i16;

/// Gains: as fitted, any, about the threshold of 0.2, mostly below it, two that average to 1.
fn gain_of_kind(rng: &mut Rng) -> Kind {
    rng.pick::<Kind>(&[
        |rng| match rng.below(4) {
            0 => 2252 + rng.below(600) as i16,
            _ => 4096,
        },
        |rng| rng.bits() as i16,
        |rng| rng.pick(&[819, 820, -819, -820, 818, 821, 0, 1, -1]),
        |rng| rng.pick(&[4096, 4095, 4097, -4096, 8192, i16::MAX, i16::MIN, 820, 0]),
        |rng| match rng.below(12) {
            0 => rng.bits() as i16,
            _ => rng.between(-819, 819) as i16,
        },
        |rng| rng.pick(&[2048, 6144, 4096, 4096]),
        |rng| rng.between(-200, 9000) as i16,
    ])
}

/// Offsets: none, small, any, at the ends.
fn offset_of_kind(rng: &mut Rng) -> Kind {
    rng.pick::<Kind>(&[
        |_| 0,
        |rng| rng.between(-200, 200) as i16 * i16::from(rng.once_in(3)),
        |rng| rng.between(-9000, 9000) as i16,
        |rng| rng.bits() as i16,
        |rng| rng.pick(&[0, 1, -1, 64, -64, 640, i16::MAX, i16::MIN]),
    ])
}

/// Distances: marked, near, at the reach of motion, any, negative.
fn distance_of_kind(rng: &mut Rng) -> Kind {
    rng.pick::<Kind>(&[
        |_| 0,
        |rng| rng.below(3) as i16,
        |rng| rng.below(8) as i16,
        |rng| rng.below(40) as i16,
        |rng| rng.pick(&[0, 1, 2, 3, 4, 255, -1, i16::MAX, i16::MIN]),
        |rng| rng.bits() as i16,
    ])
}
