//! Slices that calls are lent: the sums of a part, and what a fit writes.

use super::scene::RATIO;
use crate::oracle::layer as rust;
use safeteal::{LayerMut, Part, Size, Slot, Work};

/// What a slice holds that a call is to write over.
const SPOILT: i16 = 7;

/// The sums of a part.
#[derive(Clone, PartialEq)]
pub struct Sums {
    luma: Vec<f32>,
    chroma: [Vec<f32>; 2],
}

impl Sums {
    pub fn new(size: Size) -> Self {
        let half = (size.width / RATIO) * (size.height / RATIO);
        Self {
            luma: vec![0.0; 6 * size.width * size.height],
            chroma: [vec![0.0; 2 * half], vec![0.0; 2 * half]],
        }
    }

    pub fn slot(&mut self) -> Slot<'_> {
        let [chroma1, chroma2] = &mut self.chroma;
        Slot {
            luma: &mut self.luma,
            chroma: [chroma1, chroma2],
        }
    }

    pub fn part(&self, pairs: usize) -> Part<'_> {
        let [chroma1, chroma2] = &self.chroma;
        Part {
            luma: &self.luma,
            chroma: [chroma1, chroma2],
            pairs,
        }
    }

    pub fn spoil(&mut self) {
        self.luma.fill(SPOILT.into());
        self.chroma
            .iter_mut()
            .for_each(|plane| plane.fill(SPOILT.into()));
    }

    /// Whether these are the Rust's.
    pub fn are(&self, rust: &rust::Stats) -> bool {
        let chroma = rust.chroma();
        self.luma == rust.luma().as_flattened()
            && self.chroma[0] == chroma[0].as_flattened()
            && self.chroma[1] == chroma[1].as_flattened()
    }
}

/// The work slices of a fit, and its layer.
pub struct Fitting {
    models: Vec<f32>,
    kept: Vec<u8>,
    cover: Vec<u8>,
    luma: Vec<i16>,
    chroma: [Vec<i16>; 2],
}

impl Fitting {
    pub fn new(size: Size) -> Self {
        let pixels = size.width * size.height;
        let chroma = vec![0; 2 * (size.width / RATIO) * (size.height / RATIO)];
        Self {
            models: vec![0.0; 4 * pixels],
            kept: vec![0; pixels],
            cover: vec![0; size.cells()],
            luma: vec![0; 2 * pixels],
            chroma: [chroma.clone(), chroma],
        }
    }

    pub fn lent(&mut self) -> (Work<'_>, LayerMut<'_>) {
        let work = Work {
            models: &mut self.models,
            kept: &mut self.kept,
            cover: &mut self.cover,
        };
        let [chroma1, chroma2] = &mut self.chroma;
        let layer = LayerMut {
            luma: &mut self.luma,
            chroma: [chroma1, chroma2],
        };
        (work, layer)
    }

    /// Whether the layer is the Rust's.
    pub fn is(&self, rust: &rust::Fit) -> bool {
        self.luma == rust.luma && self.chroma == rust.chroma
    }

    pub fn spoil(&mut self) {
        self.luma.fill(SPOILT);
        self.chroma.iter_mut().for_each(|plane| plane.fill(SPOILT));
    }

    /// The layer that was made.
    pub fn layer(&self) -> (Vec<i16>, [Vec<i16>; 2]) {
        (self.luma.clone(), self.chroma.clone())
    }
}
