use super::case::Case;
use super::casts;
use super::expected::{cover_bytes, exactly, over, wrong_ratio, wrong_size, Length};
use super::inputs::sizes;
use super::rng::Rng;
use super::totals::{settle, Entries, Summed};
use crate::oracle::layer as rust;
use safeteal::ffi;

lent! {
    pub struct Assemble {
        width: usize,
        height: usize,
        ratio: usize,
        models: Vec<f32>,
        cover: Vec<u8>,
        luma: Vec<i16>,
        chroma1: Vec<i16>,
        chroma2: Vec<i16>,
    }
}

impl Case for Assemble {
    type Answer = u64;

    const NAME: &'static str = "assemble";
    const NUMBERS: &'static [usize] = &[0, 1, 2, 4];
    const WRITTEN: &'static [&'static str] = &["luma", "chroma1", "chroma2"];

    fn random(rng: &mut Rng) -> Self {
        let (width, height, ratio) = sizes(rng, 16);
        let half = 2 * (width / ratio) * (height / ratio);
        let (value, garbage) = (value_of_kind(rng), rng.bits() as i16);
        let mut models: Vec<f32> = (0..4 * width * height).map(|_| value(rng)).collect();
        if rng.once_in(3) {
            casts::models(rng, &mut models, width, ratio);
        }
        Self {
            width,
            height,
            ratio,
            models,
            cover: rng.bytes(width.div_ceil(8) * height.div_ceil(8)),
            luma: vec![garbage; 2 * width * height],
            chroma1: vec![garbage; half],
            chroma2: vec![garbage; half],
        }
    }

    fn lengths(&self) -> Vec<Length> {
        let (width, height) = (self.width, self.height);
        let chroma = exactly(2, over(width, self.ratio), over(height, self.ratio));
        let (models, luma) = (exactly(4, width, height), exactly(2, width, height));
        vec![models, cover_bytes(width, height), luma, chroma, chroma]
    }

    fn ours(&mut self) -> u64 {
        ffi::assemble(
            self.width,
            self.height,
            self.ratio,
            &self.models,
            &self.cover,
            &mut self.luma,
            &mut self.chroma1,
            &mut self.chroma2,
        )
    }

    fn refusal(&self) -> u64 {
        if wrong_size(self.width, self.height) {
            1
        } else if wrong_ratio(self.ratio, self.width, self.height) {
            2
        } else if self.misfits() {
            4
        } else {
            0
        }
    }

    fn theirs(&mut self) -> u64 {
        self.tallied().0
    }

    fn tallied(&mut self) -> (u64, Entries) {
        settle(self)
    }
}

impl Summed for Assemble {
    fn rust(&self) -> rust::Fit {
        let models = self.models.chunks_exact(4);
        let models: Vec<_> = models.map(|m| (m[0], m[1], [m[2], m[3]])).collect();
        let size = (self.width, self.height);
        rust::assemble(size, self.ratio, |at| models[at], &self.cover)
    }

    fn offsets(&self) -> [Vec<f32>; 2] {
        [2, 3].map(|at| self.models.chunks_exact(4).map(|model| model[at]).collect())
    }

    fn across(&self) -> (usize, usize) {
        (self.width, self.ratio)
    }

    fn layer(&mut self) -> [&mut Vec<i16>; 3] {
        [&mut self.luma, &mut self.chroma1, &mut self.chroma2]
    }
}

/// Models as fitted, about the ends of what is stored, about the ends of a total, halves of a step, any floats.
fn value_of_kind(rng: &mut Rng) -> fn(&mut Rng) -> f32 {
    let kinds: [fn(&mut Rng) -> f32; 6] = [
        |rng| rng.between(-200, 200) as f32 / 64.0,
        |rng| {
            rng.pick(&[
                0.0, -0.0, 1.0, 8.0, -8.0, 7.9998, 512.0, -512.0, 511.99, 1e-3,
            ])
        },
        |rng| rng.between(-600, 600) as f32 + rng.unit(),
        |rng| (rng.between(-70_000, 70_000) as f32 + 0.5) / 64.0,
        |rng| (rng.between(-33_000, 33_000) as f32 + 0.5) / 4096.0,
        Rng::any_float,
    ];
    rng.pick(&kinds)
}
