use super::case::Case;
use super::expected::{exactly, plane_bytes, wrong_pitch, wrong_size, Length};
use super::inputs::{near, pitch, plane, plane_sizes};
use super::rng::Rng;
use crate::oracle;
use safeteal::ffi;

lent! {
    pub struct Mask {
        first: Vec<u8>,
        second: Vec<u8>,
        pitch: usize,
        width: usize,
        height: usize,
        limit: f32,
        edge: f32,
        tolerance: f32,
        still: Vec<u8>,
    }
}

impl Case for Mask {
    type Answer = u64;

    const NAME: &'static str = "mask";
    const NUMBERS: &'static [usize] = &[0, 1, 3, 4];
    const WRITTEN: &'static [&'static str] = &["still"];

    fn random(rng: &mut Rng) -> Self {
        let (width, height) = plane_sizes(rng, 20);
        let pitch = pitch(rng, width, height);
        let first = plane(rng, pitch, width, height);
        let second = near(rng, &first, first.len());
        Self {
            first,
            second,
            pitch,
            width,
            height,
            limit: setting(rng, 4.5 / 255.0),
            edge: setting(rng, 5.0 / 255.0),
            tolerance: setting(rng, 0.3),
            still: rng.bytes(width * height),
        }
    }

    fn lengths(&self) -> Vec<Length> {
        let plane = plane_bytes(self.pitch, self.width, self.height);
        vec![plane, plane, exactly(1, self.width, self.height)]
    }

    fn ours(&mut self) -> u64 {
        ffi::mask(
            &self.first,
            &self.second,
            self.pitch,
            self.width,
            self.height,
            self.limit,
            self.edge,
            self.tolerance,
            &mut self.still,
        )
    }

    fn refusal(&self) -> u64 {
        if wrong_size(self.width, self.height) {
            1
        } else if wrong_pitch(self.pitch, self.width) {
            3
        } else if self.misfits() {
            4
        } else {
            0
        }
    }

    fn theirs(&mut self) -> u64 {
        self.still = oracle::still::mask(
            &self.first,
            &self.second,
            self.pitch,
            self.width,
            self.height,
            [self.limit, self.edge, self.tolerance],
        );
        0
    }
}

/// A setting as usual, exactly at a byte's step, or any float.
fn setting(rng: &mut Rng, usual: f32) -> f32 {
    match rng.below(8) {
        0 => rng.below(40) as f32 / 255.0,
        1 => rng.any_float(),
        2 => rng.unit(),
        _ => usual,
    }
}
