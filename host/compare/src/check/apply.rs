use super::case::Case;
use super::inputs::{near, pitch, plane, plane_sizes, step, time};
use super::masked::Masked;
use super::rng::Rng;

lent! {
    pub struct Apply {
        output: Vec<u8>,
        output_pitch: usize,
        first: Vec<u8>,
        second: Vec<u8>,
        pitch: usize,
        width: usize,
        height: usize,
        still: Vec<u8>,
        still_width: usize,
        time: f32,
    }
}

impl Apply {
    fn masked(&self) -> Masked<3> {
        Masked {
            pitches: [self.output_pitch, self.pitch, self.pitch],
            mask: (self.still_width, self.still.len()),
            size: (self.width, self.height),
            time: self.time,
        }
    }

    /// Puts it to either side: both take the same arguments.
    pub fn put_to<R>(
        &mut self,
        apply: impl FnOnce(&mut [u8], usize, &[u8], &[u8], usize, usize, usize, &[u8], usize, f32) -> R,
    ) -> R {
        apply(
            &mut self.output,
            self.output_pitch,
            &self.first,
            &self.second,
            self.pitch,
            self.width,
            self.height,
            &self.still,
            self.still_width,
            self.time,
        )
    }
}

impl Case for Apply {
    const NAME: &'static str = "apply";
    const NUMBERS: &'static [usize] = &[0, 1, 2, 3, 4, 6];
    const WRITTEN: &'static [&'static str] = &["output"];

    fn random(rng: &mut Rng) -> Self {
        let (width, height) = plane_sizes(rng, 16);
        let (output_pitch, pitch) = (pitch(rng, width, height), pitch(rng, width, height));
        let output = plane(rng, output_pitch, width, height);
        let first = plane(rng, pitch, width, height);
        let second = near(rng, &first, first.len());
        let (across, down) = (step(rng), step(rng));
        let still_width = across * width;
        let length = still_width * height * down;
        Self {
            output,
            output_pitch,
            first,
            second,
            pitch,
            width,
            height,
            still: marks(rng, length),
            still_width,
            time: time(rng),
        }
    }

    masked!(apply, still_width);
}

/// What `mask` makes, thinner or denser; any bytes now and then.
fn marks(rng: &mut Rng, length: usize) -> Vec<u8> {
    let mut still = rng.bytes(length);
    if !rng.once_in(5) {
        let dense = rng.bits() as u8;
        still
            .iter_mut()
            .for_each(|byte| *byte = u8::from(*byte < dense));
    }
    still
}
