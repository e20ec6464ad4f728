use super::case::Case;
use super::inputs::{bytes, pitch, plane, plane_sizes, step};
use super::masked::Masked;
use super::rng::Rng;

lent! {
    pub struct Hold {
        output: Vec<u8>,
        output_pitch: usize,
        held: Vec<u8>,
        held_pitch: usize,
        width: usize,
        height: usize,
        mask: Vec<u8>,
        mask_width: usize,
    }
}

impl Hold {
    fn masked(&self) -> Masked<2> {
        Masked {
            pitches: [self.output_pitch, self.held_pitch],
            mask: (self.mask_width, self.mask.len()),
            size: (self.width, self.height),
            time: 0.0,
        }
    }

    /// Puts it to either side: both take the same arguments.
    pub fn put_to<R>(
        &mut self,
        hold: impl FnOnce(&mut [u8], usize, &[u8], usize, usize, usize, &[u8], usize) -> R,
    ) -> R {
        hold(
            &mut self.output,
            self.output_pitch,
            &self.held,
            self.held_pitch,
            self.width,
            self.height,
            &self.mask,
            self.mask_width,
        )
    }
}

impl Case for Hold {
    const NAME: &'static str = "hold";
    const NUMBERS: &'static [usize] = &[0, 1, 2, 3, 4];
    const WRITTEN: &'static [&'static str] = &["output"];

    fn random(rng: &mut Rng) -> Self {
        let (width, height) = plane_sizes(rng, 16);
        let (output_pitch, held_pitch) = (pitch(rng, width, height), pitch(rng, width, height));
        let mask_width = step(rng) * width;
        let length = mask_width * height * step(rng);
        Self {
            output: plane(rng, output_pitch, width, height),
            output_pitch,
            held: plane(rng, held_pitch, width, height),
            held_pitch,
            width,
            height,
            mask: weights(rng, length),
            mask_width,
        }
    }

    masked!(hold, mask_width);
}

/// Weights with many full ones, or any bytes.
fn weights(rng: &mut Rng, length: usize) -> Vec<u8> {
    let mut mask = bytes(rng, length);
    if rng.once_in(2) {
        let dense = rng.bits() as u8;
        for byte in &mut mask {
            *byte = if *byte <= dense { 255 } else { *byte };
        }
    }
    mask
}
