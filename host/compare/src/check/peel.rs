use super::case::Case;
use super::expected::{wrong_pitch, Length};
use super::inputs::{pitch, plane, sizes};
use super::layer::{Layer, Number};
use super::rng::Rng;
use crate::oracle::layer as rust;
use safeteal::groups::LentLayer;
use safeteal::{Plane, PlaneMut};

lent! {
    pub struct Peel<T: Number> {
        [layer]: Layer<T>,
        plane: usize,
        output: Vec<u8>,
        output_pitch: usize,
        raw: Vec<u8>,
        raw_pitch: usize,
    }
}

impl<T: Number> Peel<T> {
    pub fn lent(&mut self) -> (LentLayer<'_, T>, PlaneMut<'_>, Plane<'_>) {
        let size = self.layer.size(self.plane);
        let output = PlaneMut::pitched(&mut self.output, size, self.output_pitch);
        let raw = Plane::pitched(&self.raw, size, self.raw_pitch);
        (self.layer.lent(), output, raw)
    }
}

impl<T: Number> Case for Peel<T> {
    type Answer = u64;

    const NAME: &'static str = T::PEEL;
    const NUMBERS: &'static [usize] = &[0, 1, 2, 3, 4];
    const WRITTEN: &'static [&'static str] = &["output"];

    fn random(rng: &mut Rng) -> Self {
        let size = sizes(rng, 16);
        let layer = Layer::random(rng, size);
        let number = rng.below(3);
        let (width, height) = layer.plane(number);
        let (output_pitch, raw_pitch) = (pitch(rng, width, height), pitch(rng, width, height));
        let output = plane(rng, output_pitch, width, height);
        let raw = plane(rng, raw_pitch, width, height);
        Self {
            layer: T::layer(layer, rng),
            plane: number,
            output,
            output_pitch,
            raw,
            raw_pitch,
        }
    }

    fn lengths(&self) -> Vec<Length> {
        let [luma, chroma1, chroma2] = self.layer.lengths();
        let output = self.layer.bytes(self.plane, self.output_pitch);
        let raw = self.layer.bytes(self.plane, self.raw_pitch);
        vec![luma, chroma1, chroma2, output, raw]
    }

    fn ours(&mut self) -> u64 {
        let plane = self.plane;
        let (layer, mut output, raw) = self.lent();
        T::peel(&layer, plane, &mut output, raw)
    }

    fn refusal(&self) -> u64 {
        let row = self.layer.plane(self.plane).0;
        match self.layer.refusal(self.plane) {
            0 if self.layer.wrong_pitches()
                || wrong_pitch(self.output_pitch, row)
                || wrong_pitch(self.raw_pitch, row) =>
            {
                3
            }
            0 if self.misfits() => 4,
            number => number,
        }
    }

    fn theirs(&mut self) -> u64 {
        let (plane, numbers) = (self.plane, T::numbers(&self.layer));
        let (_, output, raw) = self.lent();
        let layer = rust::Layer::from(numbers.lent());
        layer.peel(plane, output.data, output.pitch, raw.into());
        numbers.layered(plane) * 256
    }
}

#[cfg(test)]
mod tests {
    use super::*;
    use crate::check::case::assert_count_is_of_written_bytes;

    #[test]
    fn the_count_is_that_of_the_bytes_the_rust_writes() {
        assert_count_is_of_written_bytes(|case: &mut Peel<i16>| &mut case.output);
    }
}
