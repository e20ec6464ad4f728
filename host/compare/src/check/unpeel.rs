use super::case::Case;
use super::expected::{wrong_pitch, wrong_time, Length};
use super::inputs::{near, pitch, plane, sizes, time};
use super::layer::{Layer, Number};
use super::rng::Rng;
use crate::oracle::layer as rust;
use safeteal::groups::LentLayer;
use safeteal::{Frames, Plane, PlaneMut};

lent! {
    pub struct Unpeel<T: Number> {
        [layer]: Layer<T>,
        plane: usize,
        output: Vec<u8>,
        output_pitch: usize,
        first: Vec<u8>,
        first_pitch: usize,
        second: Vec<u8>,
        second_pitch: usize,
        time: f32,
    }
}

impl<T: Number> Unpeel<T> {
    /// A good input of these sizes and this ratio.
    pub fn sized(rng: &mut Rng, size: (usize, usize, usize)) -> Self {
        let layer = Layer::random(rng, size);
        let number = rng.below(3);
        let (width, height) = layer.plane(number);
        let output_pitch = pitch(rng, width, height);
        let first_pitch = pitch(rng, width, height);
        // One pitch for both frames half of the time, so that their bytes are near each other.
        let (one, another) = (rng.once_in(2), pitch(rng, width, height));
        let second_pitch = if one { first_pitch } else { another };
        let first = plane(rng, first_pitch, width, height);
        let second = near(rng, &first, (height - 1) * second_pitch + width);
        let (output, time) = (plane(rng, output_pitch, width, height), time(rng));
        Self {
            layer: T::layer(layer, rng),
            plane: number,
            output,
            output_pitch,
            first,
            first_pitch,
            second,
            second_pitch,
            time,
        }
    }

    /// Rows 1 to 3.
    pub fn refusal_before_lengths(&self) -> u64 {
        let row = self.layer.plane(self.plane).0;
        let pitches = [self.output_pitch, self.first_pitch, self.second_pitch];
        let wrong = || pitches.into_iter().any(|pitch| wrong_pitch(pitch, row));
        match self.layer.refusal(self.plane) {
            0 if self.layer.wrong_pitches() || wrong() => 3,
            number => number,
        }
    }

    pub fn lent(&mut self) -> (LentLayer<'_, T>, PlaneMut<'_>, Frames<'_>) {
        let size = self.layer.size(self.plane);
        let output = PlaneMut::pitched(&mut self.output, size, self.output_pitch);
        let frames = Frames {
            first: Plane::pitched(&self.first, size, self.first_pitch),
            second: Plane::pitched(&self.second, size, self.second_pitch),
            time: self.time,
        };
        (self.layer.lent(), output, frames)
    }
}

impl<T: Number> Case for Unpeel<T> {
    type Answer = u64;

    const NAME: &'static str = T::UNPEEL;
    const NUMBERS: &'static [usize] = &[0, 1, 2, 3, 4, 6];
    const WRITTEN: &'static [&'static str] = &["output"];

    fn random(rng: &mut Rng) -> Self {
        let size = sizes(rng, 16);
        Self::sized(rng, size)
    }

    fn lengths(&self) -> Vec<Length> {
        let [luma, chroma1, chroma2] = self.layer.lengths();
        let pitches = [self.output_pitch, self.first_pitch, self.second_pitch];
        let [output, first, second] = pitches.map(|pitch| self.layer.bytes(self.plane, pitch));
        vec![luma, chroma1, chroma2, output, first, second]
    }

    fn ours(&mut self) -> u64 {
        let plane = self.plane;
        let (layer, mut output, frames) = self.lent();
        T::unpeel(&layer, plane, &mut output, frames)
    }

    fn refusal(&self) -> u64 {
        match self.refusal_before_lengths() {
            0 if self.misfits() => 4,
            0 if wrong_time(self.time) => 6,
            number => number,
        }
    }

    fn theirs(&mut self) -> u64 {
        let (plane, numbers) = (self.plane, T::numbers(&self.layer));
        let (_, output, frames) = self.lent();
        let layer = rust::Layer::from(numbers.lent());
        layer.unpeel(plane, output.data, output.pitch, &frames.into());
        numbers.layered(plane) * 256
    }
}
