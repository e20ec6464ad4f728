use super::case::Case;
use super::expected::{wrong_time, Length};
use super::inputs::{flat_sizes, sizes};
use super::motion::Motion;
use super::rng::Rng;
use super::unpeel::Unpeel;
use crate::oracle::layer as rust;

lent! {
    pub struct Render {
        // The same arguments as unpeel's, up to the time.
        [frames]: Unpeel<i16>,
        [motion]: Motion,
        algo: i32,
    }
}

impl Render {
    /// "Skips a pixel whose gap exceeds max(16, far+1), or its own max(16, reach+1)": the count of the others.
    fn not_skipped(&self) -> u64 {
        let (layer, plane) = (&self.frames.layer, self.frames.plane);
        let (width, height) = layer.plane(plane);
        let ratio = if plane == 0 { 1 } else { layer.ratio };
        let far = (self.motion.far() + 1.0).max(16.0);
        let near = |at: &usize| {
            let (x, y) = (at % width, at / width);
            let gap = f32::from(layer.distance(plane, x, y)) * 8.0 - 8.0;
            let reach = || self.motion.reach(x, y, ratio, self.frames.time);
            gap <= far && gap <= (reach() + 1.0).max(16.0)
        };
        (0..width * height).filter(near).count() as u64
    }
}

impl Case for Render {
    type Answer = u64;

    const NAME: &'static str = "render";
    const NUMBERS: &'static [usize] = &[0, 1, 2, 3, 4, 5, 6];
    const WRITTEN: &'static [&'static str] = &["output"];

    fn random(rng: &mut Rng) -> Self {
        let size = if rng.once_in(2) {
            flat_sizes(rng)
        } else {
            sizes(rng, 9)
        };
        Self {
            frames: Unpeel::sized(rng, size),
            motion: Motion::random(rng),
            algo: rng.pick(&[0, 0, 1, 1, 2, 2, 3, -1, 13, 21, i32::MIN, i32::MAX]),
        }
    }

    fn spoil(&mut self, rng: &mut Rng) {
        self.motion.stretch(rng);
    }

    fn lengths(&self) -> Vec<Length> {
        let mut lengths = self.frames.lengths();
        lengths.extend(self.motion.lengths());
        lengths
    }

    fn ours(&mut self) -> u64 {
        let (plane, motion) = (
            self.frames.plane,
            self.motion.lent(self.frames.layer.size(0)),
        );
        let (layer, mut output, frames) = self.frames.lent();
        layer.render(plane, &mut output, frames, &motion, self.algo)
    }

    fn refusal(&self) -> u64 {
        match self.frames.refusal_before_lengths() {
            0 if self.misfits() => 4,
            0 if self.motion.wrong() => 5,
            0 if wrong_time(self.frames.time) => 6,
            number => number,
        }
    }

    fn theirs(&mut self) -> u64 {
        let (plane, motion) = (
            self.frames.plane,
            self.motion.lent(self.frames.layer.size(0)),
        );
        let (layer, output, frames) = self.frames.lent();
        rust::Layer::from(layer).render(
            plane,
            output.data,
            output.pitch,
            &frames.into(),
            &motion.into(),
            self.algo,
        );
        self.not_skipped() * 256
    }
}

#[cfg(test)]
mod tests {
    use super::*;
    use crate::check::case::assert_count_is_of_written_bytes;

    #[test]
    fn the_count_is_that_of_the_bytes_the_rust_writes() {
        assert_count_is_of_written_bytes(|case: &mut Render| &mut case.frames.output);
    }
}
