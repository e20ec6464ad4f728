use super::whole::{over_planes, Counts};
use crate::answer::written;
use crate::{Channel, Error, Frame, Frames, Layer, LayerBuf, Motion, PlaneMut, Result};

impl Layer<'_> {
    /// For `algo` of [`render`](Self::render): neither frame is preferred. Any number but 1 and 2 says so.
    pub const MEDIAN: i32 = 0;

    /// For `algo` of [`render`](Self::render): the second frame is preferred.
    pub const SECOND: i32 = 1;

    /// For `algo` of [`render`](Self::render): the first frame is preferred.
    pub const FIRST: i32 = 2;

    /// Makes one plane of an in-between frame under and near the lettering; gives the count of pixels written.
    ///
    /// Pixels farther from lettering than any motion reaches stay as they are. `algo` 1 ([`Layer::SECOND`]) prefers the
    /// second frame, 2 ([`Layer::FIRST`]) the first, any other number ([`Layer::MEDIAN`]) takes the median.
    ///
    /// ```
    /// use safeteal::{Channel, Frames, Layer, MotionBuf, Plane, PlaneMut, Ratio, Size};
    ///
    /// let (luma, chroma, size) = ([4096, 0], [0, 3], Size::new(1, 1));
    /// let layer = Layer::new(&luma, [&chroma, &chroma], size, Ratio::One);
    /// let motion = MotionBuf::still(size)?;
    /// let (first, second) = (Plane::new(&[10], size), Plane::new(&[30], size));
    /// let frames = Frames { first, second, time: 0.5 };
    /// let mut output = [0];
    /// let plane = PlaneMut::new(&mut output, size);
    /// let count = layer.render(Channel::Luma, plane, frames, &motion.motion(), Layer::MEDIAN)?;
    /// assert_eq!((count, output), (1, [20]));
    /// # Ok::<(), safeteal::Error>(())
    /// ```
    ///
    /// # Errors
    /// `Refusal::Size` (for planes and a motion of another size than the layer's as well), `Refusal::Ratio`,
    /// `Refusal::Pitch`, `Refusal::Length`, `Refusal::Motion`, `Refusal::Setting` for the time.
    pub fn render(
        &self,
        channel: Channel,
        output: PlaneMut<'_>,
        frames: Frames<'_>,
        motion: &Motion<'_>,
        algo: i32,
    ) -> Result<u64> {
        self.render_plane("Layer::render", channel, output, frames, motion, algo)
    }

    /// Makes all planes of an in-between frame under and near the lettering, each as [`render`](Self::render) does:
    /// `time` is 0 at the first frame, 1 at the second.
    ///
    /// # Errors
    /// As [`render`](Self::render). Then no plane is changed.
    pub fn render_frame(
        &self,
        output: &mut Frame,
        first: &Frame,
        second: &Frame,
        motion: &Motion<'_>,
        time: f32,
        algo: i32,
    ) -> Result<Counts> {
        let frames = [first, second];
        self.render_planes("Layer::render_frame", output, frames, motion, time, algo)
    }

    fn render_plane(
        &self,
        call: &'static str,
        channel: Channel,
        output: PlaneMut<'_>,
        frames: Frames<'_>,
        motion: &Motion<'_>,
        algo: i32,
    ) -> Result<u64> {
        if self.size.is_taken(self.ratio.number()) {
            Error::of_sizes(call, |search| {
                search.over(motion, "the layer's luma", self.size)
            })?;
        }
        written(
            call,
            self,
            channel,
            output,
            &frames.sizes(),
            |layer, plane, output| layer.render(plane, output, frames, motion, algo),
            |search| search.frames(&frames).motion(motion),
        )
    }

    fn render_planes(
        &self,
        call: &'static str,
        output: &mut Frame,
        [first, second]: [&Frame; 2],
        motion: &Motion<'_>,
        time: f32,
        algo: i32,
    ) -> Result<Counts> {
        let lent = [("first", first), ("second", second)];
        over_planes(call, self, output, &lent, |channel, plane| {
            let frames = Frames::between(channel, first, second, time);
            self.render_plane(call, channel, plane, frames, motion, algo)
        })
    }
}

impl LayerBuf {
    /// Makes all planes of an in-between frame under and near the lettering; gives the counts of pixels written.
    ///
    /// Pixels farther from lettering than any motion reaches stay in `output` as they are. `first` and `second` are the
    /// two frames as they came, `time` is 0 at the first, 1 at the second; `algo` is as in [`Layer::render`].
    ///
    /// ```
    /// use safeteal::{Channel, Frame, Layer, LayerBuf, MotionBuf, Ratio, Size};
    ///
    /// let size = Size::new(1, 1);
    /// let layer = LayerBuf::assemble(size, Ratio::One, &[1.0, 0.0, 0.0, 0.0], &[3])?;
    /// let frame = |luma: u8| Frame::new(size, Ratio::One, [luma, 128, 128]);
    /// let (mut output, first, second) = (frame(0)?, frame(10)?, frame(30)?);
    /// let motion = MotionBuf::still(size)?;
    /// let counts = layer.render(&mut output, &first, &second, &motion.motion(), 0.5, Layer::MEDIAN)?;
    /// assert_eq!((counts.total(), output[Channel::Luma].bytes()), (3, &[20][..]));
    /// # Ok::<(), safeteal::Error>(())
    /// ```
    ///
    /// # Errors
    /// `Refusal::Size` for frames or a motion of another size or ratio than the layer's, `Refusal::Motion`,
    /// `Refusal::Setting` for the time. Then no plane is changed.
    pub fn render(
        &self,
        output: &mut Frame,
        first: &Frame,
        second: &Frame,
        motion: &Motion<'_>,
        time: f32,
        algo: i32,
    ) -> Result<Counts> {
        let (layer, frames) = (self.layer(), [first, second]);
        layer.render_planes("LayerBuf::render", output, frames, motion, time, algo)
    }
}

#[cfg(test)]
mod tests {
    use super::*;
    use crate::layer::ONE_OF_GAIN_0;
    use crate::{MotionBuf, Plane};

    /// A filled mean counts as lifted: the first frame's 40 wins over the second's 200.
    #[test]
    fn a_filled_mean_is_lifted() {
        let mut first = [0; 16];
        first[4] = 100;
        let second = [200; 16];
        let size = ONE_OF_GAIN_0.size;
        let frames = Frames {
            first: Plane::new(&first, size),
            second: Plane::new(&second, size),
            time: 0.5,
        };
        let still = MotionBuf::still(size).expect("one block");
        let motion = Motion {
            backward: (&[1022], &[1024]),
            ..still.motion()
        };
        let mut output = [0; 16];
        let plane = PlaneMut::new(&mut output, size);
        let count = ONE_OF_GAIN_0.render(Channel::Luma, plane, frames, &motion, Layer::FIRST);
        assert_eq!(count, Ok(16));
        assert_eq!(output[1], 40);
    }
}
