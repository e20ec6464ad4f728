use super::whole::{over_planes, Counts};
use crate::answer::written;
use crate::groups::Form;
use crate::{Channel, Frame, Frames, LayerBuf, LayerOf, PlaneMut, Result};

impl<T: Form> LayerOf<'_, T> {
    /// Lays the lettering back onto one plane of a frame made in between; gives the count of pixels written.
    ///
    /// Written are the pixels that [`peel`](Self::peel) writes. `output` holds the frame without lettering, `frames`
    /// the two frames as they came.
    ///
    /// ```
    /// use safeteal::{Channel, Frames, Layer, LayerBytes, Plane, PlaneMut, Ratio, Size};
    ///
    /// let size = Size::new(1, 1);
    /// let (first, second) = (Plane::new(&[110], size), Plane::new(&[100], size));
    /// let frames = Frames { first, second, time: 0.5 };
    ///
    /// let (luma, chroma) = ([8192, 640], [0, 1]);
    /// let layer = Layer::new(&luma, [&chroma, &chroma], size, Ratio::One);
    /// let mut output = [40];
    /// assert_eq!(layer.unpeel(Channel::Luma, PlaneMut::new(&mut output, size), frames)?, 1);
    /// assert_eq!(output, [100]);
    ///
    /// // The same layer as bytes.
    /// let (luma, chroma) = ([0x00, 0x20, 0x80, 0x02], [0, 0, 1, 0]);
    /// let layer = LayerBytes::new(&luma, [&chroma, &chroma], size, Ratio::One);
    /// output = [40];
    /// assert_eq!(layer.unpeel(Channel::Luma, PlaneMut::new(&mut output, size), frames)?, 1);
    /// assert_eq!(output, [100]);
    /// # Ok::<(), safeteal::Error>(())
    /// ```
    ///
    /// # Errors
    /// `Refusal::Size` (for planes of another size than the layer's as well), `Refusal::Ratio`, `Refusal::Pitch`,
    /// `Refusal::Length`, `Refusal::Setting` for the time.
    pub fn unpeel(
        &self,
        channel: Channel,
        output: PlaneMut<'_>,
        frames: Frames<'_>,
    ) -> Result<u64> {
        self.unpeel_plane(T::NAMES.unpeel, channel, output, frames)
    }

    /// Lays the lettering back onto all planes of a frame, each as [`unpeel`](Self::unpeel) does: `time` is 0 at the
    /// first frame, 1 at the second.
    ///
    /// # Errors
    /// As [`unpeel`](Self::unpeel). Then no plane is changed.
    pub fn unpeel_frame(
        &self,
        output: &mut Frame,
        first: &Frame,
        second: &Frame,
        time: f32,
    ) -> Result<Counts> {
        self.unpeel_planes(T::NAMES.unpeel_frame, output, [first, second], time)
    }

    fn unpeel_plane(
        &self,
        call: &'static str,
        channel: Channel,
        output: PlaneMut<'_>,
        frames: Frames<'_>,
    ) -> Result<u64> {
        written(
            call,
            self,
            channel,
            output,
            &frames.sizes(),
            |layer, plane, output| T::unpeel(layer, plane, output, frames),
            |search| search.frames(&frames),
        )
    }

    fn unpeel_planes(
        &self,
        call: &'static str,
        output: &mut Frame,
        [first, second]: [&Frame; 2],
        time: f32,
    ) -> Result<Counts> {
        let lent = [("first", first), ("second", second)];
        over_planes(call, self, output, &lent, |channel, plane| {
            let frames = Frames::between(channel, first, second, time);
            self.unpeel_plane(call, channel, plane, frames)
        })
    }
}

impl LayerBuf {
    /// Lays the lettering back onto all planes of a frame made in between; gives the counts of pixels written.
    ///
    /// `output` holds the frame without lettering, `first` and `second` are the two frames as they came; `time` is 0 at
    /// the first, 1 at the second.
    ///
    /// ```
    /// use safeteal::{Channel, Frame, LayerBuf, Ratio, Size};
    ///
    /// let size = Size::new(1, 1);
    /// let layer = LayerBuf::assemble(size, Ratio::One, &[2.0, 10.0, 0.0, 0.0], &[0])?;
    /// let frame = |luma: u8| Frame::new(size, Ratio::One, [luma, 128, 128]);
    /// let (mut output, first, second) = (frame(40)?, frame(110)?, frame(100)?);
    /// let counts = layer.unpeel(&mut output, &first, &second, 0.5)?;
    /// assert_eq!((counts.luma, output[Channel::Luma].bytes()), (1, &[100][..]));
    /// # Ok::<(), safeteal::Error>(())
    /// ```
    ///
    /// # Errors
    /// `Refusal::Size` for frames of another size or ratio than the layer's, `Refusal::Setting` for the time. Then no
    /// plane is changed.
    pub fn unpeel(
        &self,
        output: &mut Frame,
        first: &Frame,
        second: &Frame,
        time: f32,
    ) -> Result<Counts> {
        let layer = self.layer();
        layer.unpeel_planes("LayerBuf::unpeel", output, [first, second], time)
    }
}

#[cfg(test)]
mod tests {
    use super::*;
    use crate::{Plane, Ratio, Refusal, Size};

    /// The byte and the count of a 1 by 1 unpeel over 40.
    fn over_40<T: Form>(
        luma: &[T],
        chroma: &[T],
        [first, second]: [u8; 2],
        time: f32,
    ) -> Result<(u8, u64), Refusal> {
        let size = Size::new(1, 1);
        let layer = LayerOf::new(luma, [chroma, chroma], size, Ratio::One);
        let (mut output, first, second) = ([40], [first], [second]);
        let frames = Frames {
            first: Plane::new(&first, size),
            second: Plane::new(&second, size),
            time,
        };
        let count = layer.unpeel(Channel::Luma, PlaneMut::new(&mut output, size), frames);
        let count = count.map_err(|error| error.refusal())?;
        Ok((output[0], count))
    }

    /// With the layer of P10.
    fn unpeeled(first: u8, second: u8, time: f32) -> Result<(u8, u64), Refusal> {
        over_40(&[8192_i16, 640], &[0, 1], [first, second], time)
    }

    /// With the layer of P10 as bytes, at time 0.5.
    fn unpeeled_by_bytes(first: u8, second: u8) -> Result<(u8, u64), Refusal> {
        let luma: [u8; 5] = [0x00, 0x20, 0x80, 0x02, 99];
        over_40(&luma, &[0, 0, 1, 0], [first, second], 0.5)
    }

    #[test]
    fn p13_the_median_is_laid_back() {
        assert_eq!(unpeeled(110, 100, 0.5), Ok((100, 1)));
    }

    #[test]
    fn p14_near_bytes_are_mixed() {
        assert_eq!(unpeeled(110, 108, 0.5), Ok((109, 1)));
    }

    #[test]
    fn time_is_0_to_1() {
        assert_eq!(unpeeled(110, 108, -0.0), Ok((110, 1)));
        assert_eq!(unpeeled(110, 108, 1.5), Err(Refusal::Setting));
        assert_eq!(unpeeled(110, 108, f32::NAN), Err(Refusal::Setting));
    }

    #[test]
    fn p13_and_p14_from_bytes() {
        assert_eq!(unpeeled_by_bytes(110, 100), Ok((100, 1)));
        assert_eq!(unpeeled_by_bytes(110, 108), Ok((109, 1)));
    }
}
