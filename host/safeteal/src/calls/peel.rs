use super::whole::{over_planes, Counts};
use crate::answer::written;
use crate::groups::Form;
use crate::{Channel, Frame, LayerBuf, LayerOf, Plane, PlaneMut, Result};

impl<T: Form> LayerOf<'_, T> {
    /// Lifts the lettering off one plane; gives the count of pixels written.
    ///
    /// Written are the pixels in cells at distance 0 or 1 (or below) whose gain and offset are not (1, 0), each with
    /// what was under the lettering in `raw`. All other bytes of `output` stay: let it begin as a copy of `raw`.
    ///
    /// ```
    /// use safeteal::{Channel, Layer, LayerBytes, Plane, PlaneMut, Ratio, Size};
    ///
    /// // Gain 2 (8192 / 4096), offset 10 (640 / 64), in a cell at distance 1.
    /// let (luma, chroma, size) = ([8192, 640], [0, 1], Size::new(1, 1));
    /// let layer = Layer::new(&luma, [&chroma, &chroma], size, Ratio::One);
    /// let (mut output, raw) = ([0], Plane::new(&[110], size));
    /// let count = layer.peel(Channel::Luma, PlaneMut::new(&mut output, size), raw)?;
    /// assert_eq!((count, output), (1, [50]));
    ///
    /// // The same layer as bytes: 8192 is 0x2000, 640 is 0x0280.
    /// let (luma, chroma) = ([0x00, 0x20, 0x80, 0x02], [0, 0, 1, 0]);
    /// let layer = LayerBytes::new(&luma, [&chroma, &chroma], size, Ratio::One);
    /// let mut output = [0];
    /// assert_eq!(layer.peel(Channel::Luma, PlaneMut::new(&mut output, size), raw)?, 1);
    /// assert_eq!(output, [50]);
    /// # Ok::<(), safeteal::Error>(())
    /// ```
    ///
    /// The output is not the input: this does not compile.
    ///
    /// ```compile_fail,E0502
    /// # use safeteal::{Channel, Frame, LayerBuf};
    /// fn in_place(layer: &LayerBuf, frame: &mut Frame) -> Result<u64, safeteal::Error> {
    ///     let output = frame.plane_mut(Channel::Luma);
    ///     layer.layer().peel(Channel::Luma, output, frame[Channel::Luma].plane())
    /// }
    /// ```
    ///
    /// # Errors
    /// `Refusal::Size` (for planes of another size than the layer's as well), `Refusal::Ratio`, `Refusal::Pitch`,
    /// `Refusal::Length`.
    pub fn peel(&self, channel: Channel, output: PlaneMut<'_>, raw: Plane<'_>) -> Result<u64> {
        self.peel_plane(T::NAMES.peel, channel, output, raw)
    }

    /// Lifts the lettering off all planes of a frame, each as [`peel`](Self::peel) does.
    ///
    /// # Errors
    /// As [`peel`](Self::peel). Then no plane is changed.
    pub fn peel_frame(&self, output: &mut Frame, raw: &Frame) -> Result<Counts> {
        self.peel_planes(T::NAMES.peel_frame, output, raw)
    }

    /// A copy of the frame without its lettering.
    ///
    /// # Errors
    /// As [`peel`](Self::peel).
    pub fn peeled(&self, raw: &Frame) -> Result<(Frame, Counts)> {
        self.peeled_copy(T::NAMES.peeled, raw)
    }

    fn peel_plane(
        &self,
        call: &'static str,
        channel: Channel,
        output: PlaneMut<'_>,
        raw: Plane<'_>,
    ) -> Result<u64> {
        written(
            call,
            self,
            channel,
            output,
            &[("raw", raw.size)],
            |layer, plane, output| T::peel(layer, plane, output, raw),
            |search| search.plane(["the pitch of raw", "raw"], raw),
        )
    }

    fn peel_planes(&self, call: &'static str, output: &mut Frame, raw: &Frame) -> Result<Counts> {
        let lent = [("raw", raw)];
        over_planes(call, self, output, &lent, |channel, plane| {
            self.peel_plane(call, channel, plane, raw[channel].plane())
        })
    }

    fn peeled_copy(&self, call: &'static str, raw: &Frame) -> Result<(Frame, Counts)> {
        let mut output = raw.clone();
        let counts = self.peel_planes(call, &mut output, raw)?;
        Ok((output, counts))
    }
}

impl LayerBuf {
    /// Lifts the lettering off all planes of a frame; gives the counts of pixels written.
    ///
    /// Pixels without lettering stay in `output` as they are: let it begin as a copy of `raw`, or take
    /// [`peeled`](Self::peeled).
    ///
    /// ```
    /// use safeteal::{Channel, Frame, LayerBuf, Ratio, Size};
    ///
    /// // Gain 2, offset 10, and no offset in the chroma planes; a cell at distance 0.
    /// let size = Size::new(1, 1);
    /// let layer = LayerBuf::assemble(size, Ratio::One, &[2.0, 10.0, 0.0, 0.0], &[0])?;
    /// let raw = Frame::new(size, Ratio::One, [110, 60, 60])?;
    /// let (output, counts) = layer.peeled(&raw)?;
    /// assert_eq!(counts.luma, 1);
    /// assert_eq!((output[Channel::Luma].bytes(), output[Channel::Chroma2].bytes()), (&[50][..], &[30][..]));
    ///
    /// let large = Frame::new(Size::new(2, 2), Ratio::One, [110, 60, 60])?;
    /// let error = layer.peeled(&large).unwrap_err();
    /// assert_eq!(
    ///     error.to_string(),
    ///     "LayerBuf::peeled refused (1): `raw` is 2 by 2 at ratio 1, and the layer 1 by 1 at ratio 1"
    /// );
    /// # Ok::<(), safeteal::Error>(())
    /// ```
    ///
    /// # Errors
    /// `Refusal::Size` for frames of another size or ratio than the layer's. Then no plane is changed.
    pub fn peel(&self, output: &mut Frame, raw: &Frame) -> Result<Counts> {
        self.layer().peel_planes("LayerBuf::peel", output, raw)
    }

    /// A copy of the frame without its lettering; with the counts of pixels written.
    ///
    /// # Errors
    /// `Refusal::Size` for a frame of another size or ratio than the layer's.
    pub fn peeled(&self, raw: &Frame) -> Result<(Frame, Counts)> {
        self.layer().peeled_copy("LayerBuf::peeled", raw)
    }
}

#[cfg(test)]
mod tests {
    use super::*;
    use crate::layer::ONE_OF_GAIN_0;
    use crate::{Ratio, Refusal, Size};

    /// The byte and the count of a 1 by 1 peel of raw 110 over a byte of 7.
    fn over_7<T: Form>(luma: &[T], chroma: &[T]) -> Result<(u8, u64), Refusal> {
        let size = Size::new(1, 1);
        let layer = LayerOf::new(luma, [chroma, chroma], size, Ratio::One);
        let (mut output, raw) = ([7], Plane::new(&[110], size));
        let count = layer.peel(Channel::Luma, PlaneMut::new(&mut output, size), raw);
        let count = count.map_err(|error| error.refusal())?;
        Ok((output[0], count))
    }

    fn peeled(gain: i16, offset: i16, distance: i16) -> (u8, u64) {
        over_7(&[gain, offset], &[0, distance]).expect("a layer of 1 by 1")
    }

    /// Two numbers as bytes, and one left over.
    fn bytes(first: i16, second: i16) -> [u8; 5] {
        let [a, b] = first.to_le_bytes();
        let [c, d] = second.to_le_bytes();
        [a, b, c, d, 99]
    }

    #[test]
    fn p10_gain_2_offset_10() {
        assert_eq!(peeled(8192, 640, 1), (50, 1));
        assert_eq!(peeled(8192, 640, 2), (7, 0));
        assert_eq!(peeled(8192, 640, -5), (50, 1));
    }

    #[test]
    fn p11_a_gain_of_819_is_not_lifted() {
        assert_eq!(peeled(819, 0, 1), (110, 1));
        assert_eq!(peeled(-819, 0, 1), (110, 1));
    }

    #[test]
    fn p12_a_gain_of_820_is_lifted() {
        assert_eq!(peeled(820, 0, 1), (255, 1));
        assert_eq!(peeled(-820, 0, 1), (0, 1));
    }

    #[test]
    fn gain_1_offset_0_is_passed_over() {
        assert_eq!(peeled(4096, 0, 0), (7, 0));
    }

    /// Eight points held into the plane count again where they coincide: 40, and not 33.
    #[test]
    fn points_that_coincide_count_again() {
        let mut raw = [0; 16];
        raw[4] = 100;
        let (mut output, size) = ([0; 16], ONE_OF_GAIN_0.size);
        let plane = PlaneMut::new(&mut output, size);
        let count = ONE_OF_GAIN_0.peel(Channel::Luma, plane, Plane::new(&raw, size));
        assert_eq!(count, Ok(1));
        assert_eq!(output[0], 40);
    }

    #[test]
    fn p10_to_p12_from_bytes() {
        let peeled = |gain: i16, offset: i16, distance: i16| {
            over_7(&bytes(gain, offset), &bytes(0, distance))
        };
        assert_eq!(peeled(8192, 640, 1), Ok((50, 1)));
        assert_eq!(peeled(8192, 640, 2), Ok((7, 0)));
        assert_eq!(peeled(819, 0, 1), Ok((110, 1)));
        assert_eq!(peeled(820, 0, 1), Ok((255, 1)));
        assert_eq!(peeled(-820, 0, -1), Ok((0, 1)));
    }

    #[test]
    fn three_bytes_are_one_number() {
        assert_eq!(over_7(&[0_u8, 0, 0], &[0; 4]), Err(Refusal::Length));
    }
}
