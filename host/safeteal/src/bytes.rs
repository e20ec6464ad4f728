//! A layer with slices of its own: to and from little-endian bytes, and from any layer that is lent.

use crate::error::Why;
use crate::groups::Form;
use crate::texels::place;
use crate::{Channel, Error, LayerBuf, LayerOf, Ratio, Refusal, Result, Size};

impl LayerBuf {
    /// The three slices as little-endian bytes, two for each number: luma, then the two of chroma. That is what
    /// [`LayerBytes`](crate::LayerBytes) reads. To keep a layer in a file, or to send it, make a
    /// [parcel](Self::to_parcel) of it, which tells its size and ratio itself.
    ///
    /// ```
    /// use safeteal::{LayerBuf, LayerBytes, Ratio, Refusal, Size};
    ///
    /// let size = Size::new(1, 1);
    /// let layer = LayerBuf::assemble(size, Ratio::One, &[2.0, 10.0, 0.0, 0.0], &[1])?;
    /// let [luma, chroma1, chroma2] = layer.to_le_bytes();
    /// // Gain 2 is 8192 or 0x2000, offset 10 is 640 or 0x0280.
    /// assert_eq!(luma, [0x00, 0x20, 0x80, 0x02]);
    ///
    /// let lent = LayerBytes::new(&luma, [&chroma1, &chroma2], size, Ratio::One);
    /// assert!(lent.is_layered(0, 0));
    /// assert_eq!(LayerBuf::from_le_bytes([&luma, &chroma1, &chroma2], size, Ratio::One)?, layer);
    ///
    /// let error = LayerBuf::from_le_bytes([&luma[1..], &chroma1, &chroma2], size, Ratio::One).unwrap_err();
    /// assert_eq!(error.refusal(), Refusal::Length);
    /// # Ok::<(), safeteal::Error>(())
    /// ```
    #[must_use]
    pub fn to_le_bytes(&self) -> [Vec<u8>; 3] {
        let layer = self.layer();
        let bytes = |slice: &[i16]| {
            slice
                .iter()
                .flat_map(|number| number.to_le_bytes())
                .collect()
        };
        [layer.luma, layer.chroma[0], layer.chroma[1]].map(bytes)
    }

    /// The layer whose [`to_le_bytes`](Self::to_le_bytes) these slices are: luma, then the two of chroma.
    ///
    /// The lengths are exact here, since a layer of another size or ratio has others. [`LayerOf::to_buf`] takes all
    /// that the calls take: longer slices, rows with padding, a byte left over.
    ///
    /// # Errors
    /// `Refusal::Size`, `Refusal::Ratio`; `Refusal::Length` for a slice that has not exactly two bytes for each number.
    pub fn from_le_bytes(slices: [&[u8]; 3], size: Size, ratio: Ratio) -> Result<Self> {
        let call = "LayerBuf::from_le_bytes";
        size.pixels_of(ratio, call)?;
        let chroma = Why::Bytes(size.plane(Channel::Chroma1, ratio));
        let [luma, chroma1, chroma2] = slices.map(<[u8]>::len);
        Error::first(call, &[Refusal::Length], |search| {
            search
                .exactly("luma", luma, Why::Bytes(size))
                .exactly("chroma1", chroma1, chroma)
                .exactly("chroma2", chroma2, chroma)
        })?;
        let [luma, chroma1, chroma2] = slices;
        LayerOf::new(luma, [chroma1, chroma2], size, ratio).to_buf()
    }
}

impl<T: Form> LayerOf<'_, T> {
    /// A copy with slices of its own, without padding: the layer as the calls read it.
    ///
    /// ```
    /// use safeteal::{Layer, Ratio, Size};
    ///
    /// // Rows of two numbers, three from one row's start to the next.
    /// let luma = [1, 2, 0, 3, 4, 0, 5, 6, 0, 7, 8, 0];
    /// let chroma = [1, 0, 2, 0];
    /// let layer = Layer { pitch: (3, 2), ..Layer::new(&luma, [&chroma, &chroma], Size::new(2, 2), Ratio::Two) };
    /// let copy = layer.to_buf()?;
    /// assert_eq!(copy.layer().luma, [1, 2, 3, 4, 5, 6, 7, 8]);
    /// assert_eq!(copy.layer().chroma, [[1, 2], [1, 2]]);
    /// # Ok::<(), safeteal::Error>(())
    /// ```
    ///
    /// # Errors
    /// As [`peel`](Self::peel) refuses a layer.
    pub fn to_buf(&self) -> Result<LayerBuf> {
        let call = T::NAMES.to_buf;
        self.accepted(call)?;
        let mut made = LayerBuf::zeros(self.size, self.ratio, call)?;
        let slices = made.layer_mut();
        let (luma, chroma) = (self.size, self.size.plane(Channel::Chroma1, self.ratio));
        copy(slices.luma, self.luma, luma.width, self.pitch.0);
        for (made, lent) in slices.chroma.into_iter().zip(self.chroma) {
            copy(made, lent, chroma.width, self.pitch.1);
        }
        Ok(made)
    }

    /// Refuses a layer that no call takes, in the order of the table.
    pub(crate) fn accepted(&self, call: &'static str) -> Result<()> {
        let layer = self.lent();
        let rows = [
            Refusal::Size,
            Refusal::Ratio,
            Refusal::Pitch,
            Refusal::Length,
        ];
        Error::first(call, &rows, |search| search.layer(&layer))
    }
}

/// Copies rows of `width` numbers that begin `pitch` apart.
fn copy<T: Form>(made: &mut [i16], lent: &[T], width: usize, pitch: usize) {
    for (y, row) in made.chunks_exact_mut(width).enumerate() {
        for (x, number) in row.iter_mut().enumerate() {
            *number = T::number(lent, place(x, y, pitch));
        }
    }
}

#[cfg(test)]
mod tests {
    use super::*;
    use crate::{Layer, LayerBytes};

    /// A layer of 2 by 2 and ratio 2, as numbers and as bytes, with other numbers between its rows and behind them.
    #[test]
    fn a_layer_with_padding_is_copied_without_it() {
        let numbers = [[1, -2, 99], [3, 4, 99], [5, 6, 99], [-7, 8, 99]];
        let numbers = numbers.as_flattened();
        let chroma = [[9, 99], [-10, 99]];
        let chroma = chroma.as_flattened();
        let size = Size::new(2, 2);
        let layer = Layer {
            pitch: (3, 2),
            ..Layer::new(numbers, [chroma, chroma], size, Ratio::Two)
        };
        let copy = layer.to_buf().expect("an accepted layer");
        assert_eq!(copy.layer().luma, [1, -2, 3, 4, 5, 6, -7, 8]);
        assert_eq!(copy.layer().chroma, [[9, -10], [9, -10]]);

        let bytes = |slice: &[i16]| -> Vec<u8> {
            let bytes = slice.iter().flat_map(|number| number.to_le_bytes());
            bytes.chain([99]).collect()
        };
        let (luma, chroma) = (bytes(numbers), bytes(chroma));
        let lent = LayerBytes {
            pitch: (3, 2),
            ..LayerBytes::new(&luma, [&chroma, &chroma], size, Ratio::Two)
        };
        assert_eq!(lent.to_buf(), Ok(copy));
        let short = LayerBytes {
            luma: &luma[..23],
            ..lent
        };
        assert_eq!(short.to_buf().unwrap_err().refusal(), Refusal::Length);
    }

    #[test]
    fn every_number_comes_back() {
        let size = Size::new(128, 128);
        let mut layer = LayerBuf::new(size, Ratio::One).expect("a small layer");
        for (at, number) in layer.layer_mut().luma.iter_mut().enumerate() {
            *number = (at as i32 * 2 - 32_768) as i16;
        }
        for (at, number) in layer.layer_mut().chroma[1].iter_mut().enumerate() {
            *number = (at as i32 * 2 - 32_767) as i16;
        }
        let bytes = layer.to_le_bytes();
        let slices = bytes.each_ref().map(Vec::as_slice);
        assert_eq!(LayerBuf::from_le_bytes(slices, size, Ratio::One), Ok(layer));
    }

    #[test]
    fn bytes_of_another_length_are_refused_by_name() {
        let (luma, chroma) = ([0; 16], [0; 4]);
        let said = |slices: [&[u8]; 3]| {
            let error = LayerBuf::from_le_bytes(slices, Size::new(2, 2), Ratio::Two).unwrap_err();
            (error.refusal(), error.to_string())
        };
        for (slices, name) in [
            (
                [&luma[1..], &chroma, &chroma],
                "`luma` has 15 bytes and must have exactly 16: 4 for each of 2 by 2 pixels",
            ),
            ([&luma, &[0; 5], &chroma], "`chroma1` has 5"),
            ([&luma, &chroma, &[]], "`chroma2` has 0"),
        ] {
            let (refusal, words) = said(slices);
            assert_eq!(refusal, Refusal::Length);
            assert!(words.contains(name), "{words}");
        }
        let slices: [&[u8]; 3] = [&luma, &chroma, &chroma];
        let error = LayerBuf::from_le_bytes(slices, Size::new(3, 2), Ratio::Two).unwrap_err();
        assert_eq!(error.refusal(), Refusal::Ratio);
    }
}
