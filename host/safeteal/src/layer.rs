use crate::numbers::Numbers;
use crate::{Ratio, Result, Size};

/// Declares a layer of that name, with the ratio as that type.
macro_rules! layer {
    ($(#[$about:meta])* $name:ident, $ratio:ty) => {
        $(#[$about])*
        #[derive(Clone, Copy, PartialEq, Eq)]
        pub struct $name<'a, T> {
            /// Gains, then offsets: at least `2 * pitch.0 * height` numbers.
            pub luma: &'a [T],
            /// At least `2 * pitch.1 * height / ratio` numbers each.
            pub chroma: [&'a [T]; 2],
            /// Numbers from one row's start to the next, in luma and in chroma.
            pub pitch: (usize, usize),
            /// The size of luma.
            pub size: Size,
            /// Luma pixels per chroma pixel, each way.
            pub ratio: $ratio,
        }
    };
}

layer! {
    /// A layer to read: what lettering does to each pixel, and how far the next lettering is.
    ///
    /// Its numbers are lent as they are (`T` is `i16`: [`Layer`]), or as bytes (`T` is `u8`: [`LayerBytes`]). `luma`
    /// holds all gains (in 4096ths), then all offsets (in 64ths); each chroma slice holds the offsets of its plane, and
    /// the second half of `chroma[1]` the distances of the 8 by 8 cells, a row of them in each chroma row.
    LayerOf, Ratio
}

layer! {
    /// A [`LayerOf`] as C takes it, with any number for the ratio.
    LentLayer, usize
}

/// A layer to read, lent as numbers.
pub type Layer<'a> = LayerOf<'a, i16>;

/// A layer to read, lent as little-endian bytes, two for each number; a byte left over at an end is passed over.
///
/// Pitches count numbers all the same.
pub type LayerBytes<'a> = LayerOf<'a, u8>;

impl<'a, T> LayerOf<'a, T> {
    /// A layer without padding: each row begins where the one above it ends.
    #[must_use]
    pub const fn new(luma: &'a [T], chroma: [&'a [T]; 2], size: Size, ratio: Ratio) -> Self {
        Self {
            luma,
            chroma,
            pitch: (size.width, size.width / ratio.number()),
            size,
            ratio,
        }
    }

    pub(crate) fn lent(&self) -> LentLayer<'a, T> {
        LentLayer {
            luma: self.luma,
            chroma: self.chroma,
            pitch: self.pitch,
            size: self.size,
            ratio: self.ratio.number(),
        }
    }
}

/// One pixel of gain 0 among others of gain 1, all marked.
#[cfg(test)]
pub(crate) const ONE_OF_GAIN_0: Layer = Layer::new(
    &[
        0, 4096, 4096, 4096, 4096, 4096, 4096, 4096, 4096, 4096, 4096, 4096, 4096, 4096, 4096,
        4096, 0, 0, 0, 0, 0, 0, 0, 0, 0, 0, 0, 0, 0, 0, 0, 0,
    ],
    [&[0; 8], &[0; 8]],
    Size::new(8, 2),
    Ratio::Two,
);

/// The slices of a layer that is to be made: exactly `2 * width * height` and `2 * width/ratio * height/ratio` numbers.
#[derive(PartialEq, Eq)]
pub struct LayerMut<'a> {
    /// Gains, then offsets.
    pub luma: &'a mut [i16],
    /// Offsets; the distances in the second half of `chroma[1]`.
    pub chroma: [&'a mut [i16]; 2],
}

impl LayerMut<'_> {
    pub(crate) fn lengths(&self) -> [usize; 3] {
        [self.luma.len(), self.chroma[0].len(), self.chroma[1].len()]
    }
}

/// A layer with slices of its own, without padding.
#[derive(Clone, PartialEq, Eq)]
pub struct LayerBuf {
    numbers: Numbers<i16>,
}

impl LayerBuf {
    /// A layer of zeros, to be filled by `fit` or `assemble`.
    ///
    /// It is not empty: every cell is marked (distance 0), and every pixel has gain 0.
    ///
    /// # Errors
    /// `Refusal::Size` and `Refusal::Ratio`, as in every call.
    pub fn new(size: Size, ratio: Ratio) -> Result<Self> {
        Self::zeros(size, ratio, "LayerBuf::new")
    }

    /// The same for the call of that name.
    pub(crate) fn zeros(size: Size, ratio: Ratio, call: &'static str) -> Result<Self> {
        let numbers = Numbers::zeros(2, size, ratio, call)?;
        Ok(Self { numbers })
    }

    /// The layer to read.
    #[must_use]
    pub fn layer(&self) -> Layer<'_> {
        let numbers = &self.numbers;
        Layer::new(&numbers.luma, numbers.chroma(), numbers.size, numbers.ratio)
    }

    /// The slices to write.
    #[must_use]
    pub fn layer_mut(&mut self) -> LayerMut<'_> {
        let (luma, chroma) = self.numbers.slices_mut();
        LayerMut { luma, chroma }
    }
}

size_and_ratio!(LayerBuf);
