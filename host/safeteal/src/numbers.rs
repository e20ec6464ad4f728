//! What layers and sums with slices of their own have in common.

use crate::{Ratio, Result, Size};

/// Some numbers for each pixel of luma, and two for each pixel of a chroma plane.
#[derive(Clone, PartialEq, Eq)]
pub(crate) struct Numbers<T> {
    pub luma: Vec<T>,
    pub chroma: [Vec<T>; 2],
    pub size: Size,
    pub ratio: Ratio,
}

impl<T: Clone + Default> Numbers<T> {
    /// Zeros, `each` for a pixel of luma.
    pub fn zeros(each: usize, size: Size, ratio: Ratio, call: &'static str) -> Result<Self> {
        let (luma, chroma) = size.pixels_of(ratio, call)?;
        let zeros = |length| vec![T::default(); length];
        Ok(Self {
            luma: zeros(each * luma),
            chroma: [zeros(2 * chroma), zeros(2 * chroma)],
            size,
            ratio,
        })
    }

    pub fn chroma(&self) -> [&[T]; 2] {
        self.chroma.each_ref().map(Vec::as_slice)
    }

    /// Luma and chroma to write.
    pub fn slices_mut(&mut self) -> (&mut [T], [&mut [T]; 2]) {
        let chroma = self.chroma.each_mut().map(Vec::as_mut_slice);
        (&mut self.luma, chroma)
    }
}

/// The size and ratio of a type with a member `numbers`.
macro_rules! size_and_ratio {
    ($type:ty) => {
        impl $type {
            /// The size of luma.
            #[must_use]
            pub fn size(&self) -> $crate::Size {
                self.numbers.size
            }

            /// Luma pixels per chroma pixel, each way.
            #[must_use]
            pub fn ratio(&self) -> $crate::Ratio {
                self.numbers.ratio
            }
        }
    };
}
