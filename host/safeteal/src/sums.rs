use crate::numbers::Numbers;
use crate::plane::Shape;
use crate::{Ratio, Result, Size};

/// The sums of up to twelve pairs, to read: six numbers for each luma pixel, two for each pixel of a chroma plane.
#[derive(Clone, Copy, PartialEq)]
pub struct Part<'a> {
    /// Exactly six numbers for each luma pixel.
    pub luma: &'a [f32],
    /// Exactly two numbers for each pixel of the plane.
    pub chroma: [&'a [f32]; 2],
    /// Pairs summed, 1 to 12.
    pub pairs: usize,
}

/// A part, and its neighbours in the clip where there are any: all of one size and ratio.
#[derive(Clone, Copy, Debug, PartialEq)]
pub struct Parts<'a> {
    /// The part before, if there is one. It holds at least one pair.
    pub previous: Option<Part<'a>>,
    /// The part itself.
    pub own: Part<'a>,
    /// The part after, if there is one. It holds at least one pair.
    pub next: Option<Part<'a>>,
}

impl<'a> Parts<'a> {
    /// A part without neighbours.
    #[must_use]
    pub const fn alone(own: Part<'a>) -> Self {
        Self {
            previous: None,
            own,
            next: None,
        }
    }
}

/// Sums with slices of their own.
#[derive(Clone, PartialEq)]
pub struct Sums {
    pub(crate) numbers: Numbers<f32>,
    pub(crate) pairs: usize,
}

impl Sums {
    /// The pairs that sums can hold.
    pub const MOST: usize = 12;

    /// Sums of no pair yet.
    ///
    /// # Errors
    /// `Refusal::Size` and `Refusal::Ratio`, as in every call.
    pub fn new(size: Size, ratio: Ratio) -> Result<Self> {
        let numbers = Numbers::zeros(6, size, ratio, "Sums::new")?;
        Ok(Self { numbers, pairs: 0 })
    }

    /// The sums to read, with their number of pairs.
    #[must_use]
    pub fn part(&self) -> Part<'_> {
        Part {
            luma: &self.numbers.luma,
            chroma: self.numbers.chroma(),
            pairs: self.pairs,
        }
    }

    /// Sums of no pair again, to be used for the next part of a clip without a new buffer.
    ///
    /// ```
    /// use safeteal::{Frame, MotionBuf, Pair, Ratio, Size, Sums};
    ///
    /// let size = Size::new(16, 16);
    /// let (frame, motion) = (Frame::new(size, Ratio::Two, [90, 128, 128])?, MotionBuf::still(size)?);
    /// let mut sums = Sums::new(size, Ratio::Two)?;
    /// sums.add(&Pair::of(&frame, &frame, &motion)?)?;
    /// assert_eq!(sums.pairs(), 1);
    /// sums.clear();
    /// assert_eq!(sums, Sums::new(size, Ratio::Two)?);
    /// # Ok::<(), safeteal::Error>(())
    /// ```
    pub fn clear(&mut self) {
        let (luma, [chroma1, chroma2]) = self.numbers.slices_mut();
        for numbers in [luma, chroma1, chroma2] {
            numbers.fill(0.0);
        }
        self.pairs = 0;
    }

    /// The size of luma and the ratio.
    pub(crate) fn shape(&self) -> Shape {
        (self.size(), self.ratio())
    }

    /// How many pairs were added.
    #[must_use]
    pub fn pairs(&self) -> usize {
        self.pairs
    }
}

size_and_ratio!(Sums);
