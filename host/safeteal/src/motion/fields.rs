//! Motion from fields of one's own.

use super::MotionBuf;
use crate::{Error, Refusal, Result, Size};

/// A field along x and one along y.
type Fields = (Vec<u16>, Vec<u16>);

impl MotionBuf {
    /// Motion from fields of one's own, as a motion search makes them: a number for each block of the grid, row after
    /// row, along x and along y, forward and backward. 1024 is no motion, 1025 is 1 / `pel` luma pixels to the right or
    /// down.
    ///
    /// `size` is that of luma of the frames. `grid` is the width and height in blocks (1 to 4096), `block` those of a
    /// block in luma pixels (1 to 128), `origin` is where the first block begins (-4096 to 4096), and `pel` says how
    /// many steps are a pixel (1, 2 or 4), as in [`Motion`](crate::Motion), which also says when the blocks cover the
    /// size.
    ///
    /// ```
    /// use safeteal::{MotionBuf, Refusal, Size};
    ///
    /// // Two blocks; what is in the right one is found three pixels farther right in the second frame.
    /// let (size, still) = (Size::new(32, 16), || vec![1024, 1024]);
    /// let (forward, backward) = ((vec![1024, 1036], still()), (vec![1024, 1012], still()));
    /// let motion = MotionBuf::from_fields(size, forward, backward, (2, 1), (16, 16), (0, 0), 4)?;
    /// assert_eq!(motion.motion().forward.0, [1024, 1036]);
    ///
    /// let (forward, backward) = ((still(), still()), (vec![1024], still()));
    /// let error = MotionBuf::from_fields(size, forward, backward, (2, 1), (16, 16), (0, 0), 4).unwrap_err();
    /// assert_eq!(error.refusal(), Refusal::Length);
    /// assert!(error.to_string().contains("`backward.0` has 1"));
    ///
    /// // Two blocks of 8 do not cover 32 pixels.
    /// let (forward, backward) = ((still(), still()), (still(), still()));
    /// let error = MotionBuf::from_fields(size, forward, backward, (2, 1), (8, 16), (0, 0), 4).unwrap_err();
    /// assert_eq!(error.refusal(), Refusal::Size);
    /// # Ok::<(), safeteal::Error>(())
    /// ```
    ///
    /// # Errors
    /// `Refusal::Size` for a size outside the limits, or one that the blocks do not cover; `Refusal::Length` for a
    /// field that has not one number for each block; `Refusal::Motion` for a number outside its limits.
    pub fn from_fields(
        size: Size,
        forward: (Vec<u16>, Vec<u16>),
        backward: (Vec<u16>, Vec<u16>),
        grid: (usize, usize),
        block: (i32, i32),
        origin: (i32, i32),
        pel: i32,
    ) -> Result<Self> {
        let made = Self {
            forward,
            backward,
            grid,
            block,
            origin,
            pel,
            size,
        };
        let rows = [Refusal::Size, Refusal::Length, Refusal::Motion];
        Error::first("MotionBuf::from_fields", &rows, |search| {
            let motion = made.motion();
            search
                .size(size)
                .over(&motion, "luma", size)
                .motion(&motion)
        })?;
        Ok(made)
    }

    /// The four fields: forward and backward, each along x and along y.
    #[must_use]
    pub fn into_fields(self) -> (Fields, Fields) {
        (self.forward, self.backward)
    }
}

#[cfg(test)]
mod tests {
    use super::*;

    type Numbers = ((usize, usize), (i32, i32), (i32, i32), i32);

    /// Fields of that length over luma of that size, and the numbers beside them.
    fn made(
        size: (usize, usize),
        length: usize,
        (grid, block, origin, pel): Numbers,
    ) -> Result<MotionBuf> {
        let fields = || (vec![1024; length], vec![1024; length]);
        MotionBuf::from_fields(size.into(), fields(), fields(), grid, block, origin, pel)
    }

    #[test]
    fn the_limits_themselves_are_taken() {
        let numbers: [((usize, usize), Numbers); 5] = [
            ((1, 1), ((1, 1), (1, 1), (0, 0), 1)),
            ((100, 100), ((1, 1), (128, 128), (127, 127), 2)),
            ((1024, 900), ((40, 40), (128, 128), (-4096, -4096), 1)),
            ((4096, 15), ((4096, 1), (16, 8), (0, 3), 4)),
            ((15, 4096), ((1, 4096), (8, 16), (3, 0), 4)),
        ];
        for (size, numbers) in numbers {
            let (grid, block, origin, pel) = numbers;
            let motion = made(size, grid.0 * grid.1, numbers).expect("numbers inside the limits");
            let lent = motion.motion();
            assert_eq!(
                (lent.grid, lent.block, lent.origin, lent.pel),
                (grid, block, origin, pel)
            );
            assert_eq!(motion.size(), Size::from(size));
            assert_eq!(motion.clone().into_fields().0 .1.len(), grid.0 * grid.1);
        }
    }

    #[test]
    fn what_is_outside_is_refused_in_words() {
        let refused: [(Numbers, &str); 9] = [
            (((0, 1), (16, 16), (0, 0), 1), "the grid's width is 0"),
            (
                ((1, 4097), (16, 16), (0, 0), 1),
                "the grid's height is 4097",
            ),
            (((1, 1), (0, 16), (0, 0), 1), "the block's width is 0"),
            (((1, 1), (16, 129), (0, 0), 1), "the block's height is 129"),
            (((1, 1), (16, -1), (0, 0), 1), "the block's height is -1"),
            (((1, 1), (16, 16), (-4097, 0), 1), "the origin's x is -4097"),
            (((1, 1), (16, 16), (0, 4097), 1), "the origin's y is 4097"),
            (((1, 1), (16, 16), (0, 0), 3), "pel is 3"),
            (((1, 1), (16, 16), (0, 0), 0), "pel is 0"),
        ];
        for (numbers, words) in refused {
            let (grid, ..) = numbers;
            let error = made((16, 16), grid.0 * grid.1, numbers).unwrap_err();
            assert_eq!(error.refusal(), Refusal::Motion, "{words}");
            assert!(error.to_string().contains(words), "{error}");
        }
        for grid in [(2, 3), (usize::MAX, 2), (1, 5)] {
            let error = made((16, 16), 4, (grid, (16, 16), (0, 0), 9)).unwrap_err();
            assert_eq!(error.refusal(), Refusal::Length, "a grid of {grid:?}");
            assert!(error.to_string().contains("`forward.0` has 4"), "{error}");
        }
    }

    #[test]
    fn a_size_that_is_none_or_that_the_blocks_do_not_cover() {
        let one = ((1, 1), (16, 16), (0, 0), 1);
        for (size, words) in [
            ((0, 16), "width is 0"),
            ((16, 4097), "height is 4097"),
            ((32, 16), "does not cover luma of 32 by 16"),
            ((1920, 1080), "does not cover luma of 1920 by 1080"),
        ] {
            let error = made(size, 1, one).unwrap_err();
            assert_eq!(error.refusal(), Refusal::Size, "{words}");
            assert!(error.to_string().contains(words), "{error}");
        }
        let far = ((1, 1), (16, 16), (4096, 0), 1);
        assert_eq!(made((16, 16), 1, far).unwrap_err().refusal(), Refusal::Size);
    }
}
