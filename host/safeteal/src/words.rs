//! Sizes and ratios in words, and sizes from pairs of numbers.

use std::fmt;

use crate::{Ratio, Size};

/// ```
/// use safeteal::Size;
///
/// assert_eq!(Size::new(1920, 1080).to_string(), "1920 by 1080");
/// ```
impl fmt::Display for Size {
    fn fmt(&self, f: &mut fmt::Formatter<'_>) -> fmt::Result {
        write!(f, "{} by {}", self.width, self.height)
    }
}

/// ```
/// use safeteal::Size;
///
/// let size = Size::from((1920, 1080));
/// assert_eq!((size.width, size.height), (1920, 1080));
/// ```
impl From<(usize, usize)> for Size {
    /// Width, then height.
    fn from((width, height): (usize, usize)) -> Self {
        Self::new(width, height)
    }
}

impl From<Size> for (usize, usize) {
    /// Width, then height.
    fn from(Size { width, height }: Size) -> Self {
        (width, height)
    }
}

/// ```
/// use safeteal::Ratio;
///
/// assert_eq!(Ratio::Two.to_string(), "2");
/// ```
impl fmt::Display for Ratio {
    fn fmt(&self, f: &mut fmt::Formatter<'_>) -> fmt::Result {
        self.number().fmt(f)
    }
}
