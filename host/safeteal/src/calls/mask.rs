use crate::answer::done;
use crate::error::Why;
use crate::{ffi, Error, Plane, Result};

/// What [`mask`] takes for standing still. Any floats are accepted.
///
/// A change of a byte counts as a part of the full range: 4.5 / 255 is a change of 4.5.
#[derive(Clone, Copy, Debug, PartialEq)]
pub struct Limits {
    /// The largest change of a byte, as a part of the full range.
    pub limit: f32,
    /// The least detail worth comparing, as a part of the full range.
    pub edge: f32,
    /// The part of the detail that may differ.
    pub tolerance: f32,
}

impl Default for Limits {
    /// 4.5 / 255, 5 / 255 and 30 / 100.
    fn default() -> Self {
        Self {
            limit: (4.5 / 255.0) as f32,
            edge: (5.0 / 255.0) as f32,
            tolerance: (30.0 / 100.0) as f32,
        }
    }
}

/// Marks with 1 each pixel that stands still between two planes of one size and one pitch, with 0 each other one.
///
/// ```
/// use safeteal::{mask, Limits, Plane, Size};
///
/// let size = Size::new(5, 1);
/// let first = Plane::new(&[10, 10, 10, 200, 200], size);
/// let second = Plane::new(&[10, 10, 10, 90, 90], size);
/// let mut still = [9; 5];
/// mask(first, second, Limits::default(), &mut still)?;
/// assert_eq!(still, [1, 1, 1, 0, 0]);
/// # Ok::<(), safeteal::Error>(())
/// ```
///
/// # Errors
/// `Refusal::Size`, `Refusal::Pitch`, `Refusal::Length`: `still` is exactly one byte for each pixel.
pub fn mask(first: Plane<'_>, second: Plane<'_>, limits: Limits, still: &mut [u8]) -> Result<()> {
    let call = "mask";
    let size = first.size;
    Error::of_sizes(call, |search| {
        search
            .size(size)
            .same("second", second.size, "`first`", size)
    })?;
    let Limits {
        limit,
        edge,
        tolerance,
    } = limits;
    let word = ffi::mask(
        first.data,
        second.data,
        one_pitch(first, second),
        size.width,
        size.height,
        limit,
        edge,
        tolerance,
        still,
    );
    done(call, word, |search| {
        search.size(size).of_one_pitch(first, second).exactly(
            "still",
            still.len(),
            Why::Pixels(1, size),
        )
    })
}

/// The one pitch of two planes. C is told one for both: of planes with two pitches, one that is refused.
pub(crate) fn one_pitch(first: Plane<'_>, second: Plane<'_>) -> usize {
    if first.pitch == second.pitch {
        first.pitch
    } else {
        0
    }
}
