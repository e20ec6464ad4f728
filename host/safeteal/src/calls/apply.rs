use super::mask::one_pitch;
use crate::answer::done;
use crate::{ffi, Error, Mask, Plane, PlaneMut, Result};

/// Mixes two planes of one size and one pitch by time, where more than four tenths of the mask's cells under a pixel
/// stand still.
///
/// ```
/// use safeteal::{apply, Mask, Plane, PlaneMut, Size};
///
/// let size = Size::new(2, 1);
/// let (first, second) = (Plane::new(&[10, 10], size), Plane::new(&[20, 20], size));
/// let mut output = [7, 7];
/// apply(PlaneMut::new(&mut output, size), first, second, Mask::new(&[1, 0], 2), 0.5)?;
/// assert_eq!(output, [15, 7]);
/// # Ok::<(), safeteal::Error>(())
/// ```
///
/// # Errors
/// `Refusal::Size`, `Refusal::Ratio` for a mask without a whole step of 1 to 8, `Refusal::Pitch`,
/// `Refusal::Length`, `Refusal::Setting` for the time.
pub fn apply(
    output: PlaneMut<'_>,
    first: Plane<'_>,
    second: Plane<'_>,
    still: Mask<'_>,
    time: f32,
) -> Result<()> {
    let call = "apply";
    let size = output.size;
    Error::of_sizes(call, |search| {
        search
            .size(size)
            .same("first", first.size, "`output`", size)
            .same("second", second.size, "`output`", size)
    })?;
    let word = ffi::apply(
        output.data,
        output.pitch,
        first.data,
        second.data,
        one_pitch(first, second),
        size.width,
        size.height,
        still.data,
        still.width,
        time,
    );
    done(call, word, |search| {
        let search = search.masked(still, &output);
        search.of_one_pitch(first, second).time(time)
    })
}

#[cfg(test)]
mod tests {
    use super::*;
    use crate::Size;

    /// One pixel under a mask of 2 by 2 cells.
    fn mixed(still: [u8; 4]) -> u8 {
        let (mut output, size) = ([7], Size::new(1, 1));
        let (plane, mask) = (PlaneMut::new(&mut output, size), Mask::new(&still, 2));
        let (first, second) = (Plane::new(&[10], size), Plane::new(&[20], size));
        apply(plane, first, second, mask, 0.5).expect("a mask of step 2");
        output[0]
    }

    #[test]
    fn of_four_cells_one_is_too_few_and_two_are_enough() {
        assert_eq!(mixed([0, 1, 0, 0]), 7);
        assert_eq!(mixed([0, 1, 0, 1]), 15);
        assert_eq!(mixed([2, 0, 0, 0]), 15);
    }
}
