use crate::answer::done;
use crate::{ffi, Error, Mask, Plane, PlaneMut, Result};

/// Weighs held bytes into the output: where the mask's bytes under a pixel are not all 255, the rest of their weight
/// goes to the held byte.
///
/// ```
/// use safeteal::{hold, Mask, Plane, PlaneMut, Size};
///
/// let size = Size::new(1, 1);
/// let (mut output, held) = ([100], Plane::new(&[200], size));
/// hold(PlaneMut::new(&mut output, size), held, Mask::new(&[128], 1))?;
/// assert_eq!(output, [150]);
/// # Ok::<(), safeteal::Error>(())
/// ```
///
/// # Errors
/// `Refusal::Size`, `Refusal::Ratio` for a mask without a whole step of 1 to 8, `Refusal::Pitch`,
/// `Refusal::Length`.
pub fn hold(output: PlaneMut<'_>, held: Plane<'_>, mask: Mask<'_>) -> Result<()> {
    let call = "hold";
    let size = output.size;
    Error::of_sizes(call, |search| {
        search.size(size).same("held", held.size, "`output`", size)
    })?;
    let word = ffi::hold(
        output.data,
        output.pitch,
        held.data,
        held.pitch,
        size.width,
        size.height,
        mask.data,
        mask.width,
    );
    done(call, word, |search| {
        search
            .masked(mask, &output)
            .plane(["the pitch of held", "held"], held)
    })
}

#[cfg(test)]
mod tests {
    use super::*;
    use crate::{Refusal, Size};

    fn held(mask: &[u8]) -> Result<u8, Refusal> {
        let (mut output, size) = ([100], Size::new(1, 1));
        let (plane, kept) = (PlaneMut::new(&mut output, size), Plane::new(&[200], size));
        let answer = hold(plane, kept, Mask::new(mask, 1));
        answer.map_err(|error| error.refusal())?;
        Ok(output[0])
    }

    #[test]
    fn one_cell() {
        assert_eq!(held(&[128]), Ok(150));
        assert_eq!(held(&[255]), Ok(100));
        assert_eq!(held(&[0]), Ok(200));
    }

    #[test]
    fn a_mask_without_a_step_is_refused() {
        assert_eq!(held(&[]), Err(Refusal::Ratio));
        assert_eq!(held(&[0; 9]), Err(Refusal::Ratio));
    }
}
