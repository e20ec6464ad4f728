use crate::answer::done;
use crate::{ffi, Result};

/// Makes distances: in the complete rows of `width` cells, each cell becomes the least of 255 and any cell's number
/// plus the chessboard distance to it. A tail that fills no row stays.
///
/// ```
/// use safeteal::distances;
///
/// let mut cells = [255, 255, 255, 255, 0, 255];
/// distances(&mut cells, 3)?;
/// assert_eq!(cells, [1, 1, 1, 1, 0, 1]);
/// # Ok::<(), safeteal::Error>(())
/// ```
///
/// # Errors
/// `Refusal::Size` for width 0, and for nothing else.
pub fn distances(cells: &mut [u8], width: usize) -> Result<()> {
    let word = ffi::distances(cells, width);
    done("distances", word, |search| search.width(width))
}

#[cfg(test)]
mod tests {
    use super::*;
    use crate::Refusal;

    fn made<const N: usize>(mut cells: [u8; N], width: usize) -> [u8; N] {
        distances(&mut cells, width).expect("a width above 0");
        cells
    }

    #[test]
    fn p6_a_row() {
        assert_eq!(made([0, 255, 255, 255], 4), [0, 1, 2, 3]);
    }

    #[test]
    fn p7_a_tail_stays() {
        assert_eq!(made([5, 0, 9], 2), [1, 0, 9]);
    }

    #[test]
    fn p8_a_column() {
        assert_eq!(made([3, 255, 0], 1), [2, 1, 0]);
    }

    #[test]
    fn a_width_beyond_the_slice_has_no_complete_row() {
        assert_eq!(made([7, 0], usize::MAX), [7, 0]);
        let error = distances(&mut [], 0).unwrap_err();
        assert_eq!(error.refusal(), Refusal::Size);
        assert_eq!(
            error.to_string(),
            "distances refused (1): width is 0 and must be at least 1"
        );
    }
}
