use crate::answer::done;
use crate::error::Why;
use crate::{ffi, LayerBuf, LayerMut, Ratio, Result, Size};

/// Stores models and a cover as a layer.
///
/// `models` has four numbers for each luma pixel: gain, offset, and the offsets of planes 1 and 2. `cover` has a byte
/// for each 8 by 8 cell and is stored as it is: make distances of it first.
///
/// A chroma pixel's offset is a total over its luma pixels: each adds its offset / ratio², rounded to 64ths. The total
/// is summed whole and then held to -32768 to 32767: a heavy colour cast is stored as near as 16 bits allow.
///
/// ```
/// use safeteal::{assemble, LayerBuf, Ratio, Size};
///
/// // Four luma pixels and one of chroma: a luma pixel adds 64ths of a quarter, 16 for an offset of 1.
/// let (size, ratio) = (Size::new(2, 2), Ratio::Two);
/// let models = [1200.0, 1200.0, -1200.0, -1200.0].map(|offset| [1.0, 0.0, 512.0, offset]);
/// let mut layer = LayerBuf::new(size, ratio)?;
/// assemble(size, ratio, models.as_flattened(), &[0], layer.layer_mut())?;
/// let [chroma1, chroma2] = layer.layer().chroma;
/// // The total of plane 1 is 32768. That of plane 2 is 38400 after two pixels, and 0 after all four.
/// assert_eq!((chroma1[0], chroma2[0]), (32767, 0));
/// # Ok::<(), safeteal::Error>(())
/// ```
///
/// # Errors
/// `Refusal::Size`, `Refusal::Ratio`, `Refusal::Length`.
pub fn assemble(
    size: Size,
    ratio: Ratio,
    models: &[f32],
    cover: &[u8],
    layer: LayerMut<'_>,
) -> Result<()> {
    assembled("assemble", size, ratio, models, cover, layer)
}

/// The same for the call of that name.
fn assembled(
    call: &'static str,
    size: Size,
    ratio: Ratio,
    models: &[f32],
    cover: &[u8],
    mut layer: LayerMut<'_>,
) -> Result<()> {
    let [chroma1, chroma2] = &mut layer.chroma;
    let word = ffi::assemble(
        size.width,
        size.height,
        ratio.number(),
        models,
        cover,
        layer.luma,
        chroma1,
        chroma2,
    );
    let lengths = layer.lengths();
    done(call, word, |search| {
        search
            .size(size)
            .ratio(ratio.number(), size)
            .exactly("models", models.len(), Why::Pixels(4, size))
            .exactly("cover", cover.len(), Why::Cells(size))
            .layer_slices(lengths, size, ratio)
    })
}

impl LayerBuf {
    /// Stores models and a cover as a new layer, as [`assemble`] does.
    ///
    /// ```
    /// use safeteal::{LayerBuf, Ratio, Size};
    ///
    /// let models = [8.0, -1.0 / 128.0, 0.5, 0.0];
    /// let layer = LayerBuf::assemble(Size::new(1, 1), Ratio::One, &models, &[3])?;
    /// assert_eq!(layer.layer().luma, [32767, -1]);
    /// assert_eq!(layer.layer().chroma, [[32, 0], [0, 3]]);
    /// # Ok::<(), safeteal::Error>(())
    /// ```
    ///
    /// # Errors
    /// As [`assemble`].
    pub fn assemble(size: Size, ratio: Ratio, models: &[f32], cover: &[u8]) -> Result<Self> {
        let call = "LayerBuf::assemble";
        let mut made = Self::zeros(size, ratio, call)?;
        assembled(call, size, ratio, models, cover, made.layer_mut())?;
        Ok(made)
    }
}

#[cfg(test)]
mod tests {
    use super::*;

    /// What is stored at the one chroma pixel of `side` by `side` luma pixels with these offsets in both planes.
    fn stored(side: usize, offsets: &[f32]) -> [i16; 2] {
        let models: Vec<[f32; 4]> = offsets
            .iter()
            .map(|&offset| [1.0, 0.0, offset, offset])
            .collect();
        let ratio = Ratio::of_number(side).expect("1, 2 or 4");
        let layer = LayerBuf::assemble(Size::new(side, side), ratio, models.as_flattened(), &[0]);
        let layer = layer.expect("any offsets");
        layer.layer().chroma.map(|numbers| numbers[0])
    }

    #[test]
    fn p4_and_p5_gains_and_offsets_are_rounded_and_held() {
        let layer = LayerBuf::assemble(
            Size::new(1, 1),
            Ratio::One,
            &[8.0, -1.0 / 128.0, 0.0, 0.0],
            &[0],
        );
        assert_eq!(layer.expect("one pixel").layer().luma, [32767, -1]);
    }

    #[test]
    fn a_total_is_held_to_16_bits() {
        // 16 in the total for an offset of 1: three of 512, and the rest in the fourth.
        for (total, held) in [
            (32766, 32766),
            (32767, 32767),
            (32768, 32767),
            (32769, 32767),
            (-32767, -32767),
            (-32768, -32768),
            (-32769, -32768),
            (-32770, -32768),
        ] {
            let most = 512.0 * (total as f32).signum();
            let rest = total as f32 / 16.0 - 3.0 * most;
            assert_eq!(stored(2, &[most, most, most, rest]), [held; 2], "{total}");
        }
    }

    /// The most that a luma pixel can add is 32767: of one alone no total has to be held.
    #[test]
    fn the_farthest_totals_are_held() {
        for side in [1, 2, 4] {
            let low = if side == 1 { -32767 } else { -32768 };
            for far in [1e6, f32::MAX, f32::INFINITY] {
                assert_eq!(stored(side, &vec![far; side * side]), [32767; 2]);
                assert_eq!(stored(side, &vec![-far; side * side]), [low; 2]);
            }
        }
    }

    #[test]
    fn a_total_is_summed_whole_and_then_held() {
        assert_eq!(stored(2, &[1200.0, 1200.0, -1200.0, -1200.0]), [0; 2]);
        // Two of 32767 and two of -19200; then the other way round.
        assert_eq!(stored(2, &[4096.0, 4096.0, -1200.0, -1200.0]), [27134; 2]);
        assert_eq!(stored(2, &[-4096.0, -4096.0, 1200.0, 1200.0]), [-27134; 2]);
        // It leaves the range, comes back, and ends one beyond it.
        assert_eq!(stored(2, &[4096.0, 4096.0, -4096.0, 0.0625]), [32767; 2]);
        let mut offsets = [1e6; 16];
        offsets[8..].fill(-1e6);
        assert_eq!(stored(4, &offsets), [0; 2]);
        // At ratio 4 an offset of 1 adds 4.
        offsets[15] = -5.0;
        assert_eq!(stored(4, &offsets), [32747; 2]);
    }

    #[test]
    fn any_bits_are_stored() {
        let models = [f32::NAN, f32::INFINITY, f32::NEG_INFINITY, f32::NAN];
        let layer = LayerBuf::assemble(Size::new(1, 1), Ratio::One, &models, &[255]);
        let layer = layer.expect("one pixel");
        assert_eq!(layer.layer().luma, [0, 32767]);
        assert_eq!(layer.layer().chroma, [[-32767, 0], [0, 255]]);
    }
}
