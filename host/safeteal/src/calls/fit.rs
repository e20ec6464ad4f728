use crate::answer::done;
use crate::plane::Shape;
use crate::{groups, Error, LayerBuf, LayerMut, Part, Parts, Ratio, Result, Size, Sums};

/// What [`fit`] takes for lettering.
#[derive(Clone, Copy, Debug, PartialEq)]
pub struct Settings {
    /// How far a pixel's changes must be from the scene's, 0.5 to 255.
    pub limit: f32,
    /// The evidence figure, 0 to 65,536: how often a pixel must have stood apart. Lower finds more.
    pub evidence: f32,
    /// Whether a close fit is asked for first.
    pub strict: bool,
}

impl Default for Settings {
    /// Limit 6, evidence figure 2, not strict. A pair gives two comparisons: an evidence figure of twice the pairs
    /// takes only what stood apart in all of them.
    fn default() -> Self {
        Self {
            limit: 6.0,
            evidence: 2.0,
            strict: false,
        }
    }
}

/// The slices that [`fit`] works in. What they hold means nothing after acceptance; a refusal leaves them as they were.
#[derive(PartialEq)]
pub struct Work<'a> {
    /// Exactly four numbers for each luma pixel.
    pub models: &'a mut [f32],
    /// Exactly one byte for each luma pixel.
    pub kept: &'a mut [u8],
    /// Exactly one byte for each 8 by 8 cell.
    pub cover: &'a mut [u8],
}

/// The same with slices of its own, for one fit after another.
#[derive(Clone)]
pub(crate) struct WorkBuf {
    models: Vec<f32>,
    kept: Vec<u8>,
    cover: Vec<u8>,
}

impl WorkBuf {
    /// For a size that is known to be inside the limits.
    pub fn new(size: Size) -> Self {
        let pixels = size.width * size.height;
        Self {
            models: vec![0.0; 4 * pixels],
            kept: vec![0; pixels],
            cover: vec![0; size.cells()],
        }
    }

    /// The slices to lend.
    pub fn work(&mut self) -> Work<'_> {
        Work {
            models: &mut self.models,
            kept: &mut self.kept,
            cover: &mut self.cover,
        }
    }
}

const NAMES: [[&str; 3]; 3] = [
    ["previous.luma", "previous.chroma[0]", "previous.chroma[1]"],
    ["own.luma", "own.chroma[0]", "own.chroma[1]"],
    ["next.luma", "next.chroma[0]", "next.chroma[1]"],
];

/// Fits a layer to the sums of a part and its neighbours.
///
/// [`LayerBuf::fit`] does this with slices of its own.
///
/// What is found is stored as by [`assemble`](crate::assemble): no colour cast is too heavy, for the totals of chroma
/// offsets are held.
///
/// # Errors
/// `Refusal::Size`, `Refusal::Ratio`, `Refusal::Length`, `Refusal::Setting`, `Refusal::Pairs` (for a neighbour of
/// no pairs as well: one that is absent is `None`).
pub fn fit(
    parts: Parts<'_>,
    size: Size,
    ratio: Ratio,
    settings: Settings,
    work: Work<'_>,
    layer: LayerMut<'_>,
) -> Result<()> {
    fitted("fit", parts, (size, ratio), settings, work, layer)
}

/// The same for the call of that name.
pub(crate) fn fitted(
    call: &'static str,
    parts: Parts<'_>,
    (size, ratio): Shape,
    settings: Settings,
    mut work: Work<'_>,
    mut layer: LayerMut<'_>,
) -> Result<()> {
    let Parts {
        previous,
        own,
        next,
    } = parts;
    let (lent, number) = ([beside(previous), own, beside(next)], ratio.number());
    let word = groups::fit(lent, size, settings, number, &mut work, &mut layer);
    let lengths = layer.lengths();
    done(call, word, |search| {
        search
            .size(size)
            .ratio(number, size)
            .neighbour(NAMES[0], previous, size, ratio)
            .part(NAMES[1], own, size, ratio)
            .neighbour(NAMES[2], next, size, ratio)
            .work(&work, size)
            .layer_slices(lengths, size, ratio)
            .settings(settings)
            .pairs_beside("previous", "the number of pairs in previous", previous)
            .pairs("the number of pairs in own", own.pairs)
            .pairs_beside("next", "the number of pairs in next", next)
    })
}

/// A neighbour as C takes it, where one of no pairs is absent. Here that is said by `None` alone: of a neighbour that
/// is there and has no pair, the number of pairs is given as one that is refused.
fn beside(part: Option<Part<'_>>) -> Part<'_> {
    let pairs = |part: Part<'_>| {
        if part.pairs == 0 {
            usize::MAX
        } else {
            part.pairs
        }
    };
    part.map_or(groups::ABSENT, |part| Part {
        pairs: pairs(part),
        ..part
    })
}

/// The parts of a fit; refuses neighbours of another size or ratio.
pub(crate) fn parts<'a>(
    call: &'static str,
    previous: Option<&'a Sums>,
    own: &'a Sums,
    next: Option<&'a Sums>,
) -> Result<Parts<'a>> {
    Error::of_sizes(call, |mut search| {
        for (name, sums) in [("previous", previous), ("next", next)] {
            let shape = sums.map_or(own.shape(), Sums::shape);
            search = search.alike(name, shape, "`own`", own.shape());
        }
        search
    })?;
    Ok(Parts {
        previous: previous.map(Sums::part),
        own: own.part(),
        next: next.map(Sums::part),
    })
}

impl LayerBuf {
    /// Fits a new layer to sums and those of their neighbours in the clip, of one size and ratio, as [`fit`] does: a
    /// heavy colour cast is stored as near as 16 bits allow. [`Walk`](crate::Walk) does this for each chunk of a clip.
    ///
    /// ```
    /// use safeteal::{Frame, LayerBuf, MotionBuf, Pair, Ratio, Refusal, Settings, Size, Sums};
    ///
    /// let size = Size::new(1, 1);
    /// let mut sums = Sums::new(size, Ratio::One)?;
    /// let error = LayerBuf::fit(None, &sums, None, Settings::default()).unwrap_err();
    /// assert_eq!(error.refusal(), Refusal::Pairs);
    /// assert_eq!(
    ///     error.to_string(),
    ///     "LayerBuf::fit refused (7): the number of pairs in own is 0 and must be 1 to 12"
    /// );
    ///
    /// let frame = Frame::new(size, Ratio::One, [90, 128, 128])?;
    /// sums.add(&Pair::of(&frame, &frame, &MotionBuf::still(size)?)?)?;
    /// let layer = LayerBuf::fit(None, &sums, None, Settings::default())?;
    /// // Nothing stands apart: gain 1 (4096 / 4096), offset 0.
    /// assert_eq!(layer.layer().luma, [4096, 0]);
    /// # Ok::<(), safeteal::Error>(())
    /// ```
    ///
    /// # Errors
    /// As [`fit`]; `Refusal::Size` for a neighbour of another size or ratio.
    pub fn fit(
        previous: Option<&Sums>,
        own: &Sums,
        next: Option<&Sums>,
        settings: Settings,
    ) -> Result<Self> {
        let call = "LayerBuf::fit";
        let parts = parts(call, previous, own, next)?;
        let (size, ratio) = own.shape();
        let (mut made, mut desk) = (Self::zeros(size, ratio, call)?, WorkBuf::new(size));
        let (work, layer) = (desk.work(), made.layer_mut());
        fitted(call, parts, (size, ratio), settings, work, layer)?;
        Ok(made)
    }
}
