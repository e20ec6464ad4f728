//! Walks over whole clips: how far one has come, and the sums that it keeps.

use std::ops::Range;

use crate::calls::WorkBuf;
use crate::numbers::Numbers;
use crate::plane::Shape;
use crate::{ffi, Channel, Ratio, Size, Sums};

/// A walk over a whole clip: it is handed over pair by pair, and gives a layer for each chunk of twelve pairs.
///
/// The size, the ratio and the clip's number of pairs are given at the start. The walk keeps the sums of three chunks
/// and drops what is behind. A layer is due once the chunk after its own is complete, or the clip: it is taken before
/// the next pair. It is the one that [`LayerBuf::fit`](crate::LayerBuf::fit) makes of its chunk's sums and those of the
/// chunks before and after it; the clip's first chunk has none before it, and the last none after it. Pairs, chunks and
/// layers are counted from 0. Of 30 pairs, chunk 2 has the last six:
///
/// | After pair | Is due | Fitted to pairs |
/// |---|---|---|
/// | 23 | layer 0 | 0 to 11, with 12 to 23 |
/// | 29 | layer 1 | 12 to 23, with 0 to 11 and 24 to 29 |
/// | 29 | layer 2 | 24 to 29, with 12 to 23 |
///
/// A clip of no pairs gives no layer. What is refused changes nothing: the walk goes on from where it was. With strict
/// off, an evidence figure that is turned down for the whole walk loses and changes no dot of any chunk.
///
/// ```
/// use safeteal::{Frame, MotionBuf, Pair, Ratio, Settings, Size, Walk};
///
/// let size = Size::new(64, 32);
/// let (frame, motion) = (Frame::new(size, Ratio::Two, [90, 128, 128])?, MotionBuf::still(size)?);
/// let mut walk = Walk::new(size, Ratio::Two, 30)?;
/// let mut found = Vec::new();
/// for number in 0..30 {
///     walk.push(&Pair::of(&frame, &frame, &motion)?)?;
///     for layer in walk.layers(Settings::default()) {
///         let (chunk, layer) = layer?;
///         found.push((number, chunk, layer.layer().empty()?));
///     }
/// }
/// // Nothing stood apart in this clip.
/// assert_eq!(found, [(23, 0, true), (29, 1, true), (29, 2, true)]);
/// assert!(walk.is_done());
/// # Ok::<(), safeteal::Error>(())
/// ```
///
/// Two are equal where they have come equally far and hold the same sums.
#[derive(Clone)]
pub struct Walk {
    pub(crate) progress: Progress,
    pub(crate) sums: [Numbers<f32>; 3],
    pub(crate) work: WorkBuf,
}

impl Walk {
    /// The bytes that a walk owns, for as long as it lasts: the sums of three chunks, and what fit works in.
    ///
    /// For a size that no call takes it is at most `usize::MAX`.
    ///
    /// ```
    /// use safeteal::{Ratio, Size, Walk};
    ///
    /// // Four bytes for each number: six for each pixel of luma and two for each of both chroma planes, three times;
    /// // then four for each pixel of luma, a byte for each, and one for each 8 by 8 cell.
    /// let sums = 4 * 3 * (6 * 1920 * 1080 + 2 * 2 * 960 * 540);
    /// let work = 4 * 4 * 1920 * 1080 + 1920 * 1080 + 240 * 135;
    /// assert_eq!(Walk::bytes(Size::new(1920, 1080), Ratio::Two), sums + work);
    /// ```
    #[must_use]
    pub fn bytes(size: Size, ratio: Ratio) -> usize {
        let pixels = |channel: Channel, bytes: usize| {
            let Size { width, height } = size.plane(channel, ratio);
            width.saturating_mul(height).saturating_mul(bytes)
        };
        let sums = [
            pixels(Channel::Luma, 3 * 24),
            pixels(Channel::Chroma1, 3 * 8),
            pixels(Channel::Chroma2, 3 * 8),
        ];
        let work = [pixels(Channel::Luma, 17), size.cells()];
        let all = sums.into_iter().chain(work);
        all.fold(0, usize::saturating_add)
    }

    /// How far the walk has come.
    #[must_use]
    pub fn progress(&self) -> Progress {
        self.progress
    }

    /// The size of luma.
    #[must_use]
    pub fn size(&self) -> Size {
        self.progress.size
    }

    /// Luma pixels per chroma pixel, each way.
    #[must_use]
    pub fn ratio(&self) -> Ratio {
        self.progress.ratio
    }

    /// The clip's pairs.
    #[must_use]
    pub fn pairs(&self) -> usize {
        self.progress.pairs
    }

    /// How many pairs were handed over: the next one has this number.
    #[must_use]
    pub fn added(&self) -> usize {
        self.progress.added
    }

    /// How many layers were taken: the next one has this number.
    #[must_use]
    pub fn taken(&self) -> usize {
        self.progress.taken
    }

    /// The clip's chunks: as many layers it gives.
    #[must_use]
    pub fn chunks(&self) -> usize {
        self.progress.chunks()
    }

    /// The numbers of a chunk's pairs; none behind the last chunk.
    #[must_use]
    pub fn chunk(&self, number: usize) -> Range<usize> {
        self.progress.chunk(number)
    }

    /// Whether a layer is due.
    #[must_use]
    pub fn is_due(&self) -> bool {
        self.progress.is_due()
    }

    /// Whether all pairs were handed over and all layers taken.
    #[must_use]
    pub fn is_done(&self) -> bool {
        self.progress.is_done()
    }
}

impl PartialEq for Walk {
    fn eq(&self, other: &Self) -> bool {
        self.progress == other.progress && self.sums == other.sums
    }
}

/// How far a walk over a clip has come: what a walk over lent sums goes on with, from call to call.
///
/// [`Walk`] does this with sums of its own, and says more of walks. Here the caller owns what a walk keeps: lends three
/// [`Slot`]s, the same to each call, and changes nothing of them in between. Which chunk's sums lie in which of them is
/// the walk's own business.
///
/// Any numbers can be put together here. What is no state of a walk is refused by each call.
///
/// ```
/// use safeteal::{Frame, LayerBuf, MotionBuf, Pair, Progress, Ratio, Settings, Size, Slot, Work};
///
/// let size = Size::new(1, 1);
/// let (frame, motion) = (Frame::new(size, Ratio::One, [90, 128, 128])?, MotionBuf::still(size)?);
/// let pair = Pair::of(&frame, &frame, &motion)?;
///
/// // Six numbers for the pixel of luma, and two for that of each chroma plane, three times.
/// let mut sums = [(); 3].map(|()| [6, 2, 2].map(|length| vec![0.0; length]));
/// let mut slots = sums.each_mut().map(|[luma, chroma1, chroma2]| Slot { luma, chroma: [chroma1, chroma2] });
///
/// let mut progress = Progress::start(size, Ratio::One, 1)?;
/// progress.push(&mut slots, 0, &pair)?;
/// assert!(progress.is_due());
/// let mut layer = LayerBuf::new(size, Ratio::One)?;
/// let work = Work { models: &mut [0.0; 4], kept: &mut [0], cover: &mut [0] };
/// progress.layer(&slots, Settings::default(), work, layer.layer_mut())?;
/// assert_eq!(layer.layer().luma, [4096, 0]);
/// assert!(progress.is_done());
/// # Ok::<(), safeteal::Error>(())
/// ```
#[derive(Clone, Copy, Debug, PartialEq, Eq, Hash)]
pub struct Progress {
    /// The size of luma.
    pub size: Size,
    /// Luma pixels per chroma pixel, each way.
    pub ratio: Ratio,
    /// The clip's pairs.
    pub pairs: usize,
    /// How many pairs were handed over: the next one has this number.
    pub added: usize,
    /// How many layers were taken: the next one has this number.
    pub taken: usize,
}

impl Progress {
    /// The clip's chunks: as many layers it gives.
    ///
    /// ```
    /// use safeteal::{Progress, Ratio, Size};
    ///
    /// let progress = Progress::start(Size::new(64, 32), Ratio::Two, 30)?;
    /// assert_eq!(progress.chunks(), 3);
    /// assert_eq!((progress.chunk(1), progress.chunk(2), progress.chunk(3)), (12..24, 24..30, 30..30));
    /// # Ok::<(), safeteal::Error>(())
    /// ```
    #[must_use]
    pub fn chunks(&self) -> usize {
        self.pairs.div_ceil(Sums::MOST)
    }

    /// The numbers of a chunk's pairs; none behind the last chunk.
    #[must_use]
    pub fn chunk(&self, number: usize) -> Range<usize> {
        let begins = number.saturating_mul(Sums::MOST).min(self.pairs);
        begins..begins.saturating_add(Sums::MOST).min(self.pairs)
    }

    /// Whether a layer is due. None is where the numbers are no state of a walk.
    #[must_use]
    pub fn is_due(&self) -> bool {
        ffi::walk_due(self.walk()) != 0
    }

    /// Whether all pairs were handed over and all layers taken.
    #[must_use]
    pub fn is_done(&self) -> bool {
        (self.added, self.taken) == (self.pairs, self.chunks())
    }

    /// The size of luma and the ratio.
    pub(crate) fn shape(&self) -> Shape {
        (self.size, self.ratio)
    }

    /// As C takes it.
    pub(crate) fn walk(&self) -> ffi::Walk {
        ffi::Walk {
            width: self.size.width,
            height: self.size.height,
            ratio: self.ratio.number(),
            pairs: self.pairs,
            added: self.added,
            taken: self.taken,
        }
    }

    /// Whether calls that were accepted can leave these numbers, from a start on: all layers that were due before the
    /// last pair are taken, and none that is not due. It is for the words of a refusal alone.
    pub(crate) fn is_left(&self) -> bool {
        let ready = |added: usize| match added == self.pairs {
            true => self.chunks(),
            false => (added / Sums::MOST).saturating_sub(1),
        };
        let least = self.added.checked_sub(1).map_or(0, ready);
        self.added <= self.pairs && (least..=ready(self.added)).contains(&self.taken)
    }

    /// The pair after which a layer is due, if the clip gives it: the last one of the chunk after its own, or of the
    /// clip.
    pub(crate) fn last_for(&self, layer: usize) -> Option<usize> {
        let own = self.chunk(layer);
        let next = self.chunk(layer.saturating_add(1));
        (!own.is_empty()).then(|| next.end - 1)
    }
}

/// The sums of one of the three chunks that a walk keeps, lent to [`Progress`].
#[derive(PartialEq)]
pub struct Slot<'a> {
    /// Exactly six numbers for each luma pixel.
    pub luma: &'a mut [f32],
    /// Exactly two numbers for each pixel of the plane.
    pub chroma: [&'a mut [f32]; 2],
}

impl<'a> Slot<'a> {
    /// The sums of a walk of its own.
    pub(crate) fn of(numbers: &'a mut Numbers<f32>) -> Self {
        let (luma, chroma) = numbers.slices_mut();
        Self { luma, chroma }
    }

    /// Luma and both planes of chroma, to read.
    pub(crate) fn slices(&self) -> [&[f32]; 3] {
        [self.luma, self.chroma[0], self.chroma[1]]
    }

    /// The same to write.
    pub(crate) fn slices_mut(&mut self) -> [&mut [f32]; 3] {
        let Self { luma, chroma } = self;
        let [chroma1, chroma2] = chroma;
        [luma, chroma1, chroma2]
    }
}
