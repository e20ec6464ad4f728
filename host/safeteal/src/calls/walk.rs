use std::iter;

use super::stats::{planes, sizes};
use super::WorkBuf;
use crate::answer::walked;
use crate::error::Search;
use crate::numbers::Numbers;
use crate::plane::Shape;
use crate::{
    ffi, groups, Error, LayerBuf, LayerMut, Pair, Progress, Ratio, Result, Settings, Size, Slot,
    Walk, Work,
};

/// The planes of a walk, in the words for what is not of their size.
const WALK: [&str; 3] = [
    "the walk's luma",
    "the walk's chroma1",
    "the walk's chroma2",
];

/// The names of the slices of sums.
const SLOTS: [[&str; 3]; 3] = [
    ["slots[0].luma", "slots[0].chroma[0]", "slots[0].chroma[1]"],
    ["slots[1].luma", "slots[1].chroma[0]", "slots[1].chroma[1]"],
    ["slots[2].luma", "slots[2].chroma[0]", "slots[2].chroma[1]"],
];

/// Starts a walk, for the call of that name.
fn started(call: &'static str, (size, ratio): Shape, pairs: usize) -> Result<Progress> {
    let number = ratio.number();
    let answer = ffi::walk_start(size.width, size.height, number, pairs);
    walked(call, answer, |search| search.size(size).ratio(number, size))
}

/// Hands over a pair, for the call of that name; gives how far the walk has come then.
fn pushed(
    call: &'static str,
    progress: Progress,
    slots: &mut [Slot<'_>; 3],
    number: usize,
    pair: &Pair<'_>,
) -> Result<Progress> {
    let shape = progress.shape();
    sizes(call, WALK, shape, pair)?;
    let answer = groups::walk_pair(progress.walk(), slots, number, pair);
    walked(call, answer, |search| {
        lengths(planes(search, shape, pair), slots, shape)
            .motion(&pair.motion)
            .pair(&progress, number)
    })
}

/// Fits the layer that is due, for the call of that name; gives how far the walk has come then.
fn fitted(
    call: &'static str,
    progress: Progress,
    slots: &[Slot<'_>; 3],
    settings: Settings,
    mut work: Work<'_>,
    mut layer: LayerMut<'_>,
) -> Result<Progress> {
    let (size, ratio) = progress.shape();
    let answer = groups::walk_layer(progress.walk(), slots, settings, &mut work, &mut layer);
    walked(call, answer, |search| {
        let search = search.size(size).ratio(ratio.number(), size);
        lengths(search, slots, (size, ratio))
            .work(&work, size)
            .layer_slices(layer.lengths(), size, ratio)
            .settings(settings)
            .layer_due(&progress)
    })
}

/// The lengths of the sums that a walk keeps.
fn lengths(search: Search, slots: &[Slot<'_>; 3], (size, ratio): Shape) -> Search {
    SLOTS
        .iter()
        .zip(slots)
        .fold(search, |search, (names, slot)| {
            let lengths = slot.slices().map(<[f32]>::len);
            search.slices(*names, lengths, 6, size, ratio)
        })
}

impl Progress {
    /// The start of a walk over a clip of that many pairs.
    ///
    /// # Errors
    /// `Refusal::Size`, `Refusal::Ratio`.
    pub fn start(size: Size, ratio: Ratio, pairs: usize) -> Result<Self> {
        started("Progress::start", (size, ratio), pairs)
    }

    /// Hands over the next pair with its number, from 0 on.
    ///
    /// The three slots are those of the pairs before; at the start they may hold anything.
    ///
    /// # Errors
    /// `Refusal::Size` (for planes and a motion of another size as well), `Refusal::Ratio`, `Refusal::Pitch`,
    /// `Refusal::Length`, `Refusal::Motion`; `Refusal::Turn` for a pair of another number, after the last or while a
    /// layer is due, and for numbers that are no state of a walk. Then nothing is changed.
    pub fn push(
        &mut self,
        slots: &mut [Slot<'_>; 3],
        number: usize,
        pair: &Pair<'_>,
    ) -> Result<()> {
        *self = pushed("Progress::push", *self, slots, number, pair)?;
        Ok(())
    }

    /// Takes the layer that is due, into a layer that is lent.
    ///
    /// # Errors
    /// `Refusal::Size`, `Refusal::Ratio`, `Refusal::Length`, `Refusal::Setting`; `Refusal::Turn` where no layer is due,
    /// and for numbers that are no state of a walk. Then nothing is changed.
    pub fn layer(
        &mut self,
        slots: &[Slot<'_>; 3],
        settings: Settings,
        work: Work<'_>,
        layer: LayerMut<'_>,
    ) -> Result<()> {
        *self = fitted("Progress::layer", *self, slots, settings, work, layer)?;
        Ok(())
    }
}

impl Walk {
    /// The start of a walk over a clip of that many pairs.
    ///
    /// ```
    /// use safeteal::{Ratio, Size, Walk};
    ///
    /// let walk = Walk::new(Size::new(64, 32), Ratio::Two, 30)?;
    /// assert_eq!((walk.pairs(), walk.chunks(), walk.added(), walk.taken()), (30, 3, 0, 0));
    /// assert!(!walk.is_due() && !walk.is_done());
    ///
    /// // Where there is nothing to walk over, the walk is done.
    /// assert!(Walk::new(Size::new(64, 32), Ratio::Two, 0)?.is_done());
    /// # Ok::<(), safeteal::Error>(())
    /// ```
    ///
    /// # Errors
    /// `Refusal::Size` and `Refusal::Ratio`, as in every call.
    pub fn new(size: Size, ratio: Ratio, pairs: usize) -> Result<Self> {
        let call = "Walk::new";
        let progress = started(call, (size, ratio), pairs)?;
        let sums = || Numbers::zeros(6, size, ratio, call);
        Ok(Self {
            progress,
            sums: [sums()?, sums()?, sums()?],
            work: WorkBuf::new(size),
        })
    }

    /// Hands over the next pair. Its number goes by itself.
    ///
    /// The planes and the motion must be of the walk's own size and ratio.
    ///
    /// ```
    /// use safeteal::{Frame, MotionBuf, Pair, Ratio, Refusal, Settings, Size, Walk};
    ///
    /// let size = Size::new(1, 1);
    /// let (frame, motion) = (Frame::new(size, Ratio::One, [90, 128, 128])?, MotionBuf::still(size)?);
    /// let pair = Pair::of(&frame, &frame, &motion)?;
    /// let mut walk = Walk::new(size, Ratio::One, 30)?;
    /// for _ in 0..24 {
    ///     walk.push(&pair)?;
    /// }
    /// let error = walk.push(&pair).unwrap_err();
    /// assert_eq!(error.refusal(), Refusal::Turn);
    /// assert_eq!(error.to_string(), "Walk::push refused (12): layer 0 is due; take it before pair 24");
    ///
    /// // Nothing is lost: the walk goes on.
    /// walk.layer(Settings::default())?;
    /// walk.push(&pair)?;
    /// assert_eq!(walk.added(), 25);
    /// # Ok::<(), safeteal::Error>(())
    /// ```
    ///
    /// # Errors
    /// `Refusal::Size` for planes and a motion of another size, `Refusal::Pitch`, `Refusal::Length`, `Refusal::Motion`;
    /// `Refusal::Turn` while a layer is due, and after the clip's last pair.
    pub fn push(&mut self, pair: &Pair<'_>) -> Result<()> {
        self.add("Walk::push", self.progress.added, pair)
    }

    /// Hands over the pair of that number, where the caller knows it: a pair that was left out is noticed.
    ///
    /// ```
    /// use safeteal::{Frame, MotionBuf, Pair, Ratio, Size, Walk};
    ///
    /// let size = Size::new(1, 1);
    /// let (frame, motion) = (Frame::new(size, Ratio::One, [90, 128, 128])?, MotionBuf::still(size)?);
    /// let pair = Pair::of(&frame, &frame, &motion)?;
    /// let mut walk = Walk::new(size, Ratio::One, 30)?;
    /// walk.push_numbered(0, &pair)?;
    /// let error = walk.push_numbered(2, &pair).unwrap_err();
    /// assert_eq!(
    ///     error.to_string(),
    ///     "Walk::push_numbered refused (12): the pair's number is 2 and must be 1: pairs are handed over in turn, \
    ///      from 0 on"
    /// );
    /// walk.push_numbered(1, &pair)?;
    /// # Ok::<(), safeteal::Error>(())
    /// ```
    ///
    /// # Errors
    /// As [`push`](Self::push); `Refusal::Turn` for another number than [`added`](Self::added) as well.
    pub fn push_numbered(&mut self, number: usize, pair: &Pair<'_>) -> Result<()> {
        self.add("Walk::push_numbered", number, pair)
    }

    /// Takes the layer that is due.
    ///
    /// ```
    /// use safeteal::{Frame, MotionBuf, Pair, Ratio, Refusal, Settings, Size, Walk};
    ///
    /// let size = Size::new(1, 1);
    /// let (frame, motion) = (Frame::new(size, Ratio::One, [90, 128, 128])?, MotionBuf::still(size)?);
    /// let mut walk = Walk::new(size, Ratio::One, 2)?;
    /// walk.push(&Pair::of(&frame, &frame, &motion)?)?;
    /// let error = walk.layer(Settings::default()).unwrap_err();
    /// assert_eq!(error.refusal(), Refusal::Turn);
    /// assert_eq!(
    ///     error.to_string(),
    ///     "Walk::layer refused (12): layer 0 is due after pair 1, and pair 1 is the next to hand over"
    /// );
    ///
    /// walk.push(&Pair::of(&frame, &frame, &motion)?)?;
    /// // Each layer may have settings of its own. This clip has two pairs, and so four comparisons.
    /// let layer = walk.layer(Settings { evidence: 4.0, ..Settings::default() })?;
    /// assert_eq!(layer.layer().luma, [4096, 0]);
    /// assert_eq!((walk.taken(), walk.is_done()), (1, true));
    /// # Ok::<(), safeteal::Error>(())
    /// ```
    ///
    /// # Errors
    /// `Refusal::Setting`; `Refusal::Turn` where no layer is due.
    pub fn layer(&mut self, settings: Settings) -> Result<LayerBuf> {
        self.take("Walk::layer", settings)
    }

    /// Takes the layer that is due into one that is there already, of the walk's size and ratio: nothing is allocated.
    ///
    /// ```
    /// use safeteal::{Frame, LayerBuf, MotionBuf, Pair, Ratio, Settings, Size, Walk};
    ///
    /// let size = Size::new(16, 16);
    /// let (frame, motion) = (Frame::new(size, Ratio::Two, [90, 128, 128])?, MotionBuf::still(size)?);
    /// let (mut walk, mut layer) = (Walk::new(size, Ratio::Two, 100)?, LayerBuf::new(size, Ratio::Two)?);
    /// while !walk.is_done() {
    ///     if walk.is_due() {
    ///         walk.layer_into(Settings::default(), &mut layer)?;
    ///         assert!(layer.layer().empty()?);
    ///     } else {
    ///         walk.push(&Pair::of(&frame, &frame, &motion)?)?;
    ///     }
    /// }
    /// assert_eq!(walk.taken(), 9);
    /// # Ok::<(), safeteal::Error>(())
    /// ```
    ///
    /// # Errors
    /// As [`layer`](Self::layer); `Refusal::Size` for a layer of another size or ratio. Then the layer is as it was.
    pub fn layer_into(&mut self, settings: Settings, layer: &mut LayerBuf) -> Result<()> {
        let call = "Walk::layer_into";
        Error::of_sizes(call, |search| {
            let is = (layer.size(), layer.ratio());
            search.alike("layer", is, "the walk", self.progress.shape())
        })?;
        self.progress = self.fit(call, settings, layer.layer_mut())?;
        Ok(())
    }

    /// Takes all layers that are due, each with the number of its chunk. It ends after the last of them, or after one
    /// that is refused.
    ///
    /// Layers that are left when the iterator is dropped are still due.
    ///
    /// ```
    /// use safeteal::{Frame, MotionBuf, Pair, Ratio, Settings, Size, Walk};
    ///
    /// let size = Size::new(1, 1);
    /// let (frame, motion) = (Frame::new(size, Ratio::One, [90, 128, 128])?, MotionBuf::still(size)?);
    /// let mut walk = Walk::new(size, Ratio::One, 13)?;
    /// for _ in 0..13 {
    ///     walk.push(&Pair::of(&frame, &frame, &motion)?)?;
    /// }
    /// for layer in walk.layers(Settings::default()) {
    ///     let (chunk, layer) = layer?;
    ///     println!("chunk {chunk}: {}", if layer.layer().empty()? { "nothing" } else { "lettering" });
    /// }
    /// assert_eq!(walk.taken(), 2);
    /// # Ok::<(), safeteal::Error>(())
    /// ```
    ///
    /// # Errors
    /// `Refusal::Setting`.
    pub fn layers(
        &mut self,
        settings: Settings,
    ) -> impl Iterator<Item = Result<(usize, LayerBuf)>> + '_ {
        let mut refused = false;
        iter::from_fn(move || {
            if refused || !self.is_due() {
                return None;
            }
            let chunk = self.taken();
            let layer = self.take("Walk::layers", settings);
            refused = layer.is_err();
            Some(layer.map(|layer| (chunk, layer)))
        })
    }

    /// The layer that is due, which is not taken by it: so that settings can be tried.
    ///
    /// ```
    /// use safeteal::{Frame, MotionBuf, Pair, Ratio, Settings, Size, Walk};
    ///
    /// let size = Size::new(1, 1);
    /// let (frame, motion) = (Frame::new(size, Ratio::One, [90, 128, 128])?, MotionBuf::still(size)?);
    /// let mut walk = Walk::new(size, Ratio::One, 1)?;
    /// walk.push(&Pair::of(&frame, &frame, &motion)?)?;
    /// let tried = walk.preview(Settings { evidence: 0.0, ..Settings::default() })?;
    /// assert!(walk.is_due());
    /// assert_eq!(walk.layer(Settings { evidence: 0.0, ..Settings::default() })?, tried);
    /// # Ok::<(), safeteal::Error>(())
    /// ```
    ///
    /// # Errors
    /// As [`layer`](Self::layer).
    pub fn preview(&mut self, settings: Settings) -> Result<LayerBuf> {
        self.made("Walk::preview", settings).map(|(layer, _)| layer)
    }

    /// Hands over a pair, for the call of that name.
    fn add(&mut self, call: &'static str, number: usize, pair: &Pair<'_>) -> Result<()> {
        let mut slots = self.sums.each_mut().map(Slot::of);
        self.progress = pushed(call, self.progress, &mut slots, number, pair)?;
        Ok(())
    }

    /// Takes a layer, for the call of that name.
    fn take(&mut self, call: &'static str, settings: Settings) -> Result<LayerBuf> {
        let (layer, progress) = self.made(call, settings)?;
        self.progress = progress;
        Ok(layer)
    }

    /// A new layer, for the call of that name, and how far the walk has come with it.
    fn made(&mut self, call: &'static str, settings: Settings) -> Result<(LayerBuf, Progress)> {
        let (size, ratio) = self.progress.shape();
        let mut made = LayerBuf::zeros(size, ratio, call)?;
        let progress = self.fit(call, settings, made.layer_mut())?;
        Ok((made, progress))
    }

    /// Fits the layer that is due, for the call of that name; gives how far the walk has come with it.
    fn fit(
        &mut self,
        call: &'static str,
        settings: Settings,
        layer: LayerMut<'_>,
    ) -> Result<Progress> {
        let slots = self.sums.each_mut().map(Slot::of);
        fitted(
            call,
            self.progress,
            &slots,
            settings,
            self.work.work(),
            layer,
        )
    }
}
