use crate::answer::done;
use crate::error::Search;
use crate::plane::Shape;
use crate::{groups, Channel, Error, Pair, Ratio, Result, Size, Sums};

/// The names of each plane's pitch and slice.
const FIRST: [[&str; 2]; 3] = [
    ["the pitch of first[0]", "first[0]"],
    ["the pitch of first[1]", "first[1]"],
    ["the pitch of first[2]", "first[2]"],
];
const SECOND: [[&str; 2]; 3] = [
    ["the pitch of second[0]", "second[0]"],
    ["the pitch of second[1]", "second[1]"],
    ["the pitch of second[2]", "second[2]"],
];

/// Adds one pair of frames to sums that hold `pairs` already; with 0 pairs it starts from 0, whatever the slices hold.
///
/// `luma` has exactly six numbers for each luma pixel, each slice of `chroma` two for each pixel of its plane.
/// [`Sums::add`] does this with slices of its own.
///
/// # Errors
/// `Refusal::Size` (for planes and a motion of another size as well), `Refusal::Ratio`, `Refusal::Pitch`,
/// `Refusal::Length`, `Refusal::Motion`, `Refusal::Pairs` for 12 pairs or more.
pub fn stats(
    luma: &mut [f32],
    chroma: [&mut [f32]; 2],
    pairs: usize,
    size: Size,
    ratio: Ratio,
    pair: &Pair<'_>,
) -> Result<()> {
    added("stats", luma, chroma, pairs, (size, ratio), pair)
}

/// The same for the call of that name.
fn added(
    call: &'static str,
    luma: &mut [f32],
    [chroma1, chroma2]: [&mut [f32]; 2],
    pairs: usize,
    (size, ratio): Shape,
    pair: &Pair<'_>,
) -> Result<()> {
    let lengths = [luma.len(), chroma1.len(), chroma2.len()];
    sizes(call, SUMS, (size, ratio), pair)?;
    let word = groups::stats(luma, [chroma1, chroma2], pairs, size, ratio.number(), pair);
    done(call, word, |search| {
        let names = ["luma", "chroma[0]", "chroma[1]"];
        planes(search, (size, ratio), pair)
            .slices(names, lengths, 6, size, ratio)
            .motion(&pair.motion)
            .full(pairs)
    })
}

/// The planes of sums, in the words for what is not of their size.
const SUMS: [&str; 3] = ["the sums' luma", "the sums' chroma1", "the sums' chroma2"];

/// Refuses planes and a motion that have not the sizes of the planes of that name. Where that size is wrong itself, the
/// call refuses it.
pub(super) fn sizes(
    call: &'static str,
    names: [&'static str; 3],
    (size, ratio): Shape,
    pair: &Pair<'_>,
) -> Result<()> {
    if !size.is_taken(ratio.number()) {
        return Ok(());
    }
    Error::of_sizes(call, |mut search| {
        for &channel in Channel::ALL {
            let at = channel.number();
            let must = size.plane(channel, ratio);
            for (name, plane) in [(FIRST, pair.first), (SECOND, pair.second)] {
                search = search.same(name[at][1], plane[at].size, names[at], must);
            }
        }
        search.over(&pair.motion, names[0], size)
    })
}

/// A size, its ratio, and the six planes of a pair.
pub(super) fn planes(search: Search, (size, ratio): Shape, pair: &Pair<'_>) -> Search {
    let mut search = search.size(size).ratio(ratio.number(), size);
    for at in Channel::ALL.iter().map(|channel| channel.number()) {
        search = search.plane(FIRST[at], pair.first[at]);
        search = search.plane(SECOND[at], pair.second[at]);
    }
    search
}

impl Sums {
    /// Adds one pair of frames; twelve fit in.
    ///
    /// The planes and the motion must be of the sums' own size and ratio.
    ///
    /// ```
    /// use safeteal::{Frame, MotionBuf, Pair, Ratio, Refusal, Size, Sums};
    ///
    /// let size = Size::new(1, 1);
    /// let first = Frame::new(size, Ratio::One, [10, 128, 128])?;
    /// let second = Frame::new(size, Ratio::One, [50, 128, 128])?;
    /// let motion = MotionBuf::still(size)?;
    /// let pair = Pair::of(&first, &second, &motion)?;
    /// let mut sums = Sums::new(size, Ratio::One)?;
    /// for _ in 0..12 {
    ///     sums.add(&pair)?;
    /// }
    /// assert_eq!(sums.part().luma[..2], [720.0, 720.0]);
    /// let error = sums.add(&pair).unwrap_err();
    /// assert_eq!(error.refusal(), Refusal::Pairs);
    /// assert_eq!(error.to_string(), "Sums::add refused (7): the sums hold 12 pairs already, and take 12 at most");
    /// # Ok::<(), safeteal::Error>(())
    /// ```
    ///
    /// # Errors
    /// As [`stats`].
    pub fn add(&mut self, pair: &Pair<'_>) -> Result<()> {
        let shape = self.shape();
        let (luma, chroma) = self.numbers.slices_mut();
        added("Sums::add", luma, chroma, self.pairs, shape, pair)?;
        self.pairs += 1;
        Ok(())
    }
}
