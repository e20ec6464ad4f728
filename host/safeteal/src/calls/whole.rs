//! What the calls on whole frames have in common.

use std::ops::{Add, Index};

use crate::groups::Form;
use crate::{Channel, Error, Frame, LayerOf, PlaneMut, Result};

/// How many pixels of each plane a call wrote.
///
/// ```
/// use safeteal::{Channel, Counts};
///
/// let counts = Counts { luma: 48, chroma1: 12, chroma2: 12 };
/// assert_eq!((counts[Channel::Chroma1], counts.total()), (12, 72));
/// ```
#[derive(Clone, Copy, Debug, Default, PartialEq, Eq, Hash)]
pub struct Counts {
    /// Of plane 0.
    pub luma: u64,
    /// Of plane 1.
    pub chroma1: u64,
    /// Of plane 2.
    pub chroma2: u64,
}

impl Counts {
    /// Of all three planes together.
    #[must_use]
    pub const fn total(self) -> u64 {
        self.luma + self.chroma1 + self.chroma2
    }
}

impl Index<Channel> for Counts {
    type Output = u64;

    fn index(&self, channel: Channel) -> &u64 {
        match channel {
            Channel::Luma => &self.luma,
            Channel::Chroma1 => &self.chroma1,
            Channel::Chroma2 => &self.chroma2,
        }
    }
}

impl Add for Counts {
    type Output = Self;

    /// Plane by plane, as over the frames of a clip.
    fn add(self, other: Self) -> Self {
        Self {
            luma: self.luma + other.luma,
            chroma1: self.chroma1 + other.chroma1,
            chroma2: self.chroma2 + other.chroma2,
        }
    }
}

/// Makes a call on each plane of a frame; `lent` are the frames that are read, with their names.
///
/// What a call refuses beside sizes (the layer's slices, the time, the motion) is the same for each plane. So it is
/// refused for luma, and no plane is written.
pub(crate) fn over_planes<T: Form>(
    call: &'static str,
    layer: &LayerOf<'_, T>,
    output: &mut Frame,
    lent: &[(&'static str, &Frame)],
    plane: impl Fn(Channel, PlaneMut<'_>) -> Result<u64>,
) -> Result<Counts> {
    let (size, ratio) = (layer.size, layer.ratio);
    // Where the layer's own size is wrong, the call refuses that.
    if size.is_taken(ratio.number()) {
        Error::of_sizes(call, |mut search| {
            for &(name, frame) in lent.iter().chain(&[("output", &*output)]) {
                search = search.frame(name, frame, "the layer", (size, ratio));
            }
            search
        })?;
    }
    let mut one = |channel: Channel| plane(channel, output.plane_mut(channel));
    Ok(Counts {
        luma: one(Channel::Luma)?,
        chroma1: one(Channel::Chroma1)?,
        chroma2: one(Channel::Chroma2)?,
    })
}
