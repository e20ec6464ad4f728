//! What is not of one size, and the words for it.

use std::fmt;

use super::{Fault, Search};
use crate::groups::{Form, LentLayer};
use crate::plane::Shape;
use crate::{Channel, Frame, Motion, Ratio, Refusal, Size};

/// One plane of a layer, in the words for what is not of its size.
const OF_LAYER: [&str; 3] = [
    "the layer's luma",
    "the layer's chroma1",
    "the layer's chroma2",
];

/// An argument that has not the size it must have: each with both sizes.
#[derive(Clone, Copy, Debug, PartialEq)]
pub(crate) enum Unlike {
    Shape(&'static str, Shape, &'static str, Shape),
    Size(&'static str, Size, &'static str, Size),
    Chroma(&'static str, Size, Shape),
    Replaced(&'static str, Channel, Size, Shape),
    MadeFor(Size, &'static str, Size),
    Uncovered(Blocks, Size),
}

/// The blocks of a motion: how many, their sides, where the first begins.
#[derive(Clone, Copy, Debug, PartialEq)]
pub(crate) struct Blocks {
    pub grid: (usize, usize),
    pub block: (i32, i32),
    pub origin: (i32, i32),
}

impl fmt::Display for Unlike {
    fn fmt(&self, f: &mut fmt::Formatter<'_>) -> fmt::Result {
        match *self {
            Unlike::Shape(name, (is, ratio), other, (must, of)) => write!(
                f,
                "`{name}` is {is} at ratio {ratio}, and {other} {must} at ratio {of}"
            ),
            Unlike::Size(name, is, other, must) => {
                write!(f, "`{name}` is {is}, and {other} is {must}")
            }
            Unlike::Chroma(name, is, (luma, ratio)) => write!(
                f,
                "`{name}` is {is}, and must be {}: chroma of {luma} at ratio {ratio}",
                luma.plane(Channel::Chroma1, ratio)
            ),
            Unlike::Replaced(name, channel, is, (luma, ratio)) => write!(
                f,
                "{channel} of `{name}` is {is}, and must be {}: chroma of {luma} at ratio {ratio}",
                luma.plane(channel, ratio)
            ),
            Unlike::MadeFor(size, other, must) => {
                write!(f, "`motion` is made for {size}, and {other} is {must}")
            }
            Unlike::Uncovered(blocks, size) => write!(
                f,
                "the motion's {blocks} does not cover luma of {size}: at each border fewer pixels than a block may \
                 stay outside"
            ),
        }
    }
}

impl fmt::Display for Blocks {
    fn fmt(&self, f: &mut fmt::Formatter<'_>) -> fmt::Result {
        let ((across, down), (width, height)) = (self.grid, self.block);
        write!(
            f,
            "grid of {across} by {down} blocks, each {width} by {height} pixels and the first at {:?},",
            self.origin
        )
    }
}

impl Search {
    /// Frames or sums that must have the size and ratio of others.
    pub fn alike(self, name: &'static str, is: Shape, other: &'static str, must: Shape) -> Self {
        self.note(Refusal::Size, || {
            (is != must).then_some(Fault::Unlike(Unlike::Shape(name, is, other, must)))
        })
    }

    /// A frame that must have the size and ratio of another, or of a layer, in all its planes: one of them can have
    /// been replaced.
    pub fn frame(
        self,
        name: &'static str,
        frame: &Frame,
        other: &'static str,
        must: Shape,
    ) -> Self {
        let (luma, ratio) = frame.shape();
        let chroma = [Channel::Chroma1, Channel::Chroma2].into_iter();
        chroma.fold(
            self.alike(name, (luma, ratio), other, must),
            |search, channel| {
                let is = frame[channel].size();
                let replaced = Fault::Unlike(Unlike::Replaced(name, channel, is, (luma, ratio)));
                search.note(Refusal::Size, || {
                    (is != luma.plane(channel, ratio)).then_some(replaced)
                })
            },
        )
    }

    /// A plane that must have the size of another.
    pub fn same(self, name: &'static str, is: Size, other: &'static str, must: Size) -> Self {
        self.note(Refusal::Size, || {
            (is != must).then_some(Fault::Unlike(Unlike::Size(name, is, other, must)))
        })
    }

    /// Planes that must have the size of one of a layer. Where the layer's own size is wrong, the call refuses that.
    pub fn like_layer<T: Form>(
        mut self,
        layer: &LentLayer<'_, T>,
        channel: Channel,
        planes: &[(&'static str, Size)],
    ) -> Self {
        if layer.size.is_taken(layer.ratio) {
            for &(name, is) in planes {
                self = self.same(name, is, OF_LAYER[channel.number()], layer.plane(channel));
            }
        }
        self
    }

    /// A chroma plane beside luma of that size.
    pub fn chroma(self, name: &'static str, is: Size, luma: Size, ratio: Ratio) -> Self {
        let must = luma.plane(Channel::Chroma1, ratio);
        self.note(Refusal::Size, || {
            (is != must).then_some(Fault::Unlike(Unlike::Chroma(name, is, (luma, ratio))))
        })
    }

    /// A motion over luma of that size. Numbers of it that are outside their ranges, the call refuses.
    pub fn over(self, motion: &Motion<'_>, other: &'static str, luma: Size) -> Self {
        let Motion {
            grid,
            block,
            origin,
            size,
            ..
        } = *motion;
        self.note(Refusal::Size, || {
            let blocks = Blocks {
                grid,
                block,
                origin,
            };
            if size != luma {
                Some(Fault::Unlike(Unlike::MadeFor(size, other, luma)))
            } else if motion.numbers_are_inside() && !motion.covers() {
                Some(Fault::Unlike(Unlike::Uncovered(blocks, size)))
            } else {
                None
            }
        })
    }
}
