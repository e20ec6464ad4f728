//! Which argument a refusal was given for.

use super::{Fault, Number, Why};
use crate::groups::{Form, LentLayer};
use crate::{
    Channel, Frames, Mask, Motion, Part, Plane, PlaneMut, Ratio, Refusal, Settings, Size, Sums,
    Work,
};

/// Goes through the arguments of a refused call in the order of the table. Only what bears on the refusal is looked at,
/// so that all rows before it hold.
pub(crate) struct Search {
    refusal: Refusal,
    fault: Option<Fault>,
}

impl Search {
    pub fn new(refusal: Refusal) -> Self {
        let fault = None;
        Self { refusal, fault }
    }

    /// What was found: nothing where no argument alone is at fault.
    pub fn fault(self) -> Option<Fault> {
        self.fault
    }

    pub(super) fn note(mut self, refusal: Refusal, fault: impl FnOnce() -> Option<Fault>) -> Self {
        if self.refusal == refusal && self.fault.is_none() {
            self.fault = fault();
        }
        self
    }

    /// A number with its limits, which `kind` keeps as they are.
    fn range<T: Copy + PartialOrd>(
        self,
        refusal: Refusal,
        name: &'static str,
        kind: fn(T) -> Number,
        value: T,
        limits: [T; 2],
    ) -> Self {
        let outside = !(limits[0]..=limits[1]).contains(&value);
        self.note(refusal, || {
            outside.then(|| Fault::Outside(name, kind(value), limits.map(kind)))
        })
    }

    pub(super) fn sizes(
        self,
        refusal: Refusal,
        name: &'static str,
        value: usize,
        limits: [usize; 2],
    ) -> Self {
        self.range(refusal, name, Number::Size, value, limits)
    }

    fn ints(self, name: &'static str, value: i32, limits: [i32; 2]) -> Self {
        self.range(Refusal::Motion, name, Number::Int, value, limits)
    }

    pub fn size(self, size: Size) -> Self {
        let limits = [1, 4096];
        self.sizes(Refusal::Size, "width", size.width, limits)
            .sizes(Refusal::Size, "height", size.height, limits)
    }

    /// The width of the rows that distances are made in.
    pub fn width(self, width: usize) -> Self {
        let zero = (width == 0).then_some(Fault::Zero("width"));
        self.note(Refusal::Size, || zero)
    }

    /// A number that is no ratio.
    pub fn no_ratio(self, ratio: usize) -> Self {
        self.note(Refusal::Ratio, || {
            Some(Fault::NoneOf("ratio", Number::Size(ratio)))
        })
    }

    pub fn ratio(self, ratio: usize, size: Size) -> Self {
        let undivided = || Fault::Undivided(size, ratio);
        self.note(Refusal::Ratio, || (!size.divided_by(ratio)).then(undivided))
    }

    pub fn pitch(self, name: &'static str, pitch: usize, row: usize) -> Self {
        self.sizes(Refusal::Pitch, name, pitch, [row, 65_536])
    }

    pub fn at_least(self, name: &'static str, has: usize, why: Why) -> Self {
        self.note(Refusal::Length, || {
            (has < why.length()).then_some(Fault::Short(name, has, why))
        })
    }

    pub fn exactly(self, name: &'static str, has: usize, why: Why) -> Self {
        self.note(Refusal::Length, || {
            (has != why.length()).then_some(Fault::Inexact(name, has, why))
        })
    }

    /// A byte plane: its pitch under the first name, its length under the second.
    pub fn plane(self, names: [&'static str; 2], plane: Plane<'_>) -> Self {
        let why = Why::Rows(plane.size, plane.pitch);
        self.pitch(names[0], plane.pitch, plane.size.width)
            .at_least(names[1], plane.data.len(), why)
    }

    /// A mask: a step of 1 to 8 across, and one down.
    pub fn mask(self, mask: Mask<'_>, size: Size) -> Self {
        self.note(Refusal::Ratio, || {
            let across = (1..=8).any(|step| step * size.width == mask.width);
            Some(if across {
                Fault::StepDown(mask.data.len(), mask.width, size.height)
            } else {
                Fault::StepAcross(mask.width, size.width)
            })
        })
    }

    /// The plane that is written.
    pub fn output(self, output: &PlaneMut<'_>) -> Self {
        self.plane(["the pitch of output", "output"], output.plane())
    }

    /// What apply and hold have in common.
    pub fn masked(self, mask: Mask<'_>, output: &PlaneMut<'_>) -> Self {
        let size = output.size;
        self.size(size).mask(mask, size).output(output)
    }

    /// The planes of two frames.
    pub fn two(self, first: Plane<'_>, second: Plane<'_>) -> Self {
        self.plane(["the pitch of first", "first"], first)
            .plane(["the pitch of second", "second"], second)
    }

    /// The planes of two frames that are taken by one pitch.
    pub fn of_one_pitch(self, first: Plane<'_>, second: Plane<'_>) -> Self {
        let pitches = (first.pitch, second.pitch);
        self.two(first, second).note(Refusal::Pitch, || {
            (pitches.0 != pitches.1).then_some(Fault::Pitches(pitches.0, pitches.1))
        })
    }

    /// The planes of two frames and the time.
    pub fn frames(self, frames: &Frames<'_>) -> Self {
        self.two(frames.first, frames.second).time(frames.time)
    }

    /// A layer; what its slices have is counted in whole numbers.
    pub fn layer<T: Form>(self, layer: &LentLayer<'_, T>) -> Self {
        let (size, pitch) = (layer.size, layer.pitch);
        let chroma = layer.plane(Channel::Chroma1);
        let [luma, chroma1, chroma2] = layer.lengths();
        let halves = |pitch: usize, size: Size| Why::Halves(size.height, pitch);
        self.size(size)
            .ratio(layer.ratio, size)
            .pitch("the luma pitch of the layer", pitch.0, size.width)
            .pitch("the chroma pitch of the layer", pitch.1, chroma.width)
            .at_least("luma", luma, halves(pitch.0, size))
            .at_least("chroma[0]", chroma1, halves(pitch.1, chroma))
            .at_least("chroma[1]", chroma2, halves(pitch.1, chroma))
    }

    /// Three slices with exactly so many numbers for each pixel of luma, and two for each pixel of chroma.
    pub fn slices(
        self,
        names: [&'static str; 3],
        lengths: [usize; 3],
        each: usize,
        size: Size,
        ratio: Ratio,
    ) -> Self {
        let chroma = Why::Pixels(2, size.plane(Channel::Chroma1, ratio));
        self.exactly(names[0], lengths[0], Why::Pixels(each, size))
            .exactly(names[1], lengths[1], chroma)
            .exactly(names[2], lengths[2], chroma)
    }

    /// The slices of a layer that is written.
    pub fn layer_slices(self, lengths: [usize; 3], size: Size, ratio: Ratio) -> Self {
        self.slices(["luma", "chroma[0]", "chroma[1]"], lengths, 2, size, ratio)
    }

    /// What fit works in.
    pub fn work(self, work: &Work<'_>, size: Size) -> Self {
        self.exactly("models", work.models.len(), Why::Pixels(4, size))
            .exactly("kept", work.kept.len(), Why::Pixels(1, size))
            .exactly("cover", work.cover.len(), Why::Cells(size))
    }

    /// The sums of a part.
    pub fn part(self, names: [&'static str; 3], part: Part<'_>, size: Size, ratio: Ratio) -> Self {
        let lengths = [part.luma, part.chroma[0], part.chroma[1]].map(<[f32]>::len);
        self.slices(names, lengths, 6, size, ratio)
    }

    /// The sums of a part that may be absent.
    pub fn neighbour(
        self,
        names: [&'static str; 3],
        part: Option<Part<'_>>,
        size: Size,
        ratio: Ratio,
    ) -> Self {
        match part {
            Some(part) => self.part(names, part, size, ratio),
            None => self,
        }
    }

    /// The pairs of a neighbour that is there.
    pub fn pairs_beside(
        self,
        name: &'static str,
        of: &'static str,
        part: Option<Part<'_>>,
    ) -> Self {
        let Some(Part { pairs, .. }) = part else {
            return self;
        };
        self.note(Refusal::Pairs, || {
            (pairs == 0).then_some(Fault::NoPairs(name))
        })
        .pairs(of, pairs)
    }

    pub fn motion(self, motion: &Motion<'_>) -> Self {
        let (sides, blocks, origins) = ([1, 4096], [1, 128], [-4096, 4096]);
        self.field("forward.0", motion.forward.0, motion.grid)
            .field("forward.1", motion.forward.1, motion.grid)
            .field("backward.0", motion.backward.0, motion.grid)
            .field("backward.1", motion.backward.1, motion.grid)
            .sizes(Refusal::Motion, "the grid's width", motion.grid.0, sides)
            .sizes(Refusal::Motion, "the grid's height", motion.grid.1, sides)
            .ints("the block's width", motion.block.0, blocks)
            .ints("the block's height", motion.block.1, blocks)
            .ints("the origin's x", motion.origin.0, origins)
            .ints("the origin's y", motion.origin.1, origins)
            .note(Refusal::Motion, || {
                (![1, 2, 4].contains(&motion.pel))
                    .then_some(Fault::NoneOf("pel", Number::Int(motion.pel)))
            })
    }

    /// A field of motion. The grid is any two numbers here, whose product may be none.
    fn field(self, name: &'static str, field: &[u16], grid: (usize, usize)) -> Self {
        self.note(Refusal::Length, || {
            let wrong = grid.0.checked_mul(grid.1) != Some(field.len());
            wrong.then_some(Fault::Field(name, field.len(), grid))
        })
    }

    pub fn pan(self, name: &'static str, pixels: i32) -> Self {
        self.ints(name, pixels, [-1024, 1024])
    }

    pub fn setting(self, name: &'static str, value: f32, limits: [f32; 2]) -> Self {
        self.range(Refusal::Setting, name, Number::Float, value, limits)
    }

    /// What fit takes for lettering.
    pub fn settings(self, settings: Settings) -> Self {
        self.setting("limit", settings.limit, [0.5, 255.0]).setting(
            "evidence",
            settings.evidence,
            [0.0, 65_536.0],
        )
    }

    pub fn time(self, time: f32) -> Self {
        self.setting("time", time, [0.0, 1.0])
    }

    pub fn pairs(self, name: &'static str, pairs: usize) -> Self {
        self.sizes(Refusal::Pairs, name, pairs, [1, Sums::MOST])
    }

    /// Sums that hold so many pairs already.
    pub fn full(self, pairs: usize) -> Self {
        self.note(Refusal::Pairs, || Some(Fault::Full(pairs)))
    }
}
