use std::ops::Index;

use crate::error::Why;
use crate::{Error, Refusal, Result};

mod packed;

/// Width and height in pixels; the calls take 1 to 4096 each.
#[derive(Clone, Copy, Debug, PartialEq, Eq, Hash)]
pub struct Size {
    /// Pixels in a row.
    pub width: usize,
    /// Rows.
    pub height: usize,
}

impl Size {
    /// A size from its two numbers.
    #[must_use]
    pub const fn new(width: usize, height: usize) -> Self {
        Self { width, height }
    }

    /// The size of one plane, where this is luma's.
    ///
    /// ```
    /// use safeteal::{Channel, Ratio, Size};
    ///
    /// let luma = Size::new(640, 360);
    /// assert_eq!(luma.plane(Channel::Luma, Ratio::Two), luma);
    /// assert_eq!(luma.plane(Channel::Chroma1, Ratio::Two), Size::new(320, 180));
    /// ```
    #[must_use]
    pub const fn plane(self, channel: Channel, ratio: Ratio) -> Self {
        self.plane_by(channel, ratio.number())
    }

    /// The same by the ratio's number.
    pub(crate) const fn plane_by(self, channel: Channel, ratio: usize) -> Self {
        match channel {
            Channel::Luma => self,
            Channel::Chroma1 | Channel::Chroma2 => {
                Self::new(self.width / ratio, self.height / ratio)
            }
        }
    }

    /// The number of bytes of a cover: one for each 8 by 8 cell, begun ones included.
    ///
    /// For a size that no call takes it is at most `usize::MAX`.
    #[must_use]
    pub const fn cells(self) -> usize {
        let Self { width, height } = self.in_cells();
        width.saturating_mul(height)
    }

    /// Columns and rows of these cells: along a side the last pixel's, and those before it.
    pub(crate) const fn in_cells(self) -> Self {
        const fn along(side: usize) -> usize {
            match side.checked_sub(1) {
                Some(last) => (last >> 3) + 1,
                None => 0,
            }
        }
        Self::new(along(self.width), along(self.height))
    }

    /// Whether both sides are inside the limits.
    pub(crate) fn is_inside(self) -> bool {
        [self.width, self.height]
            .iter()
            .all(|side| (1..=4096).contains(side))
    }

    /// Whether the calls take luma of this size with that ratio.
    pub(crate) fn is_taken(self, ratio: usize) -> bool {
        self.is_inside() && [1, 2, 4].contains(&ratio) && self.divided_by(ratio)
    }

    /// Whether the ratio divides both sides.
    pub(crate) fn divided_by(self, ratio: usize) -> bool {
        self.width % ratio == 0 && self.height % ratio == 0
    }

    /// The pixels of a plane of this size, once it is known to be inside the limits: buffers can be made for it.
    pub(crate) fn pixels(self, call: &'static str) -> Result<usize> {
        if self.is_inside() {
            Ok(self.width * self.height)
        } else {
            Err(Error::of(call, Refusal::Size, |search| search.size(self)))
        }
    }

    /// The pixels of luma and of a chroma plane, where this is luma's size.
    pub(crate) fn pixels_of(self, ratio: Ratio, call: &'static str) -> Result<(usize, usize)> {
        let (pixels, each) = (self.pixels(call)?, ratio.number());
        if self.divided_by(each) {
            Ok((pixels, pixels / (each * each)))
        } else {
            Err(Error::of(call, Refusal::Ratio, |search| {
                search.ratio(each, self)
            }))
        }
    }
}

numbered! {
    /// Luma pixels per chroma pixel, each way. It has to divide both sides of luma.
    pub enum Ratio: usize {
        /// All planes have one size (4:4:4).
        One = 1,
        /// Chroma has half the width and half the height (4:2:0).
        Two = 2,
        /// Chroma has a quarter of each (4:1:0).
        Four = 4,
    }
}

impl TryFrom<usize> for Ratio {
    type Error = Error;

    /// ```
    /// use safeteal::{Ratio, Refusal};
    ///
    /// assert_eq!(Ratio::try_from(2), Ok(Ratio::Two));
    /// let error = Ratio::try_from(3).unwrap_err();
    /// assert_eq!(error.refusal(), Refusal::Ratio);
    /// assert_eq!(error.to_string(), "Ratio::try_from refused (2): ratio is 3 and must be 1, 2 or 4");
    /// ```
    fn try_from(number: usize) -> Result<Self> {
        let none = || {
            Error::of("Ratio::try_from", Refusal::Ratio, |search| {
                search.no_ratio(number)
            })
        };
        Self::of_number(number).ok_or_else(none)
    }
}

/// The size of luma and the ratio.
pub(crate) type Shape = (Size, Ratio);

numbered! {
    /// One of a frame's three planes.
    ///
    /// ```
    /// use safeteal::Channel;
    ///
    /// let names: Vec<String> = Channel::ALL.iter().map(ToString::to_string).collect();
    /// assert_eq!(names, ["luma", "chroma1", "chroma2"]);
    /// ```
    pub enum Channel: usize {
        /// Plane 0.
        Luma = 0 => "luma",
        /// Plane 1.
        Chroma1 = 1 => "chroma1",
        /// Plane 2.
        Chroma2 = 2 => "chroma2",
    }
}

/// A byte plane to read, with its size: `pitch` bytes from one row's start to the next.
///
/// The calls hold the size against the layer's or the sums', and refuse a plane of another. A part of a larger plane is
/// lent by the bytes from its first pixel on, its own size, and the larger plane's pitch.
///
/// Two are equal where their sizes, pitches and all their bytes are, padding included; compare [`rows`](Self::rows) to
/// leave it out.
///
/// ```
/// use safeteal::{Plane, Size};
///
/// // The lower right quarter of 4 by 4 pixels.
/// let bytes: Vec<u8> = (0..16).collect();
/// let quarter = Plane::pitched(&bytes[2 * 4 + 2..], Size::new(2, 2), 4);
/// assert_eq!((quarter.data[0], quarter.data[quarter.pitch]), (10, 14));
/// ```
#[derive(Clone, Copy, PartialEq, Eq)]
pub struct Plane<'a> {
    /// The rows, one after another.
    pub data: &'a [u8],
    /// Bytes from one row's start to the next.
    pub pitch: usize,
    /// Width and height.
    pub size: Size,
}

impl<'a> Plane<'a> {
    /// A plane without padding: each row begins where the one above it ends.
    #[must_use]
    pub const fn new(data: &'a [u8], size: Size) -> Self {
        Self::pitched(data, size, size.width)
    }

    /// A plane whose rows begin `pitch` bytes apart.
    #[must_use]
    pub const fn pitched(data: &'a [u8], size: Size, pitch: usize) -> Self {
        Self { data, pitch, size }
    }
}

/// A byte plane to write, with its size. What lies between its rows and behind them stays as it is.
#[derive(PartialEq, Eq)]
pub struct PlaneMut<'a> {
    /// The rows, one after another.
    pub data: &'a mut [u8],
    /// Bytes from one row's start to the next.
    pub pitch: usize,
    /// Width and height.
    pub size: Size,
}

impl<'a> PlaneMut<'a> {
    /// A plane without padding: each row begins where the one above it ends.
    #[must_use]
    pub fn new(data: &'a mut [u8], size: Size) -> Self {
        Self::pitched(data, size, size.width)
    }

    /// A plane whose rows begin `pitch` bytes apart.
    #[must_use]
    pub fn pitched(data: &'a mut [u8], size: Size, pitch: usize) -> Self {
        Self { data, pitch, size }
    }

    /// The same plane to read.
    #[must_use]
    pub fn plane(&self) -> Plane<'_> {
        Plane::pitched(self.data, self.size, self.pitch)
    }
}

/// A byte plane with a buffer of its own, without padding.
///
/// ```
/// use safeteal::{PlaneBuf, Refusal, Size};
///
/// let plane = PlaneBuf::from_bytes(Size::new(3, 2), vec![1, 2, 3, 4, 5, 6])?;
/// assert_eq!(plane.row(1), [4, 5, 6]);
/// assert_eq!(plane.plane().pitch, 3);
/// let error = PlaneBuf::from_bytes(Size::new(3, 2), vec![0; 5]).unwrap_err();
/// assert_eq!(error.refusal(), Refusal::Length);
/// # Ok::<(), safeteal::Error>(())
/// ```
#[derive(Clone, PartialEq, Eq)]
pub struct PlaneBuf {
    data: Vec<u8>,
    size: Size,
}

impl PlaneBuf {
    /// A plane of that byte everywhere.
    ///
    /// # Errors
    /// `Refusal::Size`.
    pub fn new(size: Size, byte: u8) -> Result<Self> {
        let data = vec![byte; size.pixels("PlaneBuf::new")?];
        Ok(Self { data, size })
    }

    /// A plane of these bytes, row after row.
    ///
    /// # Errors
    /// `Refusal::Size`, `Refusal::Length` where there is not exactly one byte for each pixel.
    pub fn from_bytes(size: Size, data: Vec<u8>) -> Result<Self> {
        let call = "PlaneBuf::from_bytes";
        let pixels = size.pixels(call)?;
        if data.len() == pixels {
            Ok(Self { data, size })
        } else {
            Err(Error::of(call, Refusal::Length, |search| {
                search.exactly("data", data.len(), Why::Pixels(1, size))
            }))
        }
    }

    /// The plane to read.
    #[must_use]
    pub fn plane(&self) -> Plane<'_> {
        Plane::new(&self.data, self.size)
    }

    /// The plane to write.
    #[must_use]
    pub fn plane_mut(&mut self) -> PlaneMut<'_> {
        PlaneMut::new(&mut self.data, self.size)
    }

    /// Width and height.
    #[must_use]
    pub fn size(&self) -> Size {
        self.size
    }

    /// All bytes, row after row.
    #[must_use]
    pub fn bytes(&self) -> &[u8] {
        &self.data
    }

    /// All bytes to write, row after row.
    #[must_use]
    pub fn bytes_mut(&mut self) -> &mut [u8] {
        &mut self.data
    }

    /// One row.
    ///
    /// # Panics
    /// Where there is no such row.
    #[must_use]
    pub fn row(&self, y: usize) -> &[u8] {
        &self.data[self.begins(y)..][..self.size.width]
    }
}

/// A frame: three planes with buffers of their own, read by their [`Channel`].
///
/// Their bytes can be written. A plane can be replaced as well (`frame[Channel::Luma] = plane`); where its size is not
/// the one that the others and the ratio ask for, the next call that takes the frame refuses it.
///
/// ```
/// use safeteal::{Channel, Frame, Ratio, Size};
///
/// let mut frame = Frame::new(Size::new(8, 4), Ratio::Two, [16, 128, 128])?;
/// assert_eq!(frame[Channel::Chroma1].size(), Size::new(4, 2));
/// frame.bytes_mut(Channel::Luma).fill(235);
/// assert_eq!(frame.planes()[0].data, [235; 32]);
/// let error = Frame::new(Size::new(5, 4), Ratio::Two, [0; 3]).unwrap_err();
/// assert_eq!(error.to_string(), "Frame::new refused (2): ratio 2 does not divide 5 by 4");
/// # Ok::<(), safeteal::Error>(())
/// ```
#[derive(Clone, Debug, PartialEq, Eq)]
pub struct Frame {
    planes: [PlaneBuf; 3],
    ratio: Ratio,
}

impl Frame {
    /// A frame of one colour: a byte for each plane.
    ///
    /// # Errors
    /// `Refusal::Size`, `Refusal::Ratio`.
    pub fn new(size: Size, ratio: Ratio, colour: [u8; 3]) -> Result<Self> {
        size.pixels_of(ratio, "Frame::new")?;
        let plane =
            |channel: Channel| PlaneBuf::new(size.plane(channel, ratio), colour[channel.number()]);
        let planes = [
            plane(Channel::Luma)?,
            plane(Channel::Chroma1)?,
            plane(Channel::Chroma2)?,
        ];
        Ok(Self { planes, ratio })
    }

    /// A frame of these planes: luma, then the two of chroma.
    ///
    /// ```
    /// use safeteal::{Frame, PlaneBuf, Ratio, Size};
    ///
    /// let plane = |width, height| PlaneBuf::new(Size::new(width, height), 128);
    /// let frame = Frame::from_planes([plane(8, 4)?, plane(4, 2)?, plane(4, 2)?], Ratio::Two)?;
    /// assert_eq!(frame.size(), Size::new(8, 4));
    /// let error = Frame::from_planes([plane(8, 4)?, plane(4, 2)?, plane(8, 4)?], Ratio::Two).unwrap_err();
    /// assert_eq!(
    ///     error.to_string(),
    ///     "Frame::from_planes refused (1): `planes[2]` is 8 by 4, and must be 4 by 2: chroma of 8 by 4 at ratio 2"
    /// );
    /// # Ok::<(), safeteal::Error>(())
    /// ```
    ///
    /// # Errors
    /// `Refusal::Ratio`; `Refusal::Size` for a chroma plane of another size than luma and the ratio give.
    pub fn from_planes(planes: [PlaneBuf; 3], ratio: Ratio) -> Result<Self> {
        let call = "Frame::from_planes";
        let luma = planes[0].size;
        luma.pixels_of(ratio, call)?;
        Error::of_sizes(call, |search| {
            let [_, second, third] = &planes;
            search.chroma("planes[1]", second.size, luma, ratio).chroma(
                "planes[2]",
                third.size,
                luma,
                ratio,
            )
        })?;
        Ok(Self { planes, ratio })
    }

    /// The three planes to read.
    #[must_use]
    pub fn planes(&self) -> [Plane<'_>; 3] {
        self.planes.each_ref().map(PlaneBuf::plane)
    }

    /// One plane to write.
    #[must_use]
    pub fn plane_mut(&mut self, channel: Channel) -> PlaneMut<'_> {
        self.planes[channel.number()].plane_mut()
    }

    /// All bytes of one plane to write, row after row.
    #[must_use]
    pub fn bytes_mut(&mut self, channel: Channel) -> &mut [u8] {
        self.planes[channel.number()].bytes_mut()
    }

    /// The size of luma.
    #[must_use]
    pub fn size(&self) -> Size {
        self.planes[0].size
    }

    /// Luma pixels per chroma pixel, each way.
    #[must_use]
    pub fn ratio(&self) -> Ratio {
        self.ratio
    }

    /// The size of luma with the ratio, which give those of all planes.
    pub(crate) fn shape(&self) -> Shape {
        (self.size(), self.ratio)
    }
}

impl Index<Channel> for Frame {
    type Output = PlaneBuf;

    fn index(&self, channel: Channel) -> &PlaneBuf {
        &self.planes[channel.number()]
    }
}

/// A mask over a plane, 1 to 8 times as wide and as high, without padding.
#[derive(Clone, Copy, PartialEq, Eq)]
pub struct Mask<'a> {
    /// The rows, one after another.
    pub data: &'a [u8],
    /// Bytes in a row.
    pub width: usize,
}

impl<'a> Mask<'a> {
    /// A mask from its bytes and its width.
    #[must_use]
    pub const fn new(data: &'a [u8], width: usize) -> Self {
        Self { data, width }
    }
}

#[cfg(test)]
mod tests {
    use super::*;

    #[test]
    fn the_cells_of_any_size() {
        for side in 0..=4096usize {
            let wide = Size::new(side, 9).in_cells();
            assert_eq!(wide, Size::new(side.div_ceil(8), 2));
            assert_eq!(Size::new(9, side).cells(), 2 * side.div_ceil(8));
        }
        assert_eq!(Size::new(usize::MAX, usize::MAX).cells(), usize::MAX);
    }

    #[test]
    #[should_panic(expected = "row 2 of a plane that has 2 rows")]
    fn a_row_below_the_plane() {
        let plane = PlaneBuf::new(Size::new(3, 2), 0).expect("a small plane");
        let _ = plane.row(2);
    }

    #[test]
    #[should_panic(expected = "of a plane that has 2 rows")]
    fn a_row_whose_place_is_no_number() {
        let plane = PlaneBuf::new(Size::new(2, 2), 0).expect("a small plane");
        let _ = plane.row(usize::MAX / 2 + 1);
    }
}
