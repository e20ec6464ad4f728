//! Frames from packed and from pitched bytes, and back; planes taken apart, and row by row.

use std::ops::IndexMut;

use super::{Channel, Frame, Plane, PlaneBuf, PlaneMut, Ratio, Size};
use crate::error::Why;
use crate::texels::place;
use crate::{Error, Refusal, Result};

impl<'a> Plane<'a> {
    /// The rows, from the top to the bottom, without what lies between them.
    ///
    /// ```
    /// use safeteal::{Plane, Size};
    ///
    /// let plane = Plane::pitched(&[1, 2, 99, 3, 4], Size::new(2, 2), 3);
    /// assert!(plane.rows().eq([[1, 2], [3, 4]]));
    /// ```
    ///
    /// # Panics
    /// When it is run, where `data` is too short for the pitch and the size.
    #[must_use]
    pub fn rows(&self) -> impl DoubleEndedIterator<Item = &'a [u8]> + ExactSizeIterator {
        let Plane { data, pitch, size } = *self;
        (0..size.height).map(move |y| &data[place(0, y, pitch)..][..size.width])
    }

    /// A copy with a buffer of its own, without padding.
    ///
    /// # Errors
    /// As [`PlaneBuf::from_pitched`].
    pub fn to_buf(&self) -> Result<PlaneBuf> {
        let [plane] = copied("Plane::to_buf", [(["pitch", "data"], *self)])?;
        Ok(plane)
    }
}

impl PlaneMut<'_> {
    /// The rows to write, from the top to the bottom, without what lies between them.
    ///
    /// ```
    /// use safeteal::{PlaneMut, Size};
    ///
    /// let mut bytes = [0; 5];
    /// let mut plane = PlaneMut::pitched(&mut bytes, Size::new(2, 2), 3);
    /// plane.rows_mut().for_each(|row| row.fill(7));
    /// assert_eq!(bytes, [7, 7, 0, 7, 7]);
    /// ```
    ///
    /// # Panics
    /// Where `data` is too short for the pitch and the size, or the pitch is below the width.
    #[must_use]
    pub fn rows_mut(&mut self) -> impl DoubleEndedIterator<Item = &mut [u8]> + ExactSizeIterator {
        let (pitch, Size { width, height }) = (self.pitch, self.size);
        let last = place(width, height.saturating_sub(1), pitch);
        assert!(
            width <= pitch && last <= self.data.len(),
            "a plane of {} with a pitch of {pitch} and {} bytes",
            self.size,
            self.data.len()
        );
        let rows = self.data.chunks_mut(pitch.max(1)).take(height);
        rows.map(move |row| &mut row[..width])
    }
}

impl PlaneBuf {
    /// A copy of a plane whose rows begin `pitch` bytes apart, without what lies between them and behind them.
    ///
    /// ```
    /// use safeteal::{PlaneBuf, Refusal, Size};
    ///
    /// // Rows of three pixels, four bytes apart; the last one need not be filled up.
    /// let data = [1, 2, 3, 99, 4, 5, 6];
    /// let plane = PlaneBuf::from_pitched(Size::new(3, 2), &data, 4)?;
    /// assert_eq!(plane.bytes(), [1, 2, 3, 4, 5, 6]);
    /// let error = PlaneBuf::from_pitched(Size::new(3, 2), &data, 2).unwrap_err();
    /// assert_eq!(error.refusal(), Refusal::Pitch);
    /// let error = PlaneBuf::from_pitched(Size::new(3, 2), &data[1..], 4).unwrap_err();
    /// assert_eq!(error.refusal(), Refusal::Length);
    /// # Ok::<(), safeteal::Error>(())
    /// ```
    ///
    /// # Errors
    /// `Refusal::Size`; `Refusal::Pitch` below the width or above 65,536; `Refusal::Length` for less than
    /// `(height - 1) * pitch + width` bytes.
    pub fn from_pitched(size: Size, data: &[u8], pitch: usize) -> Result<Self> {
        let lent = Plane::pitched(data, size, pitch);
        let [plane] = copied("PlaneBuf::from_pitched", [(["pitch", "data"], lent)])?;
        Ok(plane)
    }

    /// The rows, from the top to the bottom.
    #[must_use]
    pub fn rows(&self) -> impl DoubleEndedIterator<Item = &[u8]> + ExactSizeIterator {
        self.data.chunks_exact(self.size.width)
    }

    /// The rows to write, from the top to the bottom.
    ///
    /// ```
    /// use safeteal::{PlaneBuf, Size};
    ///
    /// let mut plane = PlaneBuf::new(Size::new(2, 3), 0)?;
    /// for (y, row) in plane.rows_mut().enumerate() {
    ///     row.fill(y as u8);
    /// }
    /// assert_eq!(plane.bytes(), [0, 0, 1, 1, 2, 2]);
    /// assert_eq!(plane.rows().next_back(), Some([2, 2].as_slice()));
    /// # Ok::<(), safeteal::Error>(())
    /// ```
    pub fn rows_mut(&mut self) -> impl DoubleEndedIterator<Item = &mut [u8]> + ExactSizeIterator {
        self.data.chunks_exact_mut(self.size.width)
    }

    /// One row to write.
    ///
    /// # Panics
    /// Where there is no such row.
    #[must_use]
    pub fn row_mut(&mut self, y: usize) -> &mut [u8] {
        let begins = self.begins(y);
        &mut self.data[begins..][..self.size.width]
    }

    /// Where a row begins.
    ///
    /// # Panics
    /// Where there is no such row.
    pub(super) fn begins(&self, y: usize) -> usize {
        let Size { width, height } = self.size;
        assert!(y < height, "row {y} of a plane that has {height} rows");
        y * width
    }

    /// The bytes, row after row.
    #[must_use]
    pub fn into_bytes(self) -> Vec<u8> {
        self.data
    }
}

/// The names of each plane's pitch and bytes.
const PITCHED: [[&str; 2]; 3] = [
    ["pitch[0]", "data[0]"],
    ["pitch[1]", "data[1]"],
    ["pitch[2]", "data[2]"],
];

impl Frame {
    /// A frame from packed 4:2:0 bytes, as raw clips and most decoders have them (I420, also called IYUV and yuv420p):
    /// luma, then the two planes of chroma at half the width and half the height, without padding. YV12 has the two
    /// planes of chroma the other way round.
    ///
    /// ```
    /// use safeteal::{Channel, Frame, Refusal, Size};
    ///
    /// // 4 by 2 pixels of luma, then 2 by 1 of each chroma plane.
    /// let bytes = [1, 2, 3, 4, 5, 6, 7, 8, 90, 91, 100, 101];
    /// let frame = Frame::from_i420(Size::new(4, 2), &bytes)?;
    /// assert_eq!(frame[Channel::Luma].row(1), [5, 6, 7, 8]);
    /// assert_eq!(frame[Channel::Chroma1].bytes(), [90, 91]);
    /// assert_eq!(frame[Channel::Chroma2].bytes(), [100, 101]);
    /// assert_eq!(frame.to_packed(), bytes);
    ///
    /// let error = Frame::from_i420(Size::new(4, 2), &bytes[1..]).unwrap_err();
    /// assert_eq!(error.refusal(), Refusal::Length);
    /// let error = Frame::from_i420(Size::new(3, 2), &bytes).unwrap_err();
    /// assert_eq!(error.refusal(), Refusal::Ratio);
    /// # Ok::<(), safeteal::Error>(())
    /// ```
    ///
    /// To read frame after frame into one buffer, fill [`bytes_mut`](Self::bytes_mut) of each plane instead:
    /// `read_exact` on a file does that.
    ///
    /// # Errors
    /// `Refusal::Size`; `Refusal::Ratio` for an odd width or height; `Refusal::Length` where there are not exactly
    /// `width * height * 3 / 2` bytes.
    pub fn from_i420(size: Size, bytes: &[u8]) -> Result<Self> {
        Self::unpacked("Frame::from_i420", size, Ratio::Two, bytes)
    }

    /// A frame from packed planar bytes of any ratio: luma, then the two planes of chroma, without padding.
    ///
    /// ```
    /// use safeteal::{Channel, Frame, Ratio, Size};
    ///
    /// // 4:4:4: three planes of 2 by 1.
    /// let frame = Frame::from_packed(Size::new(2, 1), Ratio::One, &[1, 2, 3, 4, 5, 6])?;
    /// assert_eq!(frame[Channel::Chroma1].bytes(), [3, 4]);
    /// # Ok::<(), safeteal::Error>(())
    /// ```
    ///
    /// # Errors
    /// `Refusal::Size`, `Refusal::Ratio`; `Refusal::Length` where there is not exactly one byte for each pixel of each
    /// plane.
    pub fn from_packed(size: Size, ratio: Ratio, bytes: &[u8]) -> Result<Self> {
        Self::unpacked("Frame::from_packed", size, ratio, bytes)
    }

    fn unpacked(call: &'static str, size: Size, ratio: Ratio, bytes: &[u8]) -> Result<Self> {
        let (luma, chroma) = size.pixels_of(ratio, call)?;
        Error::first(call, &[Refusal::Length], |search| {
            search.exactly("bytes", bytes.len(), Why::Packed((size, ratio)))
        })?;
        let (luma, rest) = bytes.split_at(luma);
        let (chroma1, chroma2) = rest.split_at(chroma);
        let plane = |channel: Channel, bytes: &[u8]| PlaneBuf {
            data: bytes.to_vec(),
            size: size.plane(channel, ratio),
        };
        let planes = [
            plane(Channel::Luma, luma),
            plane(Channel::Chroma1, chroma1),
            plane(Channel::Chroma2, chroma2),
        ];
        Ok(Self { planes, ratio })
    }

    /// A copy of three planes with padding: the rows of each begin its pitch apart. This is how decoders lend a frame.
    ///
    /// ```
    /// use safeteal::{Channel, Frame, Ratio, Size};
    ///
    /// let luma = [1, 2, 3, 4, 0, 0, 0, 0, 5, 6, 7, 8, 0, 0, 0, 0];
    /// let (chroma1, chroma2) = ([90, 91, 0, 0], [100, 101, 0, 0]);
    /// let (size, planes) = (Size::new(4, 2), [&luma[..], &chroma1, &chroma2]);
    /// let frame = Frame::from_pitched(size, Ratio::Two, planes, [8, 4, 4])?;
    /// assert_eq!(frame.to_packed(), [1, 2, 3, 4, 5, 6, 7, 8, 90, 91, 100, 101]);
    ///
    /// let error = Frame::from_pitched(size, Ratio::Two, planes, [8, 4, 1]).unwrap_err();
    /// assert_eq!(
    ///     error.to_string(),
    ///     "Frame::from_pitched refused (3): pitch[2] is 1 and must be 2 to 65536"
    /// );
    /// # Ok::<(), safeteal::Error>(())
    /// ```
    ///
    /// # Errors
    /// `Refusal::Size`, `Refusal::Ratio`; `Refusal::Pitch` for a pitch below its plane's width or above 65,536;
    /// `Refusal::Length` for a plane with less than `(rows - 1) * pitch + width` bytes.
    pub fn from_pitched(
        size: Size,
        ratio: Ratio,
        data: [&[u8]; 3],
        pitch: [usize; 3],
    ) -> Result<Self> {
        let call = "Frame::from_pitched";
        size.pixels_of(ratio, call)?;
        let lent = [Channel::Luma, Channel::Chroma1, Channel::Chroma2].map(|channel| {
            let at = channel.number();
            let plane = Plane::pitched(data[at], size.plane(channel, ratio), pitch[at]);
            (PITCHED[at], plane)
        });
        let planes = copied(call, lent)?;
        Ok(Self { planes, ratio })
    }

    /// All bytes without padding: luma, then the two planes of chroma. At ratio 2 that is I420.
    #[must_use]
    pub fn to_packed(&self) -> Vec<u8> {
        self.planes.each_ref().map(PlaneBuf::bytes).concat()
    }

    /// The three planes with their buffers: luma, then the two of chroma.
    ///
    /// ```
    /// use safeteal::{Frame, Ratio, Size};
    ///
    /// let frame = Frame::new(Size::new(4, 2), Ratio::Two, [16, 128, 128])?;
    /// let [luma, chroma1, chroma2] = frame.into_planes();
    /// assert_eq!((luma.size(), chroma1.size()), (Size::new(4, 2), Size::new(2, 1)));
    /// assert_eq!(chroma2.into_bytes(), [128, 128]);
    /// # Ok::<(), safeteal::Error>(())
    /// ```
    #[must_use]
    pub fn into_planes(self) -> [PlaneBuf; 3] {
        self.planes
    }

    /// The three planes to write, all at once: so each of them can be written by a thread of its own.
    ///
    /// ```
    /// use safeteal::{Channel, Frame, LayerBuf, Ratio, Size};
    /// use std::thread;
    ///
    /// // One dot of gain 2, offset 10, over four pixels of ratio 2.
    /// let (dot, none) = ([2.0, 10.0, 0.0, 0.0], [1.0, 0.0, 0.0, 0.0]);
    /// let models = [dot, none, none, none];
    /// let layer = LayerBuf::assemble(Size::new(2, 2), Ratio::Two, models.as_flattened(), &[0])?;
    /// let raw = Frame::new(Size::new(2, 2), Ratio::Two, [110, 125, 150])?;
    /// let mut output = raw.clone();
    ///
    /// let counts = thread::scope(|scope| {
    ///     let mut started = Vec::new();
    ///     for (&channel, output) in Channel::ALL.iter().zip(output.planes_mut()) {
    ///         let (layer, raw) = (layer.layer(), raw[channel].plane());
    ///         started.push(scope.spawn(move || layer.peel(channel, output, raw)));
    ///     }
    ///     let count = |thread: thread::ScopedJoinHandle<'_, safeteal::Result<u64>>| {
    ///         thread.join().expect("a call always comes back")
    ///     };
    ///     started.into_iter().map(count).collect::<safeteal::Result<Vec<u64>>>()
    /// })?;
    /// assert_eq!(counts, [1, 1, 1]);
    /// assert_eq!(output.to_packed(), [50, 110, 110, 110, 100, 120]);
    /// # Ok::<(), safeteal::Error>(())
    /// ```
    #[must_use]
    pub fn planes_mut(&mut self) -> [PlaneMut<'_>; 3] {
        self.planes.each_mut().map(PlaneBuf::plane_mut)
    }
}

impl IndexMut<Channel> for Frame {
    /// ```
    /// use safeteal::{Channel, Frame, Ratio, Size};
    ///
    /// let mut frame = Frame::new(Size::new(2, 2), Ratio::Two, [16, 128, 128])?;
    /// frame[Channel::Luma].row_mut(1)[0] = 235;
    /// assert_eq!(frame[Channel::Luma].bytes(), [16, 16, 235, 16]);
    /// # Ok::<(), safeteal::Error>(())
    /// ```
    fn index_mut(&mut self, channel: Channel) -> &mut PlaneBuf {
        &mut self.planes[channel.number()]
    }
}

/// Copies of planes, with the names of their pitches and bytes, once all are known to be inside the limits.
fn copied<const N: usize>(
    call: &'static str,
    planes: [([&'static str; 2], Plane<'_>); N],
) -> Result<[PlaneBuf; N]> {
    for (_, plane) in planes {
        plane.size.pixels(call)?;
    }
    Error::first(call, &[Refusal::Pitch, Refusal::Length], |search| {
        let lent = planes.iter();
        lent.fold(search, |search, &(names, plane)| search.plane(names, plane))
    })?;
    Ok(planes.map(|(_, plane)| PlaneBuf {
        data: plane.rows().flatten().copied().collect(),
        size: plane.size,
    }))
}

#[cfg(test)]
mod tests {
    use super::*;

    /// Bytes that say their place, and 255 between the rows.
    fn pitched(size: Size, pitch: usize) -> Vec<u8> {
        let byte = |at: usize| {
            if at % pitch < size.width {
                at % 251
            } else {
                255
            }
        };
        (0..size.height * pitch).map(|at| byte(at) as u8).collect()
    }

    #[test]
    fn padding_is_left_out_whatever_the_pitch() {
        let size = Size::new(5, 3);
        for pitch in [5, 6, 9, 65_536] {
            let data = pitched(size, pitch);
            for data in [&data[..], &data[..2 * pitch + 5]] {
                let plane = PlaneBuf::from_pitched(size, data, pitch).expect("long enough");
                for (y, row) in plane.rows().enumerate() {
                    assert_eq!(row, &data[y * pitch..][..5], "pitch {pitch}, row {y}");
                }
                assert_eq!(plane.rows().len(), 3);
            }
            let short = PlaneBuf::from_pitched(size, &data[..2 * pitch + 4], pitch);
            assert_eq!(short.unwrap_err().refusal(), Refusal::Length);
        }
        for pitch in [0, 4, 65_537] {
            let error = PlaneBuf::from_pitched(size, &[0; 65_540 * 3], pitch).unwrap_err();
            assert_eq!(error.refusal(), Refusal::Pitch, "pitch {pitch}");
        }
    }

    #[test]
    fn the_first_reason_of_the_table_is_given() {
        let (short, size) = ([0; 1], Size::new(4, 2));
        let said = |size, ratio, data: [&[u8]; 3], pitch| {
            let error = Frame::from_pitched(size, ratio, data, pitch).unwrap_err();
            (error.refusal(), error.to_string())
        };
        let empty: [&[u8]; 3] = [&[], &[], &[]];
        assert_eq!(
            said(Size::new(0, 2), Ratio::Two, empty, [0; 3]).0,
            Refusal::Size
        );
        assert_eq!(
            said(Size::new(4, 4097), Ratio::Two, empty, [0; 3]).0,
            Refusal::Size
        );
        assert_eq!(said(size, Ratio::Four, empty, [0; 3]).0, Refusal::Ratio);
        assert_eq!(said(size, Ratio::Two, empty, [0, 2, 1]).0, Refusal::Pitch);
        let (refusal, words) = said(size, Ratio::Two, [&[0; 8], &[0; 2], &short], [4, 2, 2]);
        assert_eq!(refusal, Refusal::Length);
        assert!(words.contains("`data[2]` has 1"), "{words}");
    }

    #[test]
    fn packed_bytes_of_every_ratio_come_back() {
        let size = Size::new(8, 4);
        for (&ratio, length) in Ratio::ALL.iter().zip([96, 48, 36]) {
            let bytes: Vec<u8> = (0..length).collect();
            let frame = Frame::from_packed(size, ratio, &bytes).expect("the right length");
            assert_eq!((frame.size(), frame.ratio()), (size, ratio));
            assert_eq!(frame.to_packed(), bytes);
            let planes = frame.clone().into_planes();
            assert_eq!(Frame::from_planes(planes, ratio), Ok(frame));
            for wrong in [&bytes[1..], &[&bytes[..], &[0]].concat()] {
                let error = Frame::from_packed(size, ratio, wrong).unwrap_err();
                assert_eq!(error.refusal(), Refusal::Length);
                assert!(error.to_string().contains(&length.to_string()), "{error}");
            }
        }
    }

    #[test]
    fn planes_written_at_once_are_the_frames() {
        let mut frame = Frame::new(Size::new(4, 2), Ratio::Two, [0; 3]).expect("a small frame");
        for (byte, plane) in (1..).zip(frame.planes_mut()) {
            plane.data.fill(byte);
        }
        assert_eq!(frame.to_packed(), [1, 1, 1, 1, 1, 1, 1, 1, 2, 2, 3, 3]);
        frame[Channel::Chroma2].bytes_mut()[0] = 9;
        assert_eq!(frame.plane_mut(Channel::Chroma2).data, [9, 3]);
    }

    #[test]
    fn rows_of_planes_with_padding() {
        let size = Size::new(5, 3);
        let mut data = pitched(size, 7);
        let plane = Plane::pitched(&data, size, 7);
        let copy = plane.to_buf().expect("long enough");
        assert_eq!(Ok(&copy), PlaneBuf::from_pitched(size, &data, 7).as_ref());
        assert!(plane.rows().eq(copy.rows()) && plane.rows().rev().eq(copy.rows().rev()));
        let mut plane = PlaneMut::pitched(&mut data, size, 7);
        assert_eq!(plane.rows_mut().len(), 3);
        plane.rows_mut().for_each(|row| row.fill(1));
        let left: Vec<_> = data.iter().filter(|&&byte| byte != 1).collect();
        assert_eq!(left, [&255; 6]);
        let short = Plane::pitched(&data, size, 9).to_buf();
        assert_eq!(short.unwrap_err().refusal(), Refusal::Length);
    }

    #[test]
    #[should_panic(expected = "a plane of 5 by 3 with a pitch of 7 and 18 bytes")]
    fn rows_of_a_plane_that_is_too_short() {
        let _ = PlaneMut::pitched(&mut [0; 18], Size::new(5, 3), 7).rows_mut();
    }

    #[test]
    #[should_panic(expected = "row 2 of a plane that has 2 rows")]
    fn a_row_to_write_below_the_plane() {
        let mut plane = PlaneBuf::new(Size::new(3, 2), 0).expect("a small plane");
        plane.row_mut(2)[0] = 1;
    }
}
