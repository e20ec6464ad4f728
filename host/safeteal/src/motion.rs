use crate::{Channel, Error, Frame, Plane, Refusal, Result, Size};

mod fields;

/// Motion between two frames: two fields each way over a grid of blocks, 1024 being no motion.
///
/// `backward` says where a pixel of the second frame is found in the first, `forward` where a pixel of the first is
/// found in the second; both in steps of 1 / `pel` pixels of luma.
///
/// The blocks must cover luma of `size`: those of column 0 begin at `origin.0`, those of column 1 a block's width
/// farther right, and so on. The grid may reach beyond luma, and may begin outside of it. What lies beside all blocks
/// takes the motion of the nearest ones, so a search that leaves out a last block that luma does not fill is in order:
/// at each border fewer pixels than a block may stay outside, and a motion that leaves out more is refused.
#[derive(Clone, Copy, PartialEq, Eq)]
pub struct Motion<'a> {
    /// Forward motion along x and along y.
    pub forward: (&'a [u16], &'a [u16]),
    /// Backward motion along x and along y.
    pub backward: (&'a [u16], &'a [u16]),
    /// Width and height of each field in blocks, 1 to 4096.
    pub grid: (usize, usize),
    /// Width and height of a block in luma pixels, 1 to 128.
    pub block: (i32, i32),
    /// Where the first block begins, -4096 to 4096.
    pub origin: (i32, i32),
    /// Steps to a pixel: 1, 2 or 4.
    pub pel: i32,
    /// The size of luma of the frames that it is made for.
    pub size: Size,
}

impl Motion<'_> {
    /// Whether its blocks cover luma of its size: at each border fewer pixels than a block lie outside.
    ///
    /// ```
    /// use safeteal::{Motion, MotionBuf, Size};
    ///
    /// let made = MotionBuf::still(Size::new(100, 60))?;
    /// let motion = made.motion();
    /// assert_eq!((motion.grid, motion.covers()), ((7, 4), true));
    /// // Six blocks of 16 are enough, since the 4 pixels beside them are less than a block; five are not.
    /// assert!(Motion { grid: (6, 4), ..motion }.covers());
    /// assert!(!Motion { grid: (5, 4), ..motion }.covers());
    /// # Ok::<(), safeteal::Error>(())
    /// ```
    #[must_use]
    pub fn covers(&self) -> bool {
        let along = |side: usize, grid: usize, block: i32, origin: i32| {
            let [side, grid] = [side, grid].map(|number| i64::try_from(number).unwrap_or(i64::MAX));
            let (block, begin) = (i64::from(block), i64::from(origin));
            let end = begin.saturating_add(grid.saturating_mul(block));
            begin < block && side.saturating_sub(end) < block
        };
        let Self {
            grid,
            block,
            origin,
            size,
            ..
        } = *self;
        along(size.width, grid.0, block.0, origin.0)
            && along(size.height, grid.1, block.1, origin.1)
    }

    /// Whether the numbers that its blocks are given by are inside their ranges.
    pub(crate) fn numbers_are_inside(&self) -> bool {
        let grid = |side: usize| (1..=4096).contains(&side);
        let block = |side: i32| (1..=128).contains(&side);
        let origin = |place: i32| (-4096..=4096).contains(&place);
        let along = |at: (usize, i32, i32)| grid(at.0) && block(at.1) && origin(at.2);
        along((self.grid.0, self.block.0, self.origin.0))
            && along((self.grid.1, self.block.1, self.origin.1))
    }
}

/// Motion with fields of its own: a camera that goes over a still scene, over blocks of 16 by 16 luma pixels
/// ([`pan`](Self::pan), [`still`](Self::still)), or what a motion search found ([`from_fields`](Self::from_fields)).
/// It is for frames of the size that it is made with.
///
/// ```
/// use safeteal::{MotionBuf, Size};
///
/// // The camera went six pixels to the right: what the second frame shows stood farther right in the first.
/// let motion = MotionBuf::pan(Size::new(640, 360), (6, 0))?;
/// assert_eq!(motion.motion().grid, (40, 23));
/// assert_eq!((motion.motion().backward.0[0], motion.motion().forward.0[0]), (1030, 1018));
/// # Ok::<(), safeteal::Error>(())
/// ```
#[derive(Clone, PartialEq, Eq)]
pub struct MotionBuf {
    forward: (Vec<u16>, Vec<u16>),
    backward: (Vec<u16>, Vec<u16>),
    grid: (usize, usize),
    block: (i32, i32),
    origin: (i32, i32),
    pel: i32,
    size: Size,
}

impl MotionBuf {
    const BLOCK: usize = 16;

    /// The same motion everywhere: the camera went so many pixels right and down between the two frames.
    ///
    /// # Errors
    /// `Refusal::Size`; `Refusal::Motion` for more than 1024 pixels either way.
    pub fn pan(size: Size, (right, down): (i32, i32)) -> Result<Self> {
        let call = "MotionBuf::pan";
        size.pixels(call)?;
        for (name, pixels) in [("right", right), ("down", down)] {
            if !(-1024..=1024).contains(&pixels) {
                return Err(Error::of(call, Refusal::Motion, |search| {
                    search.pan(name, pixels)
                }));
            }
        }
        Ok(Self::everywhere(size, (right, down)))
    }

    /// No motion anywhere.
    ///
    /// # Errors
    /// `Refusal::Size`.
    pub fn still(size: Size) -> Result<Self> {
        size.pixels("MotionBuf::still")?;
        Ok(Self::everywhere(size, (0, 0)))
    }

    /// For a size and a motion that are known to be inside the limits.
    fn everywhere(size: Size, (right, down): (i32, i32)) -> Self {
        let grid = (
            size.width.div_ceil(Self::BLOCK),
            size.height.div_ceil(Self::BLOCK),
        );
        let field = |pixels: i32| vec![(1024 + pixels) as u16; grid.0 * grid.1];
        Self {
            forward: (field(-right), field(-down)),
            backward: (field(right), field(down)),
            grid,
            block: (Self::BLOCK as i32, Self::BLOCK as i32),
            origin: (0, 0),
            pel: 1,
            size,
        }
    }

    /// The motion to read.
    #[must_use]
    pub fn motion(&self) -> Motion<'_> {
        Motion {
            forward: (&self.forward.0, &self.forward.1),
            backward: (&self.backward.0, &self.backward.1),
            grid: self.grid,
            block: self.block,
            origin: self.origin,
            pel: self.pel,
            size: self.size,
        }
    }

    /// The size of luma of the frames that it is made for.
    #[must_use]
    pub fn size(&self) -> Size {
        self.size
    }
}

/// One plane of two neighbouring frames, and the time between them.
///
/// The calls refuse planes of another size than the layer's.
#[derive(Clone, Copy, Debug, PartialEq)]
pub struct Frames<'a> {
    /// The plane of the first frame.
    pub first: Plane<'a>,
    /// The plane of the second frame.
    pub second: Plane<'a>,
    /// 0 at the first frame, 1 at the second.
    pub time: f32,
}

impl<'a> Frames<'a> {
    /// One plane of each of two frames.
    ///
    /// # Errors
    /// `Refusal::Size` for frames of different sizes or ratios.
    pub fn of(channel: Channel, first: &'a Frame, second: &'a Frame, time: f32) -> Result<Self> {
        Error::of_sizes("Frames::of", |search| {
            let shape = first.shape();
            let search = search.frame("first", first, "`first`", shape);
            search.frame("second", second, "`first`", shape)
        })?;
        Ok(Self::between(channel, first, second, time))
    }

    /// The same of frames that are known to be alike.
    pub(crate) fn between(
        channel: Channel,
        first: &'a Frame,
        second: &'a Frame,
        time: f32,
    ) -> Self {
        Self {
            first: first[channel].plane(),
            second: second[channel].plane(),
            time,
        }
    }

    /// The names and sizes of its planes.
    pub(crate) fn sizes(&self) -> [(&'static str, Size); 2] {
        [("first", self.first.size), ("second", self.second.size)]
    }
}

/// Two neighbouring frames with the motion between them.
///
/// [`Sums::add`](crate::Sums::add) and [`stats`](crate::stats) hold all its sizes against the sums', and
/// [`Walk::push`](crate::Walk::push) against the walk's.
#[derive(Clone, Copy, Debug, PartialEq, Eq)]
pub struct Pair<'a> {
    /// The three planes of the first frame.
    pub first: [Plane<'a>; 3],
    /// The three planes of the second frame.
    pub second: [Plane<'a>; 3],
    /// The motion between them.
    pub motion: Motion<'a>,
}

impl<'a> Pair<'a> {
    /// Two frames by their planes: luma, then the two of chroma.
    ///
    /// ```
    /// use safeteal::{MotionBuf, Pair, Plane, Size};
    ///
    /// let (size, half) = (Size::new(8, 4), Size::new(4, 2));
    /// let (luma, chroma) = (Plane::new(&[0; 32], size), Plane::new(&[128; 8], half));
    /// let motion = MotionBuf::still(size)?;
    /// let pair = Pair::new([luma, chroma, chroma], [luma, chroma, chroma], motion.motion())?;
    /// assert_eq!(pair.motion.size, pair.second[0].size);
    ///
    /// let error = Pair::new([luma, chroma, chroma], [luma, luma, chroma], motion.motion()).unwrap_err();
    /// assert_eq!(error.to_string(), "Pair::new refused (1): `second[1]` is 8 by 4, and `first[1]` is 4 by 2");
    /// # Ok::<(), safeteal::Error>(())
    /// ```
    ///
    /// # Errors
    /// `Refusal::Size` for a plane of the second frame that has not the size of the first frame's, and for a motion
    /// that is made for another size or does not cover it.
    pub fn new(first: [Plane<'a>; 3], second: [Plane<'a>; 3], motion: Motion<'a>) -> Result<Self> {
        Error::of_sizes("Pair::new", |search| {
            let [a, b, c] = first.map(|plane| plane.size);
            let [d, e, f] = second.map(|plane| plane.size);
            search
                .same("second[0]", d, "`first[0]`", a)
                .same("second[1]", e, "`first[1]`", b)
                .same("second[2]", f, "`first[2]`", c)
                .over(&motion, "`first[0]`", a)
        })?;
        Ok(Self {
            first,
            second,
            motion,
        })
    }

    /// All planes of two frames.
    ///
    /// # Errors
    /// `Refusal::Size` for frames of different sizes or ratios, and for a motion that is made for another size.
    pub fn of(first: &'a Frame, second: &'a Frame, motion: &'a MotionBuf) -> Result<Self> {
        let motion = motion.motion();
        Error::of_sizes("Pair::of", |search| {
            let shape = first.shape();
            search
                .frame("first", first, "`first`", shape)
                .frame("second", second, "`first`", shape)
                .over(&motion, "`first`", first.size())
        })?;
        Ok(Self {
            first: first.planes(),
            second: second.planes(),
            motion,
        })
    }
}

#[cfg(test)]
mod tests {
    use super::*;

    const FIELD: &[u16] = &[1024; 64];

    /// Whether so many blocks of 16 from that place on cover that many pixels across.
    fn covered(width: usize, blocks: usize, origin: i32) -> bool {
        let fields = (&FIELD[..blocks], &FIELD[..blocks]);
        let motion = Motion {
            forward: fields,
            backward: fields,
            grid: (blocks, 1),
            block: (16, 16),
            origin: (origin, 0),
            pel: 1,
            size: Size::new(width, 16),
        };
        motion.covers()
    }

    #[test]
    fn fewer_pixels_than_a_block_may_stay_outside() {
        assert!(covered(64, 4, 0));
        assert!(covered(79, 4, 0));
        assert!(!covered(80, 4, 0));
        assert!(covered(64, 4, 15));
        assert!(!covered(64, 4, 16));
        assert!(covered(64, 4, -15));
        assert!(!covered(64, 4, -16));
    }

    #[test]
    fn a_grid_may_reach_beyond_luma() {
        assert!(covered(64, 40, 0));
        assert!(covered(64, 40, -300));
        assert!(!covered(64, 40, -640));
        assert!(!covered(64, 40, 4096));
    }
}
