//! A layer read pixel by pixel, as the calls read it.

use crate::groups::Form;
use crate::{Cells, Channel, LayerBuf, LayerOf, Size};

/// What a layer's numbers are lent as can be read as numbers.
pub trait Stored: Copy {
    /// Number `at` of a slice.
    fn number(slice: &[Self], at: usize) -> i16;
}

impl Stored for i16 {
    fn number(slice: &[Self], at: usize) -> i16 {
        slice[at]
    }
}

impl Stored for u8 {
    fn number(slice: &[Self], at: usize) -> i16 {
        let bytes = &slice[at.saturating_mul(2)..][..2];
        i16::from_le_bytes([bytes[0], bytes[1]])
    }
}

/// Where a number stands in a slice. What is too far to be counted is in no slice.
pub(crate) fn place(x: usize, y: usize, pitch: usize) -> usize {
    y.saturating_mul(pitch).saturating_add(x)
}

/// What lettering does to a pixel: it shows `gain` times the scene, plus `offset`.
#[derive(Clone, Copy, Debug, PartialEq)]
pub struct Texel {
    /// What the scene is multiplied with: a number of 4096ths (in chroma the mean of those of its luma pixels).
    pub gain: f32,
    /// What is added to it: a number of 64ths of a byte's step.
    pub offset: f32,
}

impl Texel {
    /// Gain 1, offset 0: no lettering.
    pub const NONE: Self = Self {
        gain: 1.0,
        offset: 0.0,
    };
}

impl Default for Texel {
    /// [`Texel::NONE`].
    fn default() -> Self {
        Self::NONE
    }
}

/// One plane of a layer, to be read pixel by pixel. [`LayerOf::texels`] gives it.
///
/// In luma a pixel has a gain and an offset of its own. In chroma it has an offset of its own; its gain is the mean of
/// the gains of the luma pixels that it stands for. A pixel with another texel than [`Texel::NONE`] is a dot. The dots
/// in cells at distance 0 or 1 (or below) are layered: these are the pixels that peel and unpeel write.
///
/// ```
/// use safeteal::{Channel, LayerBuf, Ratio, Size, Texel};
///
/// // Four luma pixels, one of them with gain 0.5, offset 60, and offsets of 8 and -4 in chroma.
/// let (none, dot) = ([1.0, 0.0, 0.0, 0.0], [0.5, 60.0, 8.0, -4.0]);
/// let models = [none, dot, none, none];
/// let layer = LayerBuf::assemble(Size::new(2, 2), Ratio::Two, models.as_flattened(), &[0])?;
///
/// assert_eq!((layer.gain(1, 0), layer.offset(1, 0)), (0.5, 60.0));
/// assert!(layer.is_layered(1, 0) && !layer.is_layered(0, 0));
///
/// let chroma = layer.texels(Channel::Chroma2);
/// assert_eq!(chroma.size(), Size::new(1, 1));
/// assert_eq!(chroma.texel(0, 0), Texel { gain: 0.875, offset: -1.0 });
/// assert!(chroma.is_layered(0, 0));
/// assert_eq!(chroma.get(1, 0), None);
/// # Ok::<(), safeteal::Error>(())
/// ```
#[derive(Clone, Copy, Debug, PartialEq, Eq)]
pub struct Texels<'a, T> {
    layer: LayerOf<'a, T>,
    channel: Channel,
}

impl<'a, T: Form> Texels<'a, T> {
    /// Width and height of the plane.
    #[must_use]
    pub fn size(&self) -> Size {
        self.layer.size.plane(self.channel, self.layer.ratio)
    }

    /// Which plane it is.
    #[must_use]
    pub fn channel(&self) -> Channel {
        self.channel
    }

    /// Gain and offset of a pixel; none outside the plane.
    ///
    /// # Panics
    /// Where a slice of the layer is too short for its pitch and size.
    #[must_use]
    pub fn get(&self, x: usize, y: usize) -> Option<Texel> {
        self.size().has(x, y).then(|| self.inside(x, y))
    }

    /// Gain and offset of a pixel.
    ///
    /// # Panics
    /// Outside the plane, and where a slice of the layer is too short for its pitch and size.
    #[must_use]
    pub fn texel(&self, x: usize, y: usize) -> Texel {
        self.reach(x, y);
        self.inside(x, y)
    }

    /// The gain of a pixel.
    ///
    /// # Panics
    /// As [`texel`](Self::texel).
    #[must_use]
    pub fn gain(&self, x: usize, y: usize) -> f32 {
        self.texel(x, y).gain
    }

    /// The offset of a pixel.
    ///
    /// # Panics
    /// As [`texel`](Self::texel).
    #[must_use]
    pub fn offset(&self, x: usize, y: usize) -> f32 {
        self.texel(x, y).offset
    }

    /// Whether peel and unpeel write the pixel: it is a dot, and its cell is at distance 0 or 1 (or below).
    ///
    /// # Panics
    /// As [`texel`](Self::texel).
    #[must_use]
    pub fn is_layered(&self, x: usize, y: usize) -> bool {
        let (column, row) = self.cell(x, y);
        self.texel(x, y) != Texel::NONE && self.layer.cells().distance(column, row) <= 1
    }

    /// Gain and offset of every pixel, row after row.
    ///
    /// # Panics
    /// When it is run, where a slice of the layer is too short for its pitch and size.
    pub fn iter(&self) -> impl Iterator<Item = Texel> + 'a {
        let texels = *self;
        self.size().places().map(move |(x, y)| texels.inside(x, y))
    }

    /// The x and y of all layered pixels, row after row: as many as peel counts.
    ///
    /// # Panics
    /// When it is run, where a slice of the layer is too short for its pitch and size.
    pub fn layered(&self) -> impl Iterator<Item = (usize, usize)> + 'a {
        let texels = *self;
        let places = self.size().places();
        places.filter(move |&(x, y)| texels.is_layered(x, y))
    }

    /// Luma pixels per pixel of this plane, each way.
    fn ratio(&self) -> usize {
        match self.channel {
            Channel::Luma => 1,
            Channel::Chroma1 | Channel::Chroma2 => self.layer.ratio.number(),
        }
    }

    /// The column and row of the cell that a pixel lies in. Its side, 8 luma pixels, is a power of two in every plane.
    fn cell(&self, x: usize, y: usize) -> (usize, usize) {
        let bits = 3 - self.ratio().trailing_zeros();
        (x >> bits, y >> bits)
    }

    /// For a pixel of the plane.
    fn inside(&self, x: usize, y: usize) -> Texel {
        let (layer, ratio) = (&self.layer, self.ratio());
        let luma =
            |x: usize, y: usize| i32::from(T::number(layer.luma, place(x, y, layer.pitch.0)));
        let offset = match self.channel {
            Channel::Luma => luma(x, layer.size.height.saturating_add(y)),
            Channel::Chroma1 | Channel::Chroma2 => {
                let plane = layer.chroma[self.channel.number() - 1];
                i32::from(T::number(plane, place(x, y, layer.pitch.1)))
            }
        };
        let rows = y * ratio..(y + 1) * ratio;
        let gains = rows.flat_map(|y| (x * ratio..(x + 1) * ratio).map(move |x| luma(x, y)));
        // A sum of sixteen 16-bit numbers has 20 bits, and all divisors are powers of two: nothing is rounded.
        Texel {
            gain: gains.sum::<i32>() as f32 / (4096 * ratio * ratio) as f32,
            offset: offset as f32 / 64.0,
        }
    }

    fn reach(&self, x: usize, y: usize) {
        let (size, channel) = (self.size(), self.channel);
        assert!(
            size.has(x, y),
            "pixel ({x}, {y}) of a layer's {channel}, which is {size}"
        );
    }
}

impl Size {
    /// Whether there is such a pixel.
    pub(crate) fn has(self, x: usize, y: usize) -> bool {
        x < self.width && y < self.height
    }

    /// The x and y of all pixels, row after row.
    pub(crate) fn places(self) -> impl Iterator<Item = (usize, usize)> {
        let Size { width, height } = self;
        (0..height).flat_map(move |y| (0..width).map(move |x| (x, y)))
    }
}

/// The methods of a layer that read pixels: of one that is lent, and of one with slices of its own.
macro_rules! reading {
    ([$($head:tt)*], $form:ty, $life:lifetime, |$self:ident| $lent:expr) => {
        $($head)* {
            /// One plane, to be read pixel by pixel.
            #[must_use]
            pub fn texels(&$self, channel: Channel) -> Texels<$life, $form> {
                Texels { layer: $lent, channel }
            }

            /// The gain of a luma pixel; 1 where there is no lettering. [`texels`](Self::texels) has the gains of
            /// chroma.
            ///
            /// # Panics
            /// Outside the layer, and where `luma` is too short for its pitch and size.
            #[must_use]
            pub fn gain(&$self, x: usize, y: usize) -> f32 {
                $self.texels(Channel::Luma).gain(x, y)
            }

            /// The offset of a luma pixel; 0 where there is no lettering. [`texels`](Self::texels) has the offsets of
            /// chroma.
            ///
            /// # Panics
            /// Outside the layer, and where `luma` is too short for its pitch and size.
            #[must_use]
            pub fn offset(&$self, x: usize, y: usize) -> f32 {
                $self.texels(Channel::Luma).offset(x, y)
            }

            /// Whether peel and unpeel write this luma pixel: it has another gain and offset than (1, 0), and its cell
            /// is at distance 0 or 1 (or below). [`texels`](Self::texels) says it of chroma.
            ///
            /// # Panics
            /// Outside the layer, and where a slice is too short for its pitch and size.
            #[must_use]
            pub fn is_layered(&$self, x: usize, y: usize) -> bool {
                $self.texels(Channel::Luma).is_layered(x, y)
            }

            /// The distances of the 8 by 8 cells, as a view with a width and a height of its own.
            #[must_use]
            pub fn cells(&$self) -> Cells<$life, $form> {
                Cells::of(&$lent)
            }
        }
    };
}

reading!([impl<'a, T: Form> LayerOf<'a, T>], T, 'a, |self| *self);
reading!([impl LayerBuf], i16, '_, |self| self.layer());

#[cfg(test)]
mod tests {
    use super::*;
    use crate::{Layer, LayerBytes, Ratio};

    const NUMBERS: &[i16] = &[4096, 2048, 4096, -820, 0, 64, -1, 0];
    const CHROMA: &[i16] = &[-64, 1];

    /// 2 by 2 pixels of ratio 2.
    fn layer() -> Layer<'static> {
        Layer::new(NUMBERS, [CHROMA, CHROMA], Size::new(2, 2), Ratio::Two)
    }

    #[test]
    fn luma_and_chroma() {
        let luma: Vec<_> = layer().texels(Channel::Luma).iter().collect();
        let texel = |gain, offset| Texel { gain, offset };
        let right = [
            Texel::NONE,
            texel(0.5, 1.0),
            texel(1.0, -1.0 / 64.0),
            texel(-820.0 / 4096.0, 0.0),
        ];
        assert_eq!(luma, right);
        let mean = (4096 + 2048 + 4096 - 820) as f32 / 4.0 / 4096.0;
        for channel in [Channel::Chroma1, Channel::Chroma2] {
            let chroma: Vec<_> = layer().texels(channel).iter().collect();
            assert_eq!(chroma, [texel(mean, -1.0)]);
        }
        let layered: Vec<_> = layer().texels(Channel::Luma).layered().collect();
        assert_eq!(layered, [(1, 0), (0, 1), (1, 1)]);
        let far = Layer {
            chroma: [CHROMA, &[0, 2]],
            ..layer()
        };
        assert_eq!(far.texels(Channel::Luma).layered().count(), 0);
    }

    /// "A pixel's cell is its column and row divided by the cell side, 8, 4 or 2, both cut."
    #[test]
    fn a_pixels_cell() {
        for (ratio, side) in [(Ratio::One, 8), (Ratio::Two, 4), (Ratio::Four, 2)] {
            let layer = Layer { ratio, ..layer() };
            for (channel, side) in [
                (Channel::Luma, 8),
                (Channel::Chroma1, side),
                (Channel::Chroma2, side),
            ] {
                let texels = layer.texels(channel);
                for k in 0..4096 {
                    assert_eq!(texels.cell(k, 4095 - k), (k / side, (4095 - k) / side));
                }
            }
        }
    }

    #[test]
    #[should_panic(expected = "pixel (2, 0) of a layer's luma, which is 2 by 2")]
    fn a_pixel_outside() {
        let _ = layer().gain(2, 0);
    }

    #[test]
    #[should_panic(expected = "pixel (0, 1) of a layer's chroma1, which is 1 by 1")]
    fn a_pixel_outside_chroma() {
        let _ = layer().texels(Channel::Chroma1).is_layered(0, 1);
    }

    #[test]
    #[should_panic(expected = "cell (1, 0) of a layer that has 1 by 1 cells")]
    fn a_cell_outside() {
        let _ = layer().cells().distance(1, 0);
    }

    /// Pitches that no call takes do not wrap around to a place inside.
    #[test]
    fn a_slice_that_is_too_short() {
        let wide = Layer {
            pitch: (usize::MAX, usize::MAX),
            ..layer()
        };
        let bytes = LayerBytes::new(&[0; 16], [&[0; 4], &[0; 4]], Size::new(2, 2), Ratio::Two);
        let wide_bytes = LayerBytes {
            pitch: (usize::MAX / 2 + 1, 1),
            ..bytes
        };
        let panics = |read: &(dyn Fn() -> f32 + std::panic::RefUnwindSafe)| {
            std::panic::catch_unwind(read).is_err()
        };
        assert!(panics(&|| wide.gain(0, 1)));
        assert!(panics(&|| wide.offset(0, 0)));
        assert!(panics(&|| f32::from(wide.cells().distance(0, 0))));
        assert!(panics(&|| wide_bytes.gain(0, 1)));
        assert!(!panics(&|| bytes.gain(0, 1)));
    }
}
