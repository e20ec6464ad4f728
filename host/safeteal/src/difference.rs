//! What became of each dot between two layers.

use std::fmt;

use crate::groups::Form;
use crate::{Channel, Error, LayerBuf, LayerOf, Result, Texel};

/// What became of a dot from the first layer to the second.
#[derive(Clone, Copy, Debug, PartialEq, Eq, Hash)]
pub enum Fate {
    /// In both layers, with the same gain and offset.
    Stayed,
    /// In the second layer alone.
    New,
    /// In the first layer alone.
    Lost,
    /// In both layers, with another gain or offset in the second.
    Changed,
}

impl Fate {
    /// All of them.
    pub const ALL: &'static [Self] = &[Self::Stayed, Self::New, Self::Lost, Self::Changed];

    /// None where there is a dot in neither layer.
    fn of(first: Texel, second: Texel) -> Option<Self> {
        match (first == Texel::NONE, second == Texel::NONE) {
            (true, true) => None,
            (true, false) => Some(Self::New),
            (false, true) => Some(Self::Lost),
            (false, false) if first == second => Some(Self::Stayed),
            (false, false) => Some(Self::Changed),
        }
    }
}

impl fmt::Display for Fate {
    fn fmt(&self, f: &mut fmt::Formatter<'_>) -> fmt::Result {
        f.pad(match self {
            Self::Stayed => "stayed",
            Self::New => "new",
            Self::Lost => "lost",
            Self::Changed => "changed",
        })
    }
}

/// A dot of a [`Difference`]: where it is, and what became of it.
#[derive(Clone, Copy, Debug, PartialEq, Eq, Hash)]
pub struct Dot {
    /// Its plane.
    pub channel: Channel,
    /// Its column, in pixels of its plane.
    pub x: usize,
    /// Its row, in pixels of its plane.
    pub y: usize,
    /// What became of it.
    pub fate: Fate,
}

/// How many dots of a plane stayed, are new, were lost and have changed.
#[derive(Clone, Copy, Debug, Default, PartialEq, Eq, Hash)]
pub struct Fates {
    /// Dots of both layers, with the same gain and offset.
    pub stayed: usize,
    /// Dots of the second layer alone.
    pub new: usize,
    /// Dots of the first layer alone.
    pub lost: usize,
    /// Dots of both layers, with another gain or offset in the second.
    pub changed: usize,
}

impl Fates {
    fn add(mut self, fate: Fate) -> Self {
        let count = match fate {
            Fate::Stayed => &mut self.stayed,
            Fate::New => &mut self.new,
            Fate::Lost => &mut self.lost,
            Fate::Changed => &mut self.changed,
        };
        *count += 1;
        self
    }
}

impl fmt::Display for Fates {
    fn fmt(&self, f: &mut fmt::Formatter<'_>) -> fmt::Result {
        let Self {
            stayed,
            new,
            lost,
            changed,
        } = self;
        write!(
            f,
            "{stayed} stayed, {new} new, {lost} lost, {changed} changed"
        )
    }
}

/// Two layers of one size and ratio beside each other: what became of each dot. [`LayerOf::compare`] makes it.
///
/// A dot is a pixel with another gain and offset than (1, 0), as [`Texels`](crate::Texels) reads them. For two fits of
/// the same sums, strict off, the second evidence figure no higher than the first, it is proved that no dot of luma is
/// lost or changed and that no cell is farther from lettering: [`keeps_all`](Self::keeps_all) says whether it is so of
/// these two layers. A chroma pixel stands for up to sixteen pixels of luma. Where one of them is new, it has another
/// mean gain and another offset: so dots of chroma can change, and the guarantee does not speak of them.
///
/// ```
/// use safeteal::{Channel, Fate, LayerBuf, Ratio, Size};
///
/// // The first layer has one dot, the second has it and another one.
/// let (size, none) = (Size::new(3, 1), [1.0, 0.0, 0.0, 0.0]);
/// let (date, logo) = ([0.5, 60.0, 0.0, 0.0], [0.75, 9.0, 0.0, 0.0]);
/// let layer = |models: [[f32; 4]; 3]| LayerBuf::assemble(size, Ratio::One, models.as_flattened(), &[0]);
/// let (first, second) = (layer([date, none, none])?, layer([date, none, logo])?);
///
/// let difference = first.compare(&second)?;
/// let luma = difference.counts(Channel::Luma);
/// assert_eq!((luma.stayed, luma.new, luma.lost, luma.changed), (1, 1, 0, 0));
/// assert!(difference.keeps_all());
/// let new: Vec<_> = difference.dots(Channel::Luma).filter(|dot| dot.fate == Fate::New).collect();
/// assert_eq!((new[0].x, new[0].y), (2, 0));
///
/// // Turned up, the figure loses a dot.
/// let difference = second.compare(&first)?;
/// assert_eq!(difference.fate(Channel::Luma, 2, 0), Some(Fate::Lost));
/// assert!(!difference.keeps_all());
/// # Ok::<(), safeteal::Error>(())
/// ```
#[derive(Clone, Copy, Debug, PartialEq, Eq)]
pub struct Difference<'a, T> {
    layers: [LayerOf<'a, T>; 2],
    counts: [Fates; 3],
    nearer: usize,
    farther: usize,
}

impl<'a, T: Form> Difference<'a, T> {
    /// Of two layers that a call would accept.
    fn between(layers: [LayerOf<'a, T>; 2]) -> Self {
        let [first, second] = layers.map(|layer| layer.cells());
        let cells = || first.iter().zip(second.iter());
        let mut made = Self {
            layers,
            counts: [Fates::default(); 3],
            nearer: cells().filter(|(first, second)| second < first).count(),
            farther: cells().filter(|(first, second)| second > first).count(),
        };
        for &channel in Channel::ALL {
            let fates = made.dots(channel).map(|dot| dot.fate);
            made.counts[channel.number()] = fates.fold(Fates::default(), Fates::add);
        }
        made
    }

    /// How many dots of a plane stayed, are new, were lost and have changed.
    #[must_use]
    pub fn counts(&self, channel: Channel) -> Fates {
        self.counts[channel.number()]
    }

    /// What became of a pixel; none where it is a dot in neither layer.
    ///
    /// # Panics
    /// Outside the plane.
    #[must_use]
    pub fn fate(&self, channel: Channel, x: usize, y: usize) -> Option<Fate> {
        let [first, second] = self.layers.map(|layer| layer.texels(channel).texel(x, y));
        Fate::of(first, second)
    }

    /// The dots of a plane in either layer, row after row.
    pub fn dots(&self, channel: Channel) -> impl Iterator<Item = Dot> + 'a {
        let layers = self.layers.map(|layer| layer.texels(channel));
        let places = layers[0].size().places();
        places.filter_map(move |(x, y)| {
            let [first, second] = layers.map(|texels| texels.texel(x, y));
            let fate = Fate::of(first, second)?;
            let dot = Dot {
                channel,
                x,
                y,
                fate,
            };
            Some(dot)
        })
    }

    /// How many cells are nearer to lettering in the second layer.
    #[must_use]
    pub fn nearer(&self) -> usize {
        self.nearer
    }

    /// How many cells are farther from lettering in the second layer.
    #[must_use]
    pub fn farther(&self) -> usize {
        self.farther
    }

    /// Whether all that the first layer passed is still there, unchanged: no dot of luma was lost or changed, and no
    /// cell is farther from lettering.
    #[must_use]
    pub fn keeps_all(&self) -> bool {
        let luma = self.counts(Channel::Luma);
        luma.lost == 0 && luma.changed == 0 && self.farther == 0
    }
}

/// One line: `luma: 71 stayed, 30 new, 0 lost, 0 changed; chroma1: ..; chroma2: ..; cells: 4 nearer, 0 farther`.
impl<T: Form> fmt::Display for Difference<'_, T> {
    fn fmt(&self, f: &mut fmt::Formatter<'_>) -> fmt::Result {
        for &channel in Channel::ALL {
            write!(f, "{channel}: {}; ", self.counts(channel))?;
        }
        write!(f, "cells: {} nearer, {} farther", self.nearer, self.farther)
    }
}

impl<'a, T: Form> LayerOf<'a, T> {
    /// Holds a second layer beside this one: which dots stayed, are new, were lost, have changed.
    ///
    /// # Errors
    /// `Refusal::Size` for layers of different sizes or ratios; otherwise as [`peel`](Self::peel) refuses a layer, for
    /// the first of the two that it would refuse.
    pub fn compare(&self, second: &LayerOf<'a, T>) -> Result<Difference<'a, T>> {
        self.compared(T::NAMES.compare, second)
    }

    fn compared(&self, call: &'static str, second: &Self) -> Result<Difference<'a, T>> {
        Error::of_sizes(call, |search| {
            let (first, second) = ((self.size, self.ratio), (second.size, second.ratio));
            search.alike("second", second, "the first layer", first)
        })?;
        self.accepted(call)?;
        second.accepted(call)?;
        Ok(Difference::between([*self, *second]))
    }
}

impl LayerBuf {
    /// Holds a second layer beside this one, as [`LayerOf::compare`].
    ///
    /// # Errors
    /// `Refusal::Size` for layers of different sizes or ratios.
    pub fn compare<'a>(&'a self, second: &'a LayerBuf) -> Result<Difference<'a, i16>> {
        self.layer().compared("LayerBuf::compare", &second.layer())
    }
}

#[cfg(test)]
mod tests {
    use super::*;
    use crate::{Layer, LayerBytes, Ratio, Refusal, Size};

    const SIZE: Size = Size::new(4, 2);

    /// A layer of ratio 2 with these pairs of gain and offset, chroma offsets and a distance.
    fn layer(luma: &[(i16, i16); 8], chroma: [[i16; 2]; 2], distance: i16) -> LayerBuf {
        let mut made = LayerBuf::new(SIZE, Ratio::Two).expect("a small layer");
        let slices = made.layer_mut();
        let pairs = luma.iter().enumerate();
        pairs.for_each(|(at, pair)| (slices.luma[at], slices.luma[8 + at]) = *pair);
        for (slice, offsets) in slices.chroma.into_iter().zip(chroma) {
            slice[..2].copy_from_slice(&offsets);
            slice[2] = distance;
        }
        made
    }

    const NONE: (i16, i16) = (4096, 0);

    #[test]
    fn every_fate_in_every_plane() {
        let mut first = [NONE; 8];
        first[0] = (2048, 640);
        first[1] = (4096, 64);
        first[5] = (4000, 1);
        let mut second = first;
        second[1] = NONE;
        second[2] = (100, 0);
        second[5] = (4000, 2);
        let first = layer(&first, [[3, 0], [0, 0]], 1);
        let second = layer(&second, [[3, 0], [0, -7]], 1);
        let difference = first.compare(&second).expect("layers of one size");
        let dots = |channel| -> Vec<(usize, usize, Fate)> {
            let dots = difference.dots(channel);
            dots.map(|dot| (dot.x, dot.y, dot.fate)).collect()
        };
        let luma = [
            (0, 0, Fate::Stayed),
            (1, 0, Fate::Lost),
            (2, 0, Fate::New),
            (1, 1, Fate::Changed),
        ];
        assert_eq!(dots(Channel::Luma), luma);
        // The left chroma pixel has the mean of 2048, 4096, 4096 and 4000 both times; the right one has a new gain.
        assert_eq!(
            dots(Channel::Chroma1),
            [(0, 0, Fate::Stayed), (1, 0, Fate::New)]
        );
        assert_eq!(
            difference.to_string(),
            "luma: 1 stayed, 1 new, 1 lost, 1 changed; chroma1: 1 stayed, 1 new, 0 lost, 0 changed; \
             chroma2: 1 stayed, 1 new, 0 lost, 0 changed; cells: 0 nearer, 0 farther"
        );
        assert!(!difference.keeps_all());
    }

    #[test]
    fn a_dot_that_is_lost_or_changed_is_not_kept() {
        let keeps = |first: (i16, i16), second: (i16, i16)| {
            let [first, second] = [first, second].map(|pair| layer(&[pair; 8], [[0; 2]; 2], 0));
            let difference = first.compare(&second).expect("layers of one size");
            difference.keeps_all()
        };
        assert!(keeps(NONE, (2048, 0)) && keeps((2048, 0), (2048, 0)));
        assert!(!keeps((2048, 0), (2048, 1)) && !keeps((2048, 0), (2049, 0)));
        assert!(!keeps((2048, 0), NONE));
    }

    #[test]
    fn cells_that_are_farther_are_no_guarantee() {
        let near = layer(&[(0, 0); 8], [[0; 2]; 2], 1);
        let far = layer(&[(0, 0); 8], [[0; 2]; 2], 2);
        let turned = |first: &LayerBuf, second: &LayerBuf| {
            let difference = first.compare(second).expect("layers of one size");
            (
                difference.nearer(),
                difference.farther(),
                difference.keeps_all(),
            )
        };
        assert_eq!(turned(&far, &near), (1, 0, true));
        assert_eq!(turned(&near, &far), (0, 1, false));
    }

    #[test]
    fn layers_that_cannot_be_compared() {
        let small = LayerBuf::new(Size::new(2, 2), Ratio::Two).expect("a small layer");
        let other = layer(&[NONE; 8], [[0; 2]; 2], 0);
        let error = other.compare(&small).unwrap_err();
        assert_eq!(
            error.to_string(),
            "LayerBuf::compare refused (1): `second` is 2 by 2 at ratio 2, and the first layer 4 by 2 at ratio 2"
        );
        let short = Layer {
            luma: &other.layer().luma[..15],
            ..other.layer()
        };
        let error = other.layer().compare(&short).unwrap_err();
        assert_eq!(error.refusal(), Refusal::Length);
        let narrow = Layer {
            pitch: (3, 2),
            ..other.layer()
        };
        let error = narrow.compare(&other.layer()).unwrap_err();
        assert_eq!(error.refusal(), Refusal::Pitch);
    }

    #[test]
    fn layers_lent_as_bytes() {
        let (first, second) = ([0x00, 0x10, 0, 0], [0x00, 0x08, 0, 0]);
        let chroma = [0; 5];
        let layer = |luma| LayerBytes::new(luma, [&chroma, &chroma], Size::new(1, 1), Ratio::One);
        let (first, second) = (layer(&first), layer(&second));
        let difference = first.compare(&second).expect("layers of one pixel");
        assert_eq!(difference.counts(Channel::Luma).new, 1);
        assert_eq!(difference.fate(Channel::Chroma2, 0, 0), Some(Fate::New));
    }
}
