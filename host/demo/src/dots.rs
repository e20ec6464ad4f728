//! What became of each dot: what two layers make of it, beside what was printed.

use safeteal::{Channel, Error, Fate, LayerBuf};

/// What is shown of a dot.
#[derive(Clone, Copy, Debug, PartialEq, Eq, PartialOrd, Ord)]
pub enum Kind {
    /// Lettering that was passed at the first figure, and is the same at the second.
    Stayed,
    /// Lettering that is found at the second figure alone.
    New,
    /// Lettering that is not found.
    Missed,
    /// Found, and no lettering.
    Stray,
    /// Passed at the first figure, and lost or changed at the second.
    Lost,
}

impl Kind {
    pub const ALL: [Self; 5] = [
        Self::Stayed,
        Self::New,
        Self::Missed,
        Self::Stray,
        Self::Lost,
    ];

    /// A dot that has this fate from the first layer to the second, if it is in either, and has lettering or not.
    fn of(fate: Option<Fate>, printed: bool) -> Option<Self> {
        match (fate, printed) {
            (None, false) => None,
            (None, true) => Some(Self::Missed),
            (Some(Fate::Stayed), true) => Some(Self::Stayed),
            (Some(Fate::New), true) => Some(Self::New),
            (Some(Fate::Stayed | Fate::New), false) => Some(Self::Stray),
            (Some(Fate::Lost | Fate::Changed), _) => Some(Self::Lost),
        }
    }
}

/// How many dots are lettering, and how many are not.
#[derive(Clone, Copy, Debug, Default, PartialEq, Eq)]
pub struct Share {
    pub lettering: usize,
    pub stray: usize,
}

impl Share {
    pub fn all(self) -> usize {
        self.lettering + self.stray
    }
}

/// The luma dots of two layers of one size, row after row.
pub struct Dots {
    /// The fate of each from the first layer to the second, and whether it was printed.
    dots: Vec<(Option<Fate>, bool)>,
    /// Whether all that was passed is still there, unchanged.
    pub kept: bool,
}

impl Dots {
    /// The dots of the layers at the first and at the second figure, and whether each was printed.
    pub fn of(
        [first, second]: [&LayerBuf; 2],
        printed: impl Iterator<Item = bool>,
    ) -> Result<Self, Error> {
        let difference = first.compare(second)?;
        let mut dots: Vec<_> = printed.map(|printed| (None, printed)).collect();
        for dot in difference.dots(Channel::Luma) {
            dots[dot.y * first.size().width + dot.x].0 = Some(dot.fate);
        }
        let kept = difference.keeps_all();
        Ok(Self { dots, kept })
    }

    /// What is shown of each dot, if anything.
    pub fn kinds(&self) -> impl Iterator<Item = Option<Kind>> + '_ {
        self.dots
            .iter()
            .map(|&(fate, printed)| Kind::of(fate, printed))
    }

    pub fn count(&self, kind: Kind) -> usize {
        self.kinds().filter(|&own| own == Some(kind)).count()
    }

    /// The dots with lettering, found or not.
    pub fn printed(&self) -> usize {
        self.dots.iter().filter(|&&(_, printed)| printed).count()
    }

    /// The dots that were passed at the first figure.
    pub fn passed(&self) -> Share {
        self.share(&[Fate::Stayed, Fate::Lost, Fate::Changed])
    }

    pub fn stayed(&self) -> Share {
        self.share(&[Fate::Stayed])
    }

    pub fn new_ones(&self) -> Share {
        self.share(&[Fate::New])
    }

    fn share(&self, of: &[Fate]) -> Share {
        let own = |fate: Option<Fate>| fate.is_some_and(|fate| of.contains(&fate));
        let count = |lettering: bool| {
            let dots = self.dots.iter();
            dots.filter(|&&(fate, printed)| printed == lettering && own(fate))
                .count()
        };
        Share {
            lettering: count(true),
            stray: count(false),
        }
    }
}

#[cfg(test)]
mod tests {
    use super::*;
    use safeteal::{Channel, Frame, MotionBuf, Pair, Ratio, Settings, Size, Sums};

    /// A layer of eight dots in a row, with these pairs.
    fn layer(pairs: [(i16, i16); 8]) -> LayerBuf {
        let mut made = LayerBuf::new(Size::new(8, 1), Ratio::One).expect("a small layer");
        let luma = made.layer_mut().luma;
        for (at, (gain, offset)) in pairs.into_iter().enumerate() {
            (luma[at], luma[8 + at]) = (gain, offset);
        }
        made
    }

    #[test]
    fn each_dot_has_its_kind() {
        let (no, a, b) = ((4096, 0), (2048, 640), (4096, 64));
        let first = layer([no, no, a, a, no, no, a, b]);
        let second = layer([no, no, a, a, b, b, no, a]);
        let printed = [false, true, false, true, false, true, true, false];
        let dots = Dots::of([&first, &second], printed.into_iter()).expect("layers of one size");
        assert!(!dots.kept);
        use Kind::{Lost, Missed, New, Stayed, Stray};
        let kinds = [Missed, Stray, Stayed, Stray, New, Lost, Lost].map(Some);
        assert!(dots.kinds().eq([None].into_iter().chain(kinds)));
        assert_eq!(Kind::ALL.map(|kind| dots.count(kind)), [1, 1, 1, 2, 2]);
        let share = |lettering, stray| Share { lettering, stray };
        assert_eq!(dots.passed(), share(2, 2));
        assert_eq!(dots.stayed(), share(1, 1));
        assert_eq!(dots.new_ones(), share(1, 1));
        assert_eq!(dots.printed(), 4);
    }

    /// The layers, at two figures, of a clip whose counts are known: the camera goes to the right, and a bar of 3 by 16
    /// dots stands still.
    fn bar(figures: [f32; 2]) -> [LayerBuf; 2] {
        let size = Size::new(64, 32);
        let camera = |number: usize| 5 * number + number * number;
        let frame = |number: usize| {
            let mut frame = Frame::new(size, Ratio::Two, [0, 128, 128]).expect("a frame");
            for (at, byte) in frame.bytes_mut(Channel::Luma).iter_mut().enumerate() {
                let (x, y) = (at % 64, at / 64);
                let scene = ((x + camera(number)) * 37 + y * 11) % 120;
                *byte = if inside(at, 30) {
                    scene / 2 + 100
                } else {
                    scene
                } as u8;
            }
            frame
        };
        let mut sums = Sums::new(size, Ratio::Two).expect("sums");
        for number in 0..12 {
            let pan = (camera(number + 1) - camera(number)) as i32;
            let motion = MotionBuf::pan(size, (pan, 0)).expect("a motion");
            let (first, second) = (frame(number), frame(number + 1));
            let pair = Pair::of(&first, &second, &motion).expect("a pair");
            sums.add(&pair).expect("twelve pairs");
        }
        figures.map(|evidence| {
            let settings = Settings {
                evidence,
                ..Settings::default()
            };
            LayerBuf::fit(None, &sums, None, settings).expect("a layer")
        })
    }

    /// Whether a dot of the small clip is in a bar that begins at that column.
    fn inside(at: usize, left: usize) -> bool {
        (left..left + 3).contains(&(at % 64)) && (8..24).contains(&(at / 64))
    }

    #[test]
    fn a_clip_in_which_the_counts_are_known() {
        // Twelve pairs give 24 comparisons: nothing stands apart more often.
        let [nothing, layer] = bar([24.5, 24.0]);
        let counts = |first: &LayerBuf, left: usize| {
            let printed = (0..64 * 32).map(|at| inside(at, left));
            let dots = Dots::of([first, &layer], printed).expect("layers of one size");
            assert!(dots.kept);
            Kind::ALL.map(|kind| dots.count(kind))
        };
        // Stayed, new, missed, stray, lost.
        assert_eq!(counts(&layer, 30), [48, 0, 0, 0, 0]);
        assert_eq!(counts(&nothing, 30), [0, 48, 0, 0, 0]);
        // Had the bar been printed one column further right, a column of 16 were missed, and one found for nothing.
        assert_eq!(counts(&layer, 31), [32, 0, 16, 16, 0]);
        assert_eq!(counts(&nothing, 31), [0, 32, 16, 16, 0]);
    }
}
