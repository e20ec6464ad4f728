//! How many dots pass at each evidence figure, so that a figure can be chosen.

use std::fmt;

use crate::calls::{fitted, parts, WorkBuf};
use crate::error::Error;
use crate::{
    Channel, LayerBuf, Parts, PlaneBuf, Ratio, Refusal, Result, Settings, Size, Sums, Texel,
};

/// How many dots pass at an evidence figure.
#[derive(Clone, Copy, Debug, Default, PartialEq, Eq, Hash)]
pub struct Passed {
    /// The luma pixels that fit stores with another gain and offset than (1, 0).
    pub dots: usize,
    /// The luma pixels that peel writes with that layer: the dots in cells at distance 0 or 1.
    pub peeled: u64,
}

/// How many dots pass at each evidence figure.
///
/// Each number is that of a fit at the figure, and of a peel with its layer: nothing is estimated. Evidence is counted
/// in whole comparisons, two for each pair: so figures between two whole ones give what the next whole one gives, and
/// only figures that some pixel's evidence is equal to can give other dots than the next one. At these the census makes
/// its fits; there are at most two for each pair and one more (73 with both neighbours full), and fewer where a clip
/// does not show them all.
///
/// That takes as long as these fits: in a release build some 30 to 100 ms each for 1920 by 1080, so 1 to 3 seconds for
/// one part of twelve pairs and 3 to 8 with both neighbours. While it runs it holds 25 bytes for each luma pixel at
/// ratio 2 (52 MB for 1920 by 1080), beside the sums.
///
/// With strict off, dots that pass at a figure pass at every lower one, with the same gain and offset: the numbers
/// never rise with the figure. With strict on they can.
///
/// ```
/// use safeteal::{Census, Channel, Frame, MotionBuf, Pair, Ratio, Settings, Size, Sums};
///
/// // A bar of 3 by 16 dots stands still in front of a scene that goes by.
/// let size = Size::new(64, 32);
/// let frame = |camera: usize| -> safeteal::Result<Frame> {
///     let mut frame = Frame::new(size, Ratio::Two, [0, 128, 128])?;
///     for (at, byte) in frame.bytes_mut(Channel::Luma).iter_mut().enumerate() {
///         let (x, y) = (at % 64, at / 64);
///         let scene = ((x + camera) * 37 + y * 11) % 120;
///         let bar = (30..33).contains(&x) && (8..24).contains(&y);
///         *byte = if bar { scene / 2 + 100 } else { scene } as u8;
///     }
///     Ok(frame)
/// };
/// let mut sums = Sums::new(size, Ratio::Two)?;
/// for number in 0..4 {
///     let (first, second) = (frame(7 * number)?, frame(7 * number + 7)?);
///     sums.add(&Pair::of(&first, &second, &MotionBuf::pan(size, (7, 0))?)?)?;
/// }
///
/// let census = Census::of(None, &sums, None, Settings::default())?;
/// // All 48 dots stood apart in all eight comparisons, and none in nine.
/// assert_eq!(census.at(8.0)?.dots, 48);
/// assert_eq!(census.at(8.5)?.dots, 0);
/// assert_eq!(census.highest(48), Some(8.0));
/// for (figure, passed) in census.iter() {
///     println!("at {figure}: {} dots", passed.dots);
/// }
/// # Ok::<(), safeteal::Error>(())
/// ```
#[derive(Clone, Debug, PartialEq, Eq)]
pub struct Census {
    /// What passes at figure 0, 1, 2 and so on. The last is the lowest figure that no pixel's evidence reaches.
    rows: Vec<Passed>,
}

impl Census {
    /// The census of what [`LayerBuf::fit`] finds in these sums with these settings; their evidence figure is not
    /// looked at.
    ///
    /// # Errors
    /// As [`LayerBuf::fit`].
    pub fn of(
        previous: Option<&Sums>,
        own: &Sums,
        next: Option<&Sums>,
        settings: Settings,
    ) -> Result<Self> {
        let parts = parts(CALL, previous, own, next)?;
        let mut desk = Desk::new(parts, own.size(), own.ratio(), settings)?;
        let mut rows = Vec::new();
        for figure in occurring(parts) {
            rows.resize(figure + 1, desk.passed(figure as f32)?);
        }
        rows.push(Passed::default());
        Ok(Self { rows })
    }

    /// What passes at an evidence figure.
    ///
    /// # Errors
    /// `Refusal::Setting` for a figure outside 0 to 65,536.
    pub fn at(&self, figure: f32) -> Result<Passed> {
        let call = "Census::at";
        Error::first(call, &[Refusal::Setting], |search| {
            search.setting("evidence", figure, [0.0, 65_536.0])
        })?;
        let whole = figure.ceil() as usize;
        Ok(self.rows[whole.min(self.rows.len() - 1)])
    }

    /// Each whole figure from 0 on, with what passes at it. At the last one and at all higher ones nothing passes,
    /// since no pixel's evidence reaches it.
    pub fn iter(&self) -> impl Iterator<Item = (f32, Passed)> + '_ {
        let rows = self.rows.iter().enumerate();
        rows.map(|(figure, &passed)| (figure as f32, passed))
    }

    /// The highest whole figure at which at least so many dots pass; none where they never do.
    #[must_use]
    pub fn highest(&self, dots: usize) -> Option<f32> {
        let mut rows = self.rows.iter();
        let highest = rows.rposition(|passed| passed.dots >= dots);
        highest.map(|figure| figure as f32)
    }
}

/// A line for each whole figure: `24: 48 dots, 48 peeled`.
impl fmt::Display for Census {
    fn fmt(&self, f: &mut fmt::Formatter<'_>) -> fmt::Result {
        for (figure, Passed { dots, peeled }) in self.iter() {
            writeln!(f, "{figure}: {dots} dots, {peeled} peeled")?;
        }
        Ok(())
    }
}

/// What its errors name.
const CALL: &str = "Census::of";

/// The most evidence that three full parts can give: two comparisons for each pair.
const MOST: usize = 3 * 2 * Sums::MOST;

/// The evidence that some pixel has in one of fit's three trials, from the least to the most: previous, own and next;
/// previous and own; own and next. Between two of these figures no comparison of evidence with the figure differs.
fn occurring(parts: Parts<'_>) -> impl Iterator<Item = usize> {
    let mut occurs = [false; MOST + 1];
    let own = parts.own.luma;
    let [previous, next] = [parts.previous, parts.next].map(|part| part.map(|part| part.luma));
    for at in (5..own.len()).step_by(6) {
        // These are whole numbers, 24 at most, and their sums exact. What is absent adds nothing.
        let beside = |luma: Option<&[f32]>| luma.map_or(0.0, |luma| luma[at]);
        let (before, here, after) = (beside(previous), own[at], beside(next));
        for total in [before + here + after, before + here, here + after] {
            occurs[total as usize] = true;
        }
    }
    (0..=MOST).filter(move |&figure| occurs[figure])
}

/// Where one fit is made after another.
struct Desk<'a> {
    parts: Parts<'a>,
    settings: Settings,
    layer: LayerBuf,
    work: WorkBuf,
    /// Planes to peel from and to: only the count is of interest.
    planes: [PlaneBuf; 2],
}

impl<'a> Desk<'a> {
    fn new(parts: Parts<'a>, size: Size, ratio: Ratio, settings: Settings) -> Result<Self> {
        Ok(Self {
            parts,
            settings,
            layer: LayerBuf::new(size, ratio)?,
            work: WorkBuf::new(size),
            planes: [PlaneBuf::new(size, 0)?, PlaneBuf::new(size, 0)?],
        })
    }

    fn passed(&mut self, evidence: f32) -> Result<Passed> {
        let settings = Settings {
            evidence,
            ..self.settings
        };
        let shape = (self.layer.size(), self.layer.ratio());
        let (work, layer) = (self.work.work(), self.layer.layer_mut());
        fitted(CALL, self.parts, shape, settings, work, layer)?;
        let layer = self.layer.layer();
        let [raw, output] = &mut self.planes;
        let peeled = layer.peel(Channel::Luma, output.plane_mut(), raw.plane())?;
        let texels = layer.texels(Channel::Luma).iter();
        let dots = texels.filter(|&texel| texel != Texel::NONE);
        Ok(Passed {
            dots: dots.count(),
            peeled,
        })
    }
}
