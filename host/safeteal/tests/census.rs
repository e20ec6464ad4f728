//! The census of evidence figures says what fits at each of them find, and two layers beside each other say what the
//! evidence guarantee says.

use safeteal::{
    Census, Channel, Fate, Frame, LayerBuf, MotionBuf, Pair, Passed, Ratio, Refusal, Result,
    Settings, Size, Sums,
};

const SIZE: Size = Size::new(96, 64);
const STEP: i32 = 6;

/// Where a letter of three by six dots begins, and how strongly it covers the scene.
const LETTERS: [(usize, usize, usize); 6] = [
    (8, 8, 90),
    (20, 8, 70),
    (32, 8, 50),
    (44, 8, 40),
    (56, 8, 30),
    (70, 40, 20),
];

/// Bytes by chance.
struct Chance(u32);

impl Chance {
    fn below(&mut self, limit: u32) -> u32 {
        self.0 = self.0.wrapping_mul(1_664_525).wrapping_add(1_013_904_223);
        (self.0 >> 8) % limit
    }
}

/// A scene of blocks that goes by, with grain, and letters that stand still on it.
fn frame(number: usize, chance: &mut Chance) -> Result<Frame> {
    let mut frame = Frame::new(SIZE, Ratio::Two, [0, 120, 140])?;
    for y in 0..SIZE.height {
        let row = frame[Channel::Luma].row_mut(y);
        for (x, byte) in row.iter_mut().enumerate() {
            let (across, down) = ((x + number * STEP as usize) / 5, y / 5);
            let scene = 40 + (across * 67 + down * 41 + across * down * 13) % 120;
            let letter = LETTERS.iter().find(|(left, top, _)| {
                (*left..left + 3).contains(&x) && (*top..top + 6).contains(&y)
            });
            let cover = letter.map_or(0, |letter| letter.2);
            let grain = chance.below(7) as usize;
            *byte = (scene * (100 - cover) / 100 + 2 * cover + grain) as u8;
        }
    }
    Ok(frame)
}

/// The sums of so many pairs, from that frame on.
fn sums(pairs: usize, from: usize, chance: &mut Chance) -> Result<Sums> {
    let motion = MotionBuf::pan(SIZE, (STEP, 0))?;
    let mut sums = Sums::new(SIZE, Ratio::Two)?;
    for number in from..from + pairs {
        let (first, second) = (frame(number, chance)?, frame(number + 1, chance)?);
        sums.add(&Pair::of(&first, &second, &motion)?)?;
    }
    Ok(sums)
}

/// What passes at a figure, by a fit and a peel, counted here.
fn counted(parts: [Option<&Sums>; 3], settings: Settings) -> Result<Passed> {
    let own = parts[1].expect("an own part");
    let layer = LayerBuf::fit(parts[0], own, parts[2], settings)?;
    let (gains, offsets) = layer.layer().luma.split_at(SIZE.width * SIZE.height);
    let pairs = gains.iter().zip(offsets);
    let dots = pairs.filter(|&pair| pair != (&4096, &0)).count();
    let raw = Frame::new(SIZE, Ratio::Two, [0; 3])?;
    let mut output = raw.clone();
    let luma = Channel::Luma;
    let peeled = layer
        .layer()
        .peel(luma, output.plane_mut(luma), raw[luma].plane())?;
    Ok(Passed { dots, peeled })
}

/// The census of these parts beside fits at whole figures and at others; the dots at each whole figure.
fn compared(parts: [Option<&Sums>; 3], strict: bool) -> Result<Vec<usize>> {
    let settings = |evidence| Settings {
        evidence,
        strict,
        ..Settings::default()
    };
    let own = parts[1].expect("an own part");
    // The census does not look at the figure that it is given.
    let census = Census::of(parts[0], own, parts[2], settings(-1.0))?;
    for quarter in 0..=4 * 75 {
        let figure = quarter as f32 / 4.0;
        let passed = counted(parts, settings(figure))?;
        assert_eq!(
            census.at(figure)?,
            passed,
            "figure {figure}, strict {strict}"
        );
    }
    let rows: Vec<Passed> = census.iter().map(|(_, passed)| passed).collect();
    assert_eq!(rows.last(), Some(&Passed::default()));
    assert_eq!(census.to_string().lines().count(), rows.len());
    for (figure, passed) in rows.iter().enumerate() {
        let highest = census.highest(passed.dots).expect("as many as here");
        assert!(highest >= figure as f32);
        assert!(census.at(highest)?.dots >= passed.dots);
    }
    assert_eq!(census.highest(usize::MAX), None);
    Ok(rows.iter().map(|passed| passed.dots).collect())
}

#[test]
fn the_census_is_that_of_the_fits() -> Result<()> {
    let chance = &mut Chance(7);
    let [previous, own, next] = [
        sums(12, 0, chance)?,
        sums(12, 12, chance)?,
        sums(7, 24, chance)?,
    ];
    for parts in [
        [None, Some(&own), None],
        [Some(&previous), Some(&own), None],
        [Some(&previous), Some(&own), Some(&next)],
    ] {
        let dots = compared(parts, false)?;
        let falls = dots.windows(2).all(|pair| pair[0] >= pair[1]);
        assert!(falls, "{dots:?}");
        let mut different = dots.clone();
        different.dedup();
        assert!(different.len() > 8, "the clip shows little: {dots:?}");
        compared(parts, true)?;
    }
    Ok(())
}

#[test]
fn a_figure_turned_down_loses_and_changes_no_dot() -> Result<()> {
    let own = sums(12, 0, &mut Chance(3))?;
    let fitted = |evidence| {
        LayerBuf::fit(
            None,
            &own,
            None,
            Settings {
                evidence,
                ..Settings::default()
            },
        )
    };
    let (mut higher, mut new) = (fitted(24.0)?, 0);
    for evidence in (0..24).rev() {
        let lower = fitted(evidence as f32)?;
        let difference = higher.compare(&lower)?;
        let luma = difference.counts(Channel::Luma);
        assert!(difference.keeps_all(), "figure {evidence}: {difference}");
        let found = difference
            .dots(Channel::Luma)
            .filter(|dot| dot.fate == Fate::New);
        assert_eq!(found.count(), luma.new);
        // Turned up again, it loses exactly these.
        let back = lower.compare(&higher)?.counts(Channel::Luma);
        assert_eq!(
            (back.stayed, back.lost, back.new, back.changed),
            (luma.stayed, luma.new, 0, 0)
        );
        new += luma.new;
        higher = lower;
    }
    assert!(new > 50, "{new} dots are new");
    Ok(())
}

#[test]
fn what_the_census_refuses() -> Result<()> {
    let chance = &mut Chance(1);
    let own = sums(1, 0, chance)?;
    let refused = |previous: Option<&Sums>, own: &Sums, settings| {
        Census::of(previous, own, None, settings)
            .unwrap_err()
            .refusal()
    };
    let none = Sums::new(SIZE, Ratio::Two)?;
    assert_eq!(refused(None, &none, Settings::default()), Refusal::Pairs);
    assert_eq!(
        refused(Some(&none), &own, Settings::default()),
        Refusal::Pairs
    );
    let other = Sums::new(Size::new(8, 8), Ratio::Two)?;
    assert_eq!(
        refused(Some(&other), &own, Settings::default()),
        Refusal::Size
    );
    let settings = Settings {
        limit: 0.0,
        ..Settings::default()
    };
    assert_eq!(refused(None, &own, settings), Refusal::Setting);
    let census = Census::of(None, &own, None, Settings::default())?;
    for figure in [-0.5, 65_537.0, f32::NAN, f32::INFINITY] {
        assert_eq!(census.at(figure).unwrap_err().refusal(), Refusal::Setting);
    }
    assert_eq!(census.at(65_536.0), Ok(Passed::default()));
    assert_eq!(census.at(-0.0), census.at(0.0));
    Ok(())
}

/// Pairs of frames in which a block of 4 by 4 changes 22 times as much as what moves over it, so that 16 bits cannot
/// hold its offsets in chroma; and a bar beside it that stands apart in every pair.
fn heavy(violent: bool, odd: bool) -> Result<[Frame; 2]> {
    let frame = |odd: bool| -> Result<Frame> {
        let mut frame = Frame::new(SIZE, Ratio::Two, [104, 128, 128])?;
        let luma = &mut frame[Channel::Luma];
        for y in 20..24 {
            let [block, beside] = match (violent, odd) {
                (true, false) => [255, 100],
                (true, true) => [0, 110],
                (false, _) => [105, 104],
            };
            luma.row_mut(y)[20..24].fill(block);
            luma.row_mut(y)[26..30].fill(beside);
            luma.row_mut(y)[14..18].fill(beside);
        }
        for y in 40..48 {
            // The scene behind the bar is dark or bright by turns; the bar shows half of it.
            luma.row_mut(y)[40..90].fill(if odd { 20 } else { 120 });
            luma.row_mut(y)[60..66].fill(if odd { 210 } else { 160 });
        }
        Ok(frame)
    };
    Ok([frame(odd)?, frame(!odd)?])
}

/// A figure at which a total is held has its row as every other.
#[test]
fn casts_that_are_held_are_counted() -> Result<()> {
    let motion = MotionBuf::pan(SIZE, (STEP, 0))?;
    let mut own = Sums::new(SIZE, Ratio::Two)?;
    for number in 0..6 {
        let [first, second] = heavy(number < 2, number % 2 == 0)?;
        own.add(&Pair::of(&first, &second, &motion)?)?;
    }
    let dots = compared([None, Some(&own), None], false)?;
    assert_eq!(dots.len(), 14, "{dots:?}");
    assert!(dots[4] > dots[5] && dots[12] >= 48, "{dots:?}");
    for (evidence, held) in [(4.0, true), (5.0, false)] {
        let settings = Settings {
            evidence,
            ..Settings::default()
        };
        let layer = LayerBuf::fit(None, &own, None, settings)?;
        let offsets = layer.layer().chroma[0];
        assert_eq!(offsets.contains(&i16::MIN), held, "figure {evidence}");
    }
    Ok(())
}

/// Sums of so many pairs in which the light goes on and off over a strip, and a bar on it shows half of the strip and
/// an offset; or, the other way round, less of it the lighter the strip is.
fn flicker(pairs: usize, reverse: bool) -> Result<Sums> {
    let frame = |odd: bool| -> Result<Frame> {
        let mut frame = Frame::new(SIZE, Ratio::Two, [70, 128, 128])?;
        // The bar is compared with the strip of the other frame, where the light is the opposite.
        let (strip, bar) = match (odd, reverse) {
            (true, false) => (20, 210),
            (false, false) => (120, 160),
            (true, true) => (20, 195),
            (false, true) => (120, 245),
        };
        for y in 40..48 {
            let row = frame[Channel::Luma].row_mut(y);
            row[40..90].fill(strip);
            row[60..66].fill(bar);
        }
        Ok(frame)
    };
    let motion = MotionBuf::pan(SIZE, (STEP, 0))?;
    let mut sums = Sums::new(SIZE, Ratio::Two)?;
    for number in 0..pairs {
        let (first, second) = (frame(number % 2 == 0)?, frame(number % 2 == 1)?);
        sums.add(&Pair::of(&first, &second, &motion)?)?;
    }
    Ok(sums)
}

/// Where a neighbour shows another bar, fit leaves that neighbour out, and the evidence is that of the other two parts:
/// a figure that no pixel has over all three.
#[test]
fn the_evidence_of_two_parts_is_a_figure_of_its_own() -> Result<()> {
    let (other, own, same) = (flicker(1, true)?, flicker(3, false)?, flicker(2, false)?);
    for (previous, next) in [(&other, &same), (&same, &other)] {
        let dots = compared([Some(previous), Some(&own), Some(next)], false)?;
        // 12 comparisons in all, 10 without the other bar, 8 without the same one.
        assert_eq!(dots.len(), 14, "{dots:?}");
        assert!(dots[10] > dots[11] && dots[12] > 0, "{dots:?}");
    }
    Ok(())
}
