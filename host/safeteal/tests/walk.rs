//! Walks over clips: each layer is the one fitted with all parts of the clip held together, and comes when it is due;
//! what is out of turn is refused in words, and the walk goes on from where it was.

use safeteal::{
    Channel, Frame, LayerBuf, MotionBuf, Pair, Progress, Ratio, Refusal, Result, Settings, Size,
    Slot, Sums, Walk, Work,
};

const SIZE: Size = Size::new(48, 32);
/// The camera goes so many pixels to the right from frame to frame.
const STEP: usize = 5;
const SETTINGS: Settings = Settings {
    limit: 6.0,
    evidence: 12.0,
    strict: false,
};

/// Where letters of 3 by 8 dots stand at a frame: one on every frame, and one that is elsewhere twelve frames later.
fn is_letter(number: usize, x: usize, y: usize) -> bool {
    let across = |from: usize| (from..from + 3).contains(&x);
    let other = 20 + 5 * (number / 12 % 5);
    across(8) && (4..12).contains(&y) || across(other) && (16..24).contains(&y)
}

/// A scene of blocks that goes by, with letters on it that half cover it.
fn frame(number: usize, ratio: Ratio) -> Result<Frame> {
    let mut frame = Frame::new(SIZE, ratio, [0, 120, 140])?;
    for y in 0..SIZE.height {
        for (x, byte) in frame[Channel::Luma].row_mut(y).iter_mut().enumerate() {
            let (across, down) = ((x + number * STEP) / 4, y / 4);
            let scene = 20 + (across * 67 + down * 41 + across * down * 13) % 120;
            *byte = match is_letter(number, x, y) {
                true => scene / 2 + 100,
                false => scene,
            } as u8;
        }
    }
    Ok(frame)
}

/// The frames of a clip, and the motion that is between any two.
struct Clip {
    frames: Vec<Frame>,
    motion: MotionBuf,
    ratio: Ratio,
}

impl Clip {
    fn new(pairs: usize, ratio: Ratio) -> Result<Self> {
        Ok(Self {
            frames: (0..=pairs)
                .map(|number| frame(number, ratio))
                .collect::<Result<_>>()?,
            motion: MotionBuf::pan(SIZE, (STEP as i32, 0))?,
            ratio,
        })
    }

    fn pair(&self, number: usize) -> Pair<'_> {
        let (first, second) = (&self.frames[number], &self.frames[number + 1]);
        Pair::of(first, second, &self.motion).expect("frames alike")
    }

    /// The layers of the clip's first pairs, fitted with all parts held together.
    fn layers(&self, pairs: usize, settings: Settings) -> Result<Vec<LayerBuf>> {
        let numbers: Vec<usize> = (0..pairs).collect();
        let sums = |numbers: &[usize]| {
            let mut sums = Sums::new(SIZE, self.ratio)?;
            for &number in numbers {
                sums.add(&self.pair(number))?;
            }
            Ok(sums)
        };
        let parts: Vec<Sums> = numbers.chunks(12).map(sums).collect::<Result<_>>()?;
        let fitted = |at: usize| {
            let previous = at.checked_sub(1).map(|at| &parts[at]);
            LayerBuf::fit(previous, &parts[at], parts.get(at + 1), settings)
        };
        (0..parts.len()).map(fitted).collect()
    }
}

/// A layer, with the pair after which it was due and the number of its chunk.
type Taken = (usize, usize, LayerBuf);

/// The layers of a walk over the clip's first pairs, each taken as soon as it is due.
fn walked(clip: &Clip, pairs: usize, settings: Settings) -> Result<Vec<Taken>> {
    let mut walk = Walk::new(SIZE, clip.ratio, pairs)?;
    let mut taken = Vec::new();
    for number in 0..pairs {
        walk.push(&clip.pair(number))?;
        for layer in walk.layers(settings) {
            let (chunk, layer) = layer?;
            taken.push((number, chunk, layer));
        }
    }
    assert!(walk.is_done() && !walk.is_due());
    assert_eq!((walk.added(), walk.taken()), (pairs, walk.chunks()));
    Ok(taken)
}

/// The dots of luma that a layer has.
fn dots(layer: &LayerBuf) -> usize {
    layer.texels(Channel::Luma).layered().count()
}

#[test]
fn layers_are_those_of_parts_held_together() -> Result<()> {
    for &ratio in Ratio::ALL {
        let clip = Clip::new(100, ratio)?;
        for pairs in [0, 1, 11, 12, 13, 23, 24, 25, 30, 35, 36, 37, 48, 100] {
            let expected = clip.layers(pairs, SETTINGS)?.into_iter().enumerate();
            // Layer c is due after the last pair of chunk c + 1, or of the clip.
            let due = |chunk: usize| pairs.min(12 * (chunk + 2)) - 1;
            let expected = expected.map(|(chunk, layer)| (due(chunk), chunk, layer));
            let taken = walked(&clip, pairs, SETTINGS)?;
            assert_eq!(taken.len(), pairs.div_ceil(12), "{pairs} pairs");
            assert!(expected.eq(taken), "{pairs} pairs at ratio {ratio}");
        }
    }
    Ok(())
}

/// What the test above compares has lettering, another in each chunk.
#[test]
fn the_clip_shows_lettering() -> Result<()> {
    let layers = Clip::new(60, Ratio::Two)?.layers(60, SETTINGS)?;
    assert_eq!(layers.len(), 5);
    for (at, layer) in layers.iter().enumerate() {
        assert!(dots(layer) >= 24, "{} dots in layer {at}", dots(layer));
        assert!(layers[..at].iter().all(|other| other != layer), "{at}");
    }
    Ok(())
}

/// A figure turned down for the whole walk loses and changes no dot of any chunk.
#[test]
fn a_figure_turned_down_for_a_walk() -> Result<()> {
    let clip = Clip::new(30, Ratio::Two)?;
    let at = |evidence| {
        let settings = Settings {
            evidence,
            ..SETTINGS
        };
        walked(&clip, 30, settings)
    };
    let (higher, lower) = (at(24.0)?, at(4.0)?);
    assert_eq!(higher.len(), 3);
    for ((_, chunk, first), (_, _, second)) in higher.iter().zip(&lower) {
        let difference = first.compare(second)?;
        let luma = difference.counts(Channel::Luma);
        assert!(difference.keeps_all(), "chunk {chunk}: {difference}");
        assert!(
            luma.stayed > 0 && luma.new > 0,
            "chunk {chunk}: {difference}"
        );
    }
    Ok(())
}

#[test]
fn a_layer_into_one_that_is_there_and_one_that_is_tried() -> Result<()> {
    let clip = Clip::new(30, Ratio::Two)?;
    let expected = clip.layers(30, SETTINGS)?;
    let mut walk = Walk::new(SIZE, Ratio::Two, 30)?;
    let mut layer = LayerBuf::new(SIZE, Ratio::Two)?;
    let other = Settings {
        evidence: 4.0,
        ..SETTINGS
    };
    let tried = clip.layers(30, other)?;
    while !walk.is_done() {
        if walk.is_due() {
            let (at, before) = (walk.taken(), walk.clone());
            assert!(walk.preview(other)? == tried[at]);
            assert_eq!(walk, before);
            walk.layer_into(SETTINGS, &mut layer)?;
            assert!(layer == expected[at] && walk != before);
        } else {
            walk.push_numbered(walk.added(), &clip.pair(walk.added()))?;
        }
    }
    assert_eq!(walk.taken(), 3);
    Ok(())
}

fn said<T: std::fmt::Debug>(answer: Result<T>) -> String {
    answer.expect_err("a refusal").to_string()
}

fn refused(answer: Result<()>, refusal: Refusal) {
    let error = answer.expect_err("misuse");
    assert_eq!(error.refusal(), refusal, "{error}");
}

/// Pairs that are wrong wherever a walk is, and one that is right, out of turn.
fn wrong_pairs(walk: &mut Walk, clip: &Clip) -> Result<()> {
    let small = Size::new(16, 16);
    let (frame, motion) = (
        Frame::new(small, clip.ratio, [0; 3])?,
        MotionBuf::still(small)?,
    );
    refused(
        walk.push(&Pair::of(&frame, &frame, &motion)?),
        Refusal::Size,
    );
    let next = clip.pair(0);
    let [mut motion, mut pitch] = [next; 2];
    (motion.motion.pel, pitch.first[2].pitch) = (3, 0);
    refused(walk.push(&motion), Refusal::Motion);
    refused(walk.push(&pitch), Refusal::Pitch);
    for number in [walk.added() + 1, usize::MAX, walk.added().wrapping_sub(1)] {
        refused(walk.push_numbered(number, &next), Refusal::Turn);
    }
    if walk.is_due() || walk.added() == walk.pairs() {
        refused(walk.push(&next), Refusal::Turn);
    }
    Ok(())
}

/// Layers that are wrong wherever a walk is, and one that is not due.
fn wrong_layers(walk: &mut Walk) -> Result<()> {
    let (mut small, limit) = (LayerBuf::new(Size::new(16, 16), walk.ratio())?, 0.0);
    let settings = Settings { limit, ..SETTINGS };
    refused(walk.layer_into(SETTINGS, &mut small), Refusal::Size);
    refused(walk.layer(settings).map(drop), Refusal::Setting);
    if walk.is_due() {
        let mut layers = walk.layers(settings);
        let layer = layers.next().expect("a layer that is due");
        refused(layer.map(drop), Refusal::Setting);
        assert!(layers.next().is_none(), "it ends after a refusal");
    } else {
        refused(walk.layer(SETTINGS).map(drop), Refusal::Turn);
        refused(walk.preview(SETTINGS).map(drop), Refusal::Turn);
        assert!(walk.layers(SETTINGS).next().is_none());
    }
    Ok(())
}

/// What is refused at one place of a walk; nothing is changed by it.
fn misused(walk: &mut Walk, clip: &Clip) -> Result<()> {
    let before = walk.clone();
    wrong_pairs(walk, clip)?;
    wrong_layers(walk)?;
    assert_eq!(*walk, before, "misuse changes nothing");
    Ok(())
}

#[test]
fn misuse_at_every_place_changes_nothing() -> Result<()> {
    let clip = Clip::new(30, Ratio::Two)?;
    let mut layers = clip.layers(30, SETTINGS)?.into_iter();
    let mut walk = Walk::new(SIZE, Ratio::Two, 30)?;
    misused(&mut walk, &clip)?;
    for number in 0..30 {
        walk.push(&clip.pair(number))?;
        misused(&mut walk, &clip)?;
        while walk.is_due() {
            assert_eq!(Some(walk.layer(SETTINGS)?), layers.next());
            misused(&mut walk, &clip)?;
        }
    }
    assert_eq!(layers.next(), None);
    Ok(())
}

/// A walk over that many pairs, of which so many are handed over; a layer that is due is taken before the next pair.
fn at(clip: &Clip, pairs: usize, added: usize) -> Walk {
    let mut walk = Walk::new(SIZE, clip.ratio, pairs).expect("a small walk");
    for number in 0..added {
        for layer in walk.layers(SETTINGS) {
            layer.expect("a layer that is due");
        }
        walk.push(&clip.pair(number)).expect("the next pair");
    }
    walk
}

#[test]
fn words_for_pairs_out_of_turn() -> Result<()> {
    let clip = Clip::new(30, Ratio::Two)?;
    let pushed = |pairs, added| said(at(&clip, pairs, added).push(&clip.pair(0)));
    assert_eq!(
        pushed(30, 24),
        "Walk::push refused (12): layer 0 is due; take it before pair 24"
    );
    for (pairs, words) in [(0, "0 pairs"), (1, "1 pair"), (30, "30 pairs")] {
        assert_eq!(
            pushed(pairs, pairs),
            format!(
                "Walk::push refused (12): the walk is over {words}, and all are handed over; start one over more for \
                 a longer clip"
            )
        );
    }
    assert_eq!(
        said(at(&clip, 30, 3).push_numbered(5, &clip.pair(5))),
        "Walk::push_numbered refused (12): the pair's number is 5 and must be 3: pairs are handed over in turn, from \
         0 on"
    );
    Ok(())
}

#[test]
fn words_for_layers_out_of_turn() -> Result<()> {
    let clip = Clip::new(30, Ratio::Two)?;
    let words = |pairs, added| {
        let mut walk = at(&clip, pairs, added);
        for layer in walk.layers(SETTINGS) {
            layer.expect("a layer that is due");
        }
        said(walk.layer(SETTINGS))
    };
    let early = |layer: usize, last: usize, next: usize| {
        format!(
            "Walk::layer refused (12): layer {layer} is due after pair {last}, and pair {next} is the next to hand over"
        )
    };
    assert_eq!(words(30, 0), early(0, 23, 0));
    assert_eq!(words(30, 24), early(1, 29, 24));
    assert_eq!(words(5, 3), early(0, 4, 3));
    for (pairs, layers) in [(12, "1 layer"), (30, "3 layers")] {
        assert_eq!(
            words(pairs, pairs),
            format!(
                "Walk::layer refused (12): the clip gives {layers}, and all are taken; start another walk for another \
                 clip"
            )
        );
    }
    assert_eq!(
        words(0, 0),
        "Walk::layer refused (12): a clip of no pairs gives no layer"
    );
    Ok(())
}

#[test]
fn words_for_sizes() -> Result<()> {
    let clip = Clip::new(1, Ratio::Two)?;
    let start = |width, ratio| said(Walk::new(Size::new(width, 4), ratio, 30));
    assert_eq!(
        start(4097, Ratio::One),
        "Walk::new refused (1): width is 4097 and must be 1 to 4096"
    );
    assert_eq!(
        start(6, Ratio::Four),
        "Walk::new refused (2): ratio 4 does not divide 6 by 4"
    );
    let pushed = |size, ratio| {
        let mut walk = Walk::new(size, ratio, 1).expect("a small walk");
        said(walk.push(&clip.pair(0)))
    };
    assert_eq!(
        pushed(Size::new(16, 16), Ratio::Two),
        "Walk::push refused (1): `first[0]` is 48 by 32, and the walk's luma is 16 by 16"
    );
    assert_eq!(
        pushed(SIZE, Ratio::One),
        "Walk::push refused (1): `first[1]` is 24 by 16, and the walk's chroma1 is 48 by 32"
    );
    let still = MotionBuf::still(Size::new(16, 16))?;
    let mut pair = clip.pair(0);
    pair.motion = still.motion();
    assert_eq!(
        said(at(&clip, 1, 0).push(&pair)),
        "Walk::push refused (1): `motion` is made for 16 by 16, and the walk's luma is 48 by 32"
    );
    Ok(())
}

#[test]
fn words_for_layers_and_settings() -> Result<()> {
    let mut walk = at(&Clip::new(1, Ratio::Two)?, 1, 1);
    let mut layer = LayerBuf::new(SIZE, Ratio::One)?;
    assert_eq!(
        said(walk.layer_into(SETTINGS, &mut layer)),
        "Walk::layer_into refused (1): `layer` is 48 by 32 at ratio 1, and the walk 48 by 32 at ratio 2"
    );
    let settings = |evidence| Settings {
        evidence,
        ..SETTINGS
    };
    assert_eq!(
        said(walk.layer(settings(-1.0))),
        "Walk::layer refused (6): evidence is -1 and must be 0 to 65536"
    );
    assert_eq!(
        said(walk.preview(settings(f32::NAN))),
        "Walk::preview refused (6): evidence is NaN and must be 0 to 65536"
    );
    assert!(walk.layer(SETTINGS).is_ok());
    Ok(())
}

/// Luma of the walks over lent sums, and the lengths of the sums at ratio 2.
const SMALL: Size = Size::new(4, 2);
const LENGTHS: [usize; 3] = [48, 4, 4];

/// The sums of three parts, lent to a walk.
struct Lent([[Vec<f32>; 3]; 3]);

impl Lent {
    /// All numbers are this one.
    fn of(number: f32) -> Self {
        Self([(); 3].map(|()| LENGTHS.map(|length| vec![number; length])))
    }

    fn slots(&mut self) -> [Slot<'_>; 3] {
        let sums = self.0.each_mut();
        sums.map(|[luma, chroma1, chroma2]| Slot {
            luma,
            chroma: [chroma1, chroma2],
        })
    }

    fn push(&mut self, progress: &mut Progress, number: usize, pair: &Pair<'_>) -> Result<()> {
        progress.push(&mut self.slots(), number, pair)
    }

    /// Takes a layer; where it is refused, nothing of what is lent is changed.
    fn layer(&mut self, progress: &mut Progress, settings: Settings) -> Result<LayerBuf> {
        let (mut models, mut kept, mut cover) = ([3.0; 32], [4; 8], [5]);
        let work = Work {
            models: &mut models,
            kept: &mut kept,
            cover: &mut cover,
        };
        let mut layer = LayerBuf::new(SMALL, Ratio::Two)?;
        let untouched = layer.clone();
        let answer = progress.layer(&self.slots(), settings, work, layer.layer_mut());
        if answer.is_err() {
            assert!(models == [3.0; 32] && kept == [4; 8] && cover == [5]);
            assert_eq!(layer, untouched);
        }
        answer.map(|()| layer)
    }
}

/// Two small frames, by which pairs of both directions are made.
struct Small([Frame; 2], MotionBuf);

impl Small {
    fn new() -> Result<Self> {
        let frame = |luma| Frame::new(SMALL, Ratio::Two, [luma, 110, 150]);
        Ok(Self([frame(20)?, frame(210)?], MotionBuf::still(SMALL)?))
    }

    fn pair(&self, number: usize) -> Pair<'_> {
        let [first, second] = [0, 1].map(|at| &self.0[(number + at) % 2]);
        Pair::of(first, second, &self.1).expect("frames alike")
    }
}

/// At the start the sums may hold anything; the layers are those of a walk with sums of its own.
#[test]
fn a_walk_over_lent_sums() -> Result<()> {
    let clip = Small::new()?;
    for pairs in [1, 12, 30, 50] {
        let mut walk = Walk::new(SMALL, Ratio::Two, pairs)?;
        let mut progress = Progress::start(SMALL, Ratio::Two, pairs)?;
        let mut lent = Lent::of(f32::NAN);
        for number in 0..pairs {
            walk.push(&clip.pair(number))?;
            lent.push(&mut progress, number, &clip.pair(number))?;
            assert_eq!(
                (walk.progress(), walk.is_due()),
                (progress, progress.is_due())
            );
            for layer in walk.layers(SETTINGS) {
                assert_eq!(lent.layer(&mut progress, SETTINGS)?, layer?.1);
            }
        }
        assert!(progress.is_done() && walk.progress() == progress);
    }
    Ok(())
}

/// The numbers of pairs handed over and layers taken that a walk comes to, one after another, as far as 40 pairs.
fn path(pairs: usize) -> Vec<(usize, usize)> {
    let (mut added, mut taken, mut path) = (0, 0, vec![(0, 0)]);
    while (added, taken) != (pairs, pairs.div_ceil(12)) && added < 40 {
        // A layer is due once the chunk after its own is complete, or the clip.
        if added == pairs || added >= 12 * (taken + 2) {
            taken += 1;
        } else {
            added += 1;
        }
        path.push((added, taken));
    }
    path
}

/// From each place that walks come to, one way leads on: the next pair, or the layer that is due. From any other
/// numbers none does, and no layer is due.
#[test]
fn one_way_leads_on_and_none_from_elsewhere() -> Result<()> {
    let (clip, mut elsewhere) = (Small::new()?, 0);
    for pairs in [0, 1, 11, 12, 13, 24, 25, 30, 36, usize::MAX] {
        let (start, path) = (Progress::start(SMALL, Ratio::Two, pairs)?, path(pairs));
        let next = |place| {
            path.windows(2)
                .find(|way| way[0] == place)
                .map(|way| way[1])
        };
        for added in (0..40).chain([pairs.saturating_add(1), usize::MAX]) {
            for taken in [0, 1, 2, 3, 4, usize::MAX] {
                let (place, mut lent) = ((added, taken), Lent::of(7.0));
                let [mut pushed, mut fitted] = [Progress {
                    added,
                    taken,
                    ..start
                }; 2];
                let due = fitted.is_due();
                let push = lent.push(&mut pushed, added, &clip.pair(0));
                let layer = lent.layer(&mut fitted, SETTINGS);
                let ways = [
                    push.is_ok().then_some((pushed.added, pushed.taken)),
                    layer.is_ok().then_some((fitted.added, fitted.taken)),
                ];
                assert_eq!(ways[0].or(ways[1]), next(place), "{place:?} of {pairs}");
                assert!(ways.contains(&None) && due == layer.is_ok(), "{place:?}");
                if !path.contains(&place) {
                    for words in [said(push), said(layer)] {
                        assert!(words.contains(" refused (12): no walk over "), "{words}");
                    }
                    assert!(lent.0 == Lent::of(7.0).0);
                    elsewhere += 1;
                }
            }
        }
    }
    assert!(elsewhere > 1000, "{elsewhere}");
    Ok(())
}

#[test]
fn words_for_lent_walks() -> Result<()> {
    let clip = Small::new()?;
    let start = Progress::start(SMALL, Ratio::Two, 30)?;
    let pushed =
        |mut progress: Progress, mut lent: Lent| said(lent.push(&mut progress, 0, &clip.pair(0)));
    let mut lent = Lent::of(0.0);
    lent.0[1][0].pop();
    assert_eq!(
        pushed(start, lent),
        "Progress::push refused (4): `slots[1].luma` has 47 numbers and must have exactly 48: 6 for each of 4 by 2 \
         pixels"
    );
    let mut lent = Lent::of(0.0);
    lent.0[2][2].push(0.0);
    assert_eq!(
        pushed(start, lent),
        "Progress::push refused (4): `slots[2].chroma[1]` has 5 numbers and must have exactly 4: 2 for each of 2 by 1 \
         pixels"
    );
    let size = Size::new(4, 3);
    assert_eq!(
        pushed(Progress { size, ..start }, Lent::of(0.0)),
        "Progress::push refused (2): ratio 2 does not divide 4 by 3"
    );
    let (added, taken) = (13, 2);
    assert_eq!(
        pushed(Progress { added, taken, ..start }, Lent::of(0.0)),
        "Progress::push refused (12): no walk over 30 pairs comes to 13 handed over and 2 layers taken; go on with \
         what the call before left"
    );
    Ok(())
}

/// The clip's number of pairs is any; nothing wraps.
#[test]
fn clips_of_any_number_of_pairs() -> Result<()> {
    let mut walk = Walk::new(SMALL, Ratio::Two, usize::MAX)?;
    let last = usize::MAX / 12;
    assert_eq!(walk.chunks(), last + 1);
    assert_eq!(walk.chunk(last), 12 * last..usize::MAX);
    assert_eq!(walk.chunk(usize::MAX), usize::MAX..usize::MAX);
    let clip = Small::new()?;
    for number in 0..48 {
        walk.push(&clip.pair(number))?;
        let due: Vec<usize> = walk
            .layers(SETTINGS)
            .map(|layer| layer.map(|(chunk, _)| chunk))
            .collect::<Result<_>>()?;
        let expected: &[usize] = match number {
            23 => &[0],
            35 => &[1],
            47 => &[2],
            _ => &[],
        };
        assert_eq!(due, expected, "pair {number}");
    }
    Ok(())
}
