//! The refusals of the library, in the words that a programmer reads: each names the call, and the argument.

use safeteal::{
    apply, assemble, distances, fit, hold, mask, stats, Channel, Error, Frame, Frames, Layer,
    LayerBuf, LayerBytes, LayerMut, Limits, Mask, Motion, MotionBuf, Pair, Part, Parts, Plane,
    PlaneMut, Ratio, Settings, Size, Sums, Work,
};

/// Luma of the calls here, and chroma at ratio 2.
const SIZE: Size = Size::new(4, 2);
const HALF: Size = Size::new(2, 1);
const BYTES: &[u8] = &[0; 64];
const NUMBERS: &[i16] = &[0; 64];
const FLOATS: &[f32] = &[0.0; 64];
const FIELD: &[u16] = &[1024];

fn said<T: std::fmt::Debug>(result: Result<T, Error>) -> String {
    result.expect_err("a refusal").to_string()
}

/// A plane of luma's size.
fn plane(length: usize, pitch: usize) -> Plane<'static> {
    Plane::pitched(&BYTES[..length], SIZE, pitch)
}

/// A plane of chroma's size.
fn chroma(length: usize, pitch: usize) -> Plane<'static> {
    Plane::pitched(&BYTES[..length], HALF, pitch)
}

/// A plane of luma's size to write.
fn output(length: usize) -> PlaneMut<'static> {
    PlaneMut::new(vec![0; length].leak(), SIZE)
}

/// A good layer.
const LAYER: Layer = Layer::new(NUMBERS, [NUMBERS, NUMBERS], SIZE, Ratio::Two);

/// A good motion.
const MOTION: Motion = Motion {
    forward: (FIELD, FIELD),
    backward: (FIELD, FIELD),
    grid: (1, 1),
    block: (8, 8),
    origin: (0, 0),
    pel: 1,
    size: SIZE,
};

#[test]
fn of_distances() {
    assert_eq!(
        said(distances(&mut [], 0)),
        "distances refused (1): width is 0 and must be at least 1"
    );
}

#[test]
fn of_mask() {
    let words = |first: Plane<'_>, second: Plane<'_>, still: usize| {
        said(mask(first, second, Limits::default(), &mut vec![0; still]))
    };
    let wide = Plane::new(BYTES, Size::new(4097, 2));
    assert_eq!(
        words(wide, wide, 8),
        "mask refused (1): width is 4097 and must be 1 to 4096"
    );
    assert_eq!(
        words(plane(8, 4), chroma(8, 4), 8),
        "mask refused (1): `second` is 2 by 1, and `first` is 4 by 2"
    );
    assert_eq!(
        words(plane(8, 3), plane(8, 3), 8),
        "mask refused (3): the pitch of first is 3 and must be 4 to 65536"
    );
    assert_eq!(
        words(plane(8, 4), plane(9, 5), 8),
        "mask refused (3): the pitch of second is 5 and must be 4, that of first: one pitch is taken for both"
    );
    assert_eq!(
        words(plane(8, 5), plane(9, 5), 8),
        "mask refused (4): `first` has 8 bytes and needs at least 9: 4 by 2 pixels, a row every 5 bytes"
    );
    assert_eq!(
        words(plane(8, 4), plane(8, 4), 9),
        "mask refused (4): `still` has 9 bytes and must have exactly 8: 1 for each of 4 by 2 pixels"
    );
}

fn still(length: usize, width: usize) -> Mask<'static> {
    Mask::new(&BYTES[..length], width)
}

#[test]
fn of_apply() {
    let applied =
        |still: Mask<'_>, time: f32| said(apply(output(8), plane(8, 4), plane(8, 4), still, time));
    assert_eq!(
        applied(still(8, 5), 0.0),
        "apply refused (2): the mask has rows of 5 and must have rows of 1 to 8 times 4, the plane's width"
    );
    assert_eq!(
        applied(still(9, 4), 0.0),
        "apply refused (2): the mask has 9 bytes and must have rows of 4: 1 to 8 times 2, the plane's height, of \
         them"
    );
    assert_eq!(
        applied(still(8, 4), 1.1),
        "apply refused (6): time is 1.1 and must be 0 to 1"
    );
    assert_eq!(
        applied(still(8, 4), f32::NAN),
        "apply refused (6): time is NaN and must be 0 to 1"
    );
    // A mask without a step comes before two pitches.
    let pitches = |still: Mask<'_>| said(apply(output(8), plane(8, 4), plane(9, 5), still, 0.0));
    assert!(pitches(still(8, 5)).starts_with("apply refused (2): the mask has rows of 5"));
    assert_eq!(
        pitches(still(8, 4)),
        "apply refused (3): the pitch of second is 5 and must be 4, that of first: one pitch is taken for both"
    );
    let sizes = |first: Plane<'_>| said(apply(output(8), first, plane(8, 4), still(8, 4), 0.0));
    assert_eq!(
        sizes(chroma(8, 4)),
        "apply refused (1): `first` is 2 by 1, and `output` is 4 by 2"
    );
}

#[test]
fn of_hold() {
    let held = |held: Plane<'_>| said(hold(output(7), held, still(8, 4)));
    assert_eq!(
        held(chroma(8, 2)),
        "hold refused (1): `held` is 2 by 1, and `output` is 4 by 2"
    );
    assert_eq!(
        held(plane(8, 70_000)),
        "hold refused (3): the pitch of held is 70000 and must be 4 to 65536"
    );
    assert_eq!(
        held(plane(8, 4)),
        "hold refused (4): `output` has 7 bytes and needs at least 8: 4 by 2 pixels"
    );
}

#[test]
fn of_peel() {
    let words = |layer: Layer<'_>, channel: Channel, raw: Plane<'_>| {
        said(layer.peel(channel, output(8), raw))
    };
    let size = Size::new(4, 0);
    assert_eq!(
        words(Layer { size, ..LAYER }, Channel::Luma, plane(8, 4)),
        "Layer::peel refused (1): height is 0 and must be 1 to 4096"
    );
    let size = Size::new(4, 3);
    assert_eq!(
        words(Layer { size, ..LAYER }, Channel::Luma, plane(8, 4)),
        "Layer::peel refused (2): ratio 2 does not divide 4 by 3"
    );
    let pitch = (4, 1);
    assert_eq!(
        words(Layer { pitch, ..LAYER }, Channel::Luma, plane(8, 4)),
        "Layer::peel refused (3): the chroma pitch of the layer is 1 and must be 2 to 65536"
    );
    let luma = &NUMBERS[..15];
    assert_eq!(
        words(Layer { luma, ..LAYER }, Channel::Luma, plane(8, 4)),
        "Layer::peel refused (4): `luma` has 15 numbers and needs at least 16: two halves, each of 2 rows of 4"
    );
    assert_eq!(
        words(LAYER, Channel::Luma, plane(7, 4)),
        "Layer::peel refused (4): `raw` has 7 bytes and needs at least 8: 4 by 2 pixels"
    );
    let peeled = |raw: Plane<'_>| {
        let output = PlaneMut::new(vec![0; 2].leak(), HALF);
        said(LAYER.peel(Channel::Chroma1, output, raw))
    };
    assert_eq!(
        peeled(chroma(1, 2)),
        "Layer::peel refused (4): `raw` has 1 byte and needs at least 2: 2 by 1 pixels"
    );
}

#[test]
fn of_empty() {
    let chroma = [NUMBERS, &NUMBERS[..3]];
    assert_eq!(
        said(Layer { chroma, ..LAYER }.empty()),
        "Layer::empty refused (4): `chroma[1]` has 3 numbers and needs at least 4: two halves, each of 1 row of 2"
    );
}

#[test]
fn of_layers_lent_as_bytes() {
    let layer = LayerBytes::new(&BYTES[..31], [BYTES, BYTES], SIZE, Ratio::Two);
    assert_eq!(
        said(layer.peel(Channel::Luma, output(8), plane(8, 4))),
        "LayerBytes::peel refused (4): `luma` has 15 numbers and needs at least 16: two halves, each of 2 rows of 4"
    );
    let frames = Frames {
        first: plane(8, 4),
        second: plane(8, 4),
        time: 0.5,
    };
    assert_eq!(
        said(layer.unpeel(Channel::Luma, output(8), frames)),
        "LayerBytes::unpeel refused (4): `luma` has 15 numbers and needs at least 16: two halves, each of 2 rows of 4"
    );
}

fn frames(second: usize, time: f32) -> Frames<'static> {
    Frames {
        first: plane(8, 4),
        second: plane(second, 4),
        time,
    }
}

#[test]
fn of_unpeel() {
    let unpeeled = |frames: Frames<'_>| said(LAYER.unpeel(Channel::Luma, output(8), frames));
    assert_eq!(
        unpeeled(frames(7, 0.5)),
        "Layer::unpeel refused (4): `second` has 7 bytes and needs at least 8: 4 by 2 pixels"
    );
    assert_eq!(
        unpeeled(frames(8, -0.5)),
        "Layer::unpeel refused (6): time is -0.5 and must be 0 to 1"
    );
}

#[test]
fn of_render() {
    let rendered = |motion: Motion<'_>, time: f32| {
        said(LAYER.render(Channel::Luma, output(8), frames(8, time), &motion, 0))
    };
    let grid = (1, 2);
    assert_eq!(
        rendered(Motion { grid, ..MOTION }, 0.5),
        "Layer::render refused (4): `forward.0` has 1 number and must have one for each block of a grid of 1 by 2"
    );
    let grid = (usize::MAX, 2);
    assert_eq!(
        rendered(Motion { grid, ..MOTION }, 0.5),
        format!(
            "Layer::render refused (4): `forward.0` has 1 number and must have one for each block of a grid of {} \
             by 2",
            usize::MAX
        )
    );
    let block = (8, 129);
    assert_eq!(
        rendered(Motion { block, ..MOTION }, 0.5),
        "Layer::render refused (5): the block's height is 129 and must be 1 to 128"
    );
    let origin = (-5000, 0);
    assert_eq!(
        rendered(Motion { origin, ..MOTION }, 0.5),
        "Layer::render refused (5): the origin's x is -5000 and must be -4096 to 4096"
    );
    assert_eq!(
        rendered(Motion { pel: 3, ..MOTION }, 0.5),
        "Layer::render refused (5): pel is 3 and must be 1, 2 or 4"
    );
    assert_eq!(
        rendered(MOTION, 1.5),
        "Layer::render refused (6): time is 1.5 and must be 0 to 1"
    );
}

#[test]
fn of_stats() {
    let words = |luma: usize, first: [Plane<'_>; 3], pairs: usize| {
        let second = [plane(8, 4), chroma(2, 2), chroma(2, 2)];
        let pair = Pair::new(first, second, MOTION).expect("planes of one size");
        let (luma, chroma) = (&mut vec![0.0; luma], [&mut [0.0; 4][..], &mut [0.0; 4]]);
        said(stats(luma, chroma, pairs, SIZE, Ratio::Two, &pair))
    };
    let first = [plane(8, 4), chroma(2, 2), chroma(2, 2)];
    assert_eq!(
        words(47, first, 0),
        "stats refused (4): `luma` has 47 numbers and must have exactly 48: 6 for each of 4 by 2 pixels"
    );
    assert_eq!(
        words(48, [first[0], chroma(2, 1), first[2]], 0),
        "stats refused (3): the pitch of first[1] is 1 and must be 2 to 65536"
    );
    assert_eq!(
        words(48, [first[0], first[1], chroma(1, 2)], 0),
        "stats refused (4): `first[2]` has 1 byte and needs at least 2: 2 by 1 pixels"
    );
    assert_eq!(
        words(48, first, 12),
        "stats refused (7): the sums hold 12 pairs already, and take 12 at most"
    );
}

#[test]
fn of_motion_and_of_layers_made_anew() {
    let pan = |right: i32, down: i32| said(MotionBuf::pan(SIZE, (right, down)));
    assert_eq!(
        pan(i32::MIN, 0),
        "MotionBuf::pan refused (5): right is -2147483648 and must be -1024 to 1024"
    );
    assert_eq!(
        pan(1024, 1025),
        "MotionBuf::pan refused (5): down is 1025 and must be -1024 to 1024"
    );
    assert!(MotionBuf::pan(SIZE, (-1024, 1024)).is_ok());
    let size = Size::new(0, 4);
    assert_eq!(
        said(MotionBuf::still(size)),
        "MotionBuf::still refused (1): width is 0 and must be 1 to 4096"
    );
    assert_eq!(
        said(LayerBuf::assemble(size, Ratio::One, &[], &[])),
        "LayerBuf::assemble refused (1): width is 0 and must be 1 to 4096"
    );
}

fn part(luma: usize, pairs: usize) -> Part<'static> {
    Part {
        luma: &FLOATS[..luma],
        chroma: [&FLOATS[..4], &FLOATS[..4]],
        pairs,
    }
}

/// The words of a fit with a work slice of so many bytes. It leaves its work slices as they were.
fn unfitted(parts: Parts<'_>, settings: Settings, kept: usize) -> String {
    let (mut models, mut kept, mut cover) = ([3.0; 32], vec![4; kept], [5]);
    let work = Work {
        models: &mut models,
        kept: &mut kept,
        cover: &mut cover,
    };
    let layer = LayerMut {
        luma: &mut [0; 16],
        chroma: [&mut [0; 4], &mut [0; 4]],
    };
    let words = said(fit(parts, SIZE, Ratio::Two, settings, work, layer));
    assert!(models == [3.0; 32] && kept.iter().all(|&byte| byte == 4) && cover == [5]);
    words
}

#[test]
fn of_fit() {
    let alone = Parts::alone(part(48, 1));
    assert_eq!(
        unfitted(alone, Settings::default(), 9),
        "fit refused (4): `kept` has 9 bytes and must have exactly 8: 1 for each of 4 by 2 pixels"
    );
    let settings = |limit: f32, evidence: f32| Settings {
        limit,
        evidence,
        ..Settings::default()
    };
    assert_eq!(
        unfitted(alone, settings(0.25, 2.0), 8),
        "fit refused (6): limit is 0.25 and must be 0.5 to 255"
    );
    assert_eq!(
        unfitted(alone, settings(6.0, -1.0), 8),
        "fit refused (6): evidence is -1 and must be 0 to 65536"
    );
}

#[test]
fn of_the_parts_of_a_fit() {
    let words = |previous: Option<Part<'_>>, next: Option<Part<'_>>| {
        let own = part(48, 1);
        let parts = Parts {
            previous,
            own,
            next,
        };
        unfitted(parts, Settings::default(), 8)
    };
    assert_eq!(
        words(None, Some(part(47, 1))),
        "fit refused (4): `next.luma` has 47 numbers and must have exactly 48: 6 for each of 4 by 2 pixels"
    );
    assert_eq!(
        words(Some(part(48, 13)), None),
        "fit refused (7): the number of pairs in previous is 13 and must be 1 to 12"
    );
    assert_eq!(
        words(Some(part(48, 12)), Some(part(48, 0))),
        "fit refused (7): `next` holds no pairs and must hold 1 to 12; a neighbour that is absent is given as None"
    );
}

/// Sums of no pairs are no neighbour: an absent one is said by its type, and not by accident.
#[test]
fn of_neighbours_without_a_pair() {
    let frame = Frame::new(SIZE, Ratio::Two, [90, 128, 128]).expect("a small frame");
    let motion = MotionBuf::still(SIZE).expect("one block");
    let empty = Sums::new(SIZE, Ratio::Two).expect("small sums");
    let mut own = empty.clone();
    let pair = Pair::of(&frame, &frame, &motion).expect("frames alike");
    own.add(&pair).expect("the first pair");
    let fitted = |previous, next| LayerBuf::fit(previous, &own, next, Settings::default());
    for (answer, name) in [
        (fitted(Some(&empty), None), "previous"),
        (fitted(Some(&own), Some(&empty)), "next"),
    ] {
        assert_eq!(
            said(answer),
            format!(
                "LayerBuf::fit refused (7): `{name}` holds no pairs and must hold 1 to 12; \
                 a neighbour that is absent is given as None"
            )
        );
    }
    assert!(fitted(None, None).is_ok());
    assert!(fitted(Some(&own), Some(&own)).is_ok());
}

#[test]
fn of_neighbours_unlike_the_own_part() {
    let sums = |width: usize, ratio: Ratio| Sums::new(Size::new(width, 4), ratio).expect("sums");
    let (own, wide, halved) = (
        sums(4, Ratio::One),
        sums(8, Ratio::One),
        sums(4, Ratio::Two),
    );
    let settings = Settings::default();
    assert_eq!(
        said(LayerBuf::fit(None, &own, Some(&wide), settings)),
        "LayerBuf::fit refused (1): `next` is 8 by 4 at ratio 1, and `own` 4 by 4 at ratio 1"
    );
    assert_eq!(
        said(LayerBuf::fit(Some(&halved), &own, None, settings)),
        "LayerBuf::fit refused (1): `previous` is 4 by 4 at ratio 2, and `own` 4 by 4 at ratio 1"
    );
}

#[test]
fn of_assemble() {
    let words = |models: &[f32], cover: &[u8]| {
        let layer = LayerMut {
            luma: &mut [0; 16],
            chroma: [&mut [0; 4], &mut [0; 4]],
        };
        said(assemble(SIZE, Ratio::Two, models, cover, layer))
    };
    assert_eq!(
        words(&FLOATS[..31], &[0]),
        "assemble refused (4): `models` has 31 numbers and must have exactly 32: 4 for each of 4 by 2 pixels"
    );
    assert_eq!(
        words(&FLOATS[..32], &[0, 0]),
        "assemble refused (4): `cover` has 2 bytes and must have exactly 1: 1 for each 8 by 8 cell of 4 by 2 pixels"
    );
}
