//! Sizes are checked wherever they are known: what is of another size is refused in words that give both, and nothing
//! is written.

use safeteal::{
    Channel, Counts, Error, Frame, Frames, Layer, LayerBuf, LayerBytes, Motion, MotionBuf, Pair,
    Plane, PlaneMut, Ratio, Refusal, Size, Sums,
};

const SMALL: Size = Size::new(192, 108);
const LARGE: Size = Size::new(384, 216);
const HD: Size = Size::new(1920, 1080);

/// The words of a refusal for a size.
fn said<T: std::fmt::Debug>(answer: Result<T, Error>) -> String {
    let error = answer.expect_err("a refusal");
    assert_eq!(error.refusal(), Refusal::Size, "{error}");
    error.to_string()
}

fn frame(size: Size, luma: u8) -> Frame {
    Frame::new(size, Ratio::Two, [luma, 128, 128]).expect("a size that ratio 2 divides")
}

fn still(size: Size) -> MotionBuf {
    MotionBuf::still(size).expect("a size inside the limits")
}

/// Zeros: every cell is marked, so that every pixel is written.
fn layer(size: Size) -> LayerBuf {
    LayerBuf::new(size, Ratio::Two).expect("a size that ratio 2 divides")
}

#[test]
fn a_layer_on_a_frame_of_another_size() {
    let (layer, large, small) = (layer(SMALL), frame(LARGE, 90), frame(SMALL, 90));
    let mut output = frame(LARGE, 7);
    assert_eq!(
        said(layer.peel(&mut output, &large)),
        "LayerBuf::peel refused (1): `raw` is 384 by 216 at ratio 2, and the layer 192 by 108 at ratio 2"
    );
    assert_eq!(
        said(layer.peel(&mut output, &small)),
        "LayerBuf::peel refused (1): `output` is 384 by 216 at ratio 2, and the layer 192 by 108 at ratio 2"
    );
    assert_eq!(
        said(layer.peeled(&large)),
        "LayerBuf::peeled refused (1): `raw` is 384 by 216 at ratio 2, and the layer 192 by 108 at ratio 2"
    );
    assert_eq!(
        said(layer.unpeel(&mut output, &small, &large, 0.5)),
        "LayerBuf::unpeel refused (1): `second` is 384 by 216 at ratio 2, and the layer 192 by 108 at ratio 2"
    );
    let motion = still(SMALL);
    assert_eq!(
        said(layer.render(&mut output, &large, &large, &motion.motion(), 0.5, 0)),
        "LayerBuf::render refused (1): `first` is 384 by 216 at ratio 2, and the layer 192 by 108 at ratio 2"
    );
    let lent = layer.layer();
    assert_eq!(
        said(lent.peel_frame(&mut output, &large)),
        "Layer::peel_frame refused (1): `raw` is 384 by 216 at ratio 2, and the layer 192 by 108 at ratio 2"
    );
    assert_eq!(output, frame(LARGE, 7));
}

#[test]
fn a_layer_on_a_plane_of_another_size() {
    let (layer, raw) = (layer(SMALL), frame(LARGE, 90));
    let mut output = frame(LARGE, 7);
    let raw = raw[Channel::Luma].plane();
    assert_eq!(
        said(
            layer
                .layer()
                .peel(Channel::Luma, output.plane_mut(Channel::Luma), raw)
        ),
        "Layer::peel refused (1): `output` is 384 by 216, and the layer's luma is 192 by 108"
    );
    // The upper left corner is lent by its own size.
    let corner = Plane::pitched(raw.data, SMALL, raw.pitch);
    let plane = output.plane_mut(Channel::Luma);
    let plane = PlaneMut::pitched(plane.data, SMALL, plane.pitch);
    let count = layer.layer().peel(Channel::Luma, plane, corner);
    assert_eq!(count, Ok(192 * 108));
    let row = output[Channel::Luma].row(107);
    assert_eq!((row[191], row[192]), (90, 7));
}

#[test]
fn a_plane_of_chroma_with_planes_of_luma() {
    let (layer, raw) = (layer(SMALL), frame(SMALL, 90));
    let mut output = frame(SMALL, 7);
    let luma = raw[Channel::Luma].plane();
    assert_eq!(
        said(
            layer
                .layer()
                .peel(Channel::Chroma1, output.plane_mut(Channel::Luma), luma)
        ),
        "Layer::peel refused (1): `output` is 192 by 108, and the layer's chroma1 is 96 by 54"
    );
    let bytes = [0; 4 * 192 * 108];
    let half = &bytes[..192 * 108];
    let lent = LayerBytes::new(&bytes, [half, half], SMALL, Ratio::Two);
    assert_eq!(
        said(lent.peel(Channel::Chroma2, output.plane_mut(Channel::Chroma2), luma)),
        "LayerBytes::peel refused (1): `raw` is 192 by 108, and the layer's chroma2 is 96 by 54"
    );
    let frames = Frames::of(Channel::Luma, &raw, &raw, 0.5).expect("frames alike");
    assert_eq!(
        said(
            layer
                .layer()
                .unpeel(Channel::Chroma1, output.plane_mut(Channel::Chroma1), frames)
        ),
        "Layer::unpeel refused (1): `first` is 192 by 108, and the layer's chroma1 is 96 by 54"
    );
    assert_eq!(output, frame(SMALL, 7));
}

#[test]
fn a_motion_made_for_another_size() {
    let (first, motion) = (frame(HD, 90), still(Size::new(16, 16)));
    assert_eq!(
        said(Pair::of(&first, &first, &motion)),
        "Pair::of refused (1): `motion` is made for 16 by 16, and `first` is 1920 by 1080"
    );
    assert_eq!(
        said(Pair::new(first.planes(), first.planes(), motion.motion())),
        "Pair::new refused (1): `motion` is made for 16 by 16, and `first[0]` is 1920 by 1080"
    );
    // One for a larger frame is another frame's as well.
    let (layer, small, motion) = (layer(SMALL), frame(SMALL, 90), still(LARGE));
    let mut output = frame(SMALL, 7);
    assert_eq!(
        said(layer.render(&mut output, &small, &small, &motion.motion(), 0.5, 0)),
        "LayerBuf::render refused (1): `motion` is made for 384 by 216, and the layer's luma is 192 by 108"
    );
    let mut sums = Sums::new(SMALL, Ratio::Two).expect("small sums");
    let pair = Pair {
        first: small.planes(),
        second: small.planes(),
        motion: motion.motion(),
    };
    assert_eq!(
        said(sums.add(&pair)),
        "Sums::add refused (1): `motion` is made for 384 by 216, and the sums' luma is 192 by 108"
    );
    assert_eq!((sums.pairs(), output), (0, frame(SMALL, 7)));
}

#[test]
fn a_grid_that_does_not_cover_the_frames() {
    let (first, made) = (frame(HD, 90), still(HD));
    let motion = Motion {
        forward: (&[1024], &[1024]),
        backward: (&[1024], &[1024]),
        grid: (1, 1),
        ..made.motion()
    };
    let words = "the motion's grid of 1 by 1 blocks, each 16 by 16 pixels and the first at (0, 0), does not cover \
                 luma of 1920 by 1080: at each border fewer pixels than a block may stay outside";
    assert_eq!(
        said(Pair::new(first.planes(), first.planes(), motion)),
        format!("Pair::new refused (1): {words}")
    );
    let pair = Pair {
        first: first.planes(),
        second: first.planes(),
        motion,
    };
    let mut sums = Sums::new(HD, Ratio::Two).expect("sums of a whole frame");
    assert_eq!(
        said(sums.add(&pair)),
        format!("Sums::add refused (1): {words}")
    );
    let (layer, mut output) = (layer(HD), first.clone());
    assert_eq!(
        said(
            layer
                .layer()
                .render_frame(&mut output, &first, &first, &motion, 0.5, 0)
        ),
        format!("Layer::render_frame refused (1): {words}")
    );
}

/// Grids that a search makes: without a last block that luma does not fill, with a border, begun outside.
#[test]
fn a_grid_that_covers_the_frames_in_its_own_way() {
    let size = Size::new(100, 60);
    let (first, field) = (frame(size, 90), [1024; 400]);
    let over = |grid: (usize, usize), origin: (i32, i32)| {
        let field = &field[..grid.0 * grid.1];
        let motion = Motion {
            forward: (field, field),
            backward: (field, field),
            grid,
            block: (16, 16),
            origin,
            pel: 1,
            size,
        };
        let pair = Pair::new(first.planes(), first.planes(), motion)?;
        Sums::new(size, Ratio::Two)?.add(&pair)
    };
    assert_eq!(over((7, 4), (0, 0)), Ok(()));
    assert_eq!(over((6, 3), (0, 0)), Ok(()));
    assert_eq!(over((6, 3), (2, 6)), Ok(()));
    assert_eq!(over((9, 6), (-16, -16)), Ok(()));
    assert_eq!(over((20, 20), (-64, -64)), Ok(()));
    for (grid, origin) in [
        ((5, 4), (0, 0)),
        ((7, 2), (0, 0)),
        ((7, 4), (16, 0)),
        ((7, 4), (0, -32)),
    ] {
        assert!(said(over(grid, origin)).contains("does not cover luma of 100 by 60"));
    }
}

#[test]
fn a_second_frame_of_another_size() {
    let (first, second, motion) = (frame(LARGE, 90), frame(SMALL, 90), still(LARGE));
    assert_eq!(
        said(Pair::new(first.planes(), second.planes(), motion.motion())),
        "Pair::new refused (1): `second[0]` is 192 by 108, and `first[0]` is 384 by 216"
    );
    let [luma, chroma, _] = first.planes();
    assert_eq!(
        said(Pair::new(
            first.planes(),
            [luma, chroma, luma],
            motion.motion()
        )),
        "Pair::new refused (1): `second[2]` is 384 by 216, and `first[2]` is 192 by 108"
    );
    assert_eq!(
        said(Pair::of(&first, &second, &motion)),
        "Pair::of refused (1): `second` is 192 by 108 at ratio 2, and `first` 384 by 216 at ratio 2"
    );
    let halved = Frame::new(LARGE, Ratio::Four, [0; 3]).expect("a size that ratio 4 divides");
    assert_eq!(
        said(Frames::of(Channel::Luma, &first, &halved, 0.5)),
        "Frames::of refused (1): `second` is 384 by 216 at ratio 4, and `first` 384 by 216 at ratio 2"
    );
}

#[test]
fn frames_of_another_size_than_the_sums() {
    let (large, motion) = (frame(LARGE, 90), still(LARGE));
    let pair = Pair::of(&large, &large, &motion).expect("frames alike");
    let sums = |size: Size, ratio: Ratio| Sums::new(size, ratio).expect("small sums");
    assert_eq!(
        said(sums(SMALL, Ratio::Two).add(&pair)),
        "Sums::add refused (1): `first[0]` is 384 by 216, and the sums' luma is 192 by 108"
    );
    assert_eq!(
        said(sums(LARGE, Ratio::One).add(&pair)),
        "Sums::add refused (1): `first[1]` is 192 by 108, and the sums' chroma1 is 384 by 216"
    );
    let mut own = sums(LARGE, Ratio::Two);
    assert_eq!(own.add(&pair), Ok(()));
    assert_eq!(own.pairs(), 1);
}

/// A frame, and how many pixels of it were written.
type Left = (Frame, Counts);

/// What a call on a plane leaves in all planes of a frame.
fn by_planes(start: &Frame, call: impl Fn(Channel, PlaneMut<'_>) -> Result<u64, Error>) -> Left {
    let mut output = start.clone();
    let mut one = |channel: Channel| {
        let count = call(channel, output.plane_mut(channel));
        count.expect("planes of the layer's size")
    };
    let counts = Counts {
        luma: one(Channel::Luma),
        chroma1: one(Channel::Chroma1),
        chroma2: one(Channel::Chroma2),
    };
    (output, counts)
}

/// What a call on a frame leaves.
fn whole(start: &Frame, call: impl Fn(&mut Frame) -> Result<Counts, Error>) -> Left {
    let mut output = start.clone();
    let counts = call(&mut output).expect("frames of the layer's size");
    (output, counts)
}

/// The calls on whole frames leave what the calls on planes leave, and count the same.
#[test]
fn whole_frames_plane_by_plane() {
    let size = Size::new(16, 8);
    let model = |at: usize| [1.5, at as f32 / 8.0 - 6.0, 3.0, -2.0];
    let models: Vec<[f32; 4]> = (0..16 * 8).map(model).collect();
    let cover = vec![0; size.cells()];
    let made = LayerBuf::assemble(size, Ratio::Two, models.as_flattened(), &cover);
    let made = made.expect("a small layer");
    let (layer, motion) = (made.layer(), still(size));
    let (first, second, start) = (frame(size, 90), frame(size, 120), frame(size, 40));
    let (motion, time, algo) = (&motion.motion(), 0.25, Layer::FIRST);
    let frames = |channel| Frames::of(channel, &first, &second, time).expect("frames alike");

    let peeled = whole(&start, |output| made.peel(output, &first));
    assert_eq!(peeled.1.total(), 128 + 32 + 32);
    let planes = by_planes(&start, |channel, output| {
        layer.peel(channel, output, first[channel].plane())
    });
    assert_eq!(peeled, planes);
    assert_eq!(made.peeled(&first), Ok(peeled), "every pixel is lettered");

    let unpeeled = whole(&start, |output| made.unpeel(output, &first, &second, time));
    let planes = by_planes(&start, |channel, output| {
        layer.unpeel(channel, output, frames(channel))
    });
    assert_eq!(unpeeled, planes);

    let rendered = whole(&start, |output| {
        made.render(output, &first, &second, motion, time, algo)
    });
    let planes = by_planes(&start, |channel, output| {
        layer.render(channel, output, frames(channel), motion, algo)
    });
    assert_eq!(rendered, planes);
}

/// What a whole-frame call refuses beside sizes, it refuses before any plane is written.
#[test]
fn a_refused_frame_stays() {
    let size = Size::new(16, 8);
    let (layer, first, mut output) = (layer(size), frame(size, 90), frame(size, 7));
    let motion = still(size);
    let wrong = Motion {
        pel: 3,
        ..motion.motion()
    };
    let answers = [
        layer.unpeel(&mut output, &first, &first, 1.5),
        layer.render(&mut output, &first, &first, &motion.motion(), f32::NAN, 0),
        layer.render(&mut output, &first, &first, &wrong, 0.5, 0),
        Layer {
            pitch: (16, 7),
            ..layer.layer()
        }
        .peel_frame(&mut output, &first),
        Layer {
            size: Size::new(0, 8),
            ..layer.layer()
        }
        .peel_frame(&mut output, &first),
    ];
    let words = answers.map(|answer| answer.expect_err("a refusal").to_string());
    assert_eq!(
        words,
        [
            "LayerBuf::unpeel refused (6): time is 1.5 and must be 0 to 1",
            "LayerBuf::render refused (6): time is NaN and must be 0 to 1",
            "LayerBuf::render refused (5): pel is 3 and must be 1, 2 or 4",
            "Layer::peel_frame refused (3): the chroma pitch of the layer is 7 and must be 8 to 65536",
            "Layer::peel_frame refused (1): width is 0 and must be 1 to 4096",
        ]
    );
    assert_eq!(output, frame(size, 7));
}
