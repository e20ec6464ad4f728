//! What the front page says of the memory that the types own.

use std::mem::size_of_val;

use safeteal::{Channel, Frame, LayerBuf, MotionBuf, Ratio, Size, Sums, Walk};

/// The formulas, and the figures at 1920 by 1080 in hundred thousands of bytes.
#[test]
fn the_memory_that_each_owns() {
    let (size, ratio) = (Size::new(1920, 1080), Ratio::Two);
    let (luma, chroma) = (1920 * 1080, 960 * 540);
    let figure = |bytes: usize| (bytes + 50_000) / 100_000;

    let frame = Frame::new(size, ratio, [0; 3]).expect("a frame");
    let bytes = frame.planes().map(|plane| plane.data.len());
    let plane = frame[Channel::Luma].bytes().len();
    assert_eq!((plane, figure(plane)), (luma, 21));
    let bytes: usize = bytes.iter().sum();
    assert_eq!((bytes, figure(bytes)), (luma + 2 * chroma, 31));

    let motion = MotionBuf::still(size).expect("a motion");
    let motion = motion.motion();
    let fields = [
        motion.forward.0,
        motion.forward.1,
        motion.backward.0,
        motion.backward.1,
    ];
    let bytes: usize = fields.map(size_of_val).iter().sum();
    assert_eq!((bytes, figure(bytes)), (8 * 120 * 68, 1));

    let sums = Sums::new(size, ratio).expect("sums");
    let part = sums.part();
    let slices = [part.luma, part.chroma[0], part.chroma[1]];
    let of_sums: usize = slices.map(size_of_val).iter().sum();
    assert_eq!((of_sums, figure(of_sums)), (24 * luma + 16 * chroma, 581));

    let layer = LayerBuf::new(size, ratio).expect("a layer");
    let layer = layer.layer();
    let slices = [layer.luma, layer.chroma[0], layer.chroma[1]];
    let of_layer: usize = slices.map(size_of_val).iter().sum();
    assert_eq!((of_layer, figure(of_layer)), (4 * luma + 8 * chroma, 124));

    let work = 17 * luma + size.cells();
    assert_eq!(figure(work), 353);
    assert_eq!((3 * of_sums + work + of_layer + 500_000) / 1_000_000, 222);
}

/// A walk says its bytes beforehand; no number wraps.
#[test]
fn the_bytes_of_a_walk() {
    let (luma, chroma, cells) = (1920 * 1080, 960 * 540, 240 * 135);
    let bytes = Walk::bytes(Size::new(1920, 1080), Ratio::Two);
    assert_eq!(bytes, 89 * luma + 48 * chroma + cells);
    assert_eq!((bytes + 50_000) / 100_000, 2095);
    for side in [1, 7, 8, 9, 4096] {
        let size = Size::new(side, 16);
        let (pixels, cells) = (16 * side, 2 * side.div_ceil(8));
        let bytes = 3 * (24 + 16) * pixels + 17 * pixels + cells;
        assert_eq!(Walk::bytes(size, Ratio::One), bytes, "{size}");
    }
    for side in [usize::MAX / 2, usize::MAX] {
        assert_eq!(Walk::bytes(Size::new(side, side), Ratio::Four), usize::MAX);
    }
}

#[test]
fn the_bytes_of_a_parcel() {
    let layer = LayerBuf::new(Size::new(1920, 1080), Ratio::Two).expect("a layer");
    let (luma, chroma, cells) = (1920 * 1080, 960 * 540, 240 * 135);
    let bytes = layer.to_parcel().len();
    assert_eq!(bytes, 42 + 4 * luma + 4 * chroma + 2 * cells);
    assert_eq!((bytes + 50_000) / 100_000, 104);
}
