//! Pieces that good inputs are made of.

use super::rng::Rng;

/// A width, a height and a ratio.
pub type Sizes = (usize, usize, usize);

/// A ratio and two sizes that it divides: mostly 1 to `most` pixels, some long and flat, few of 4096.
pub fn sizes(rng: &mut Rng, most: usize) -> Sizes {
    let ratio = rng.pick(&[1, 2, 4]);
    let (width, height) = match rng.below(3000) {
        0 => (4096 / ratio, 1),
        1 => (1, 4096 / ratio),
        2..=50 => (1 + rng.below(80 / ratio), 1 + rng.below(2)),
        51..=100 => (1 + rng.below(2), 1 + rng.below(80 / ratio)),
        _ => (
            1 + rng.below((most / ratio).max(1)),
            1 + rng.below((most / ratio).max(1)),
        ),
    };
    (width * ratio, height * ratio, ratio)
}

/// A ratio and two sizes that span several cells one way and few pixels the other.
pub fn flat_sizes(rng: &mut Rng) -> Sizes {
    let ratio = rng.pick(&[1, 2, 4]);
    let long = ratio * (1 + rng.below(56 / ratio));
    let short = ratio * (1 + rng.below(4 / ratio));
    if rng.once_in(2) {
        (long, short, ratio)
    } else {
        (short, long, ratio)
    }
}

/// Two sizes of a plane by itself.
pub fn plane_sizes(rng: &mut Rng, most: usize) -> (usize, usize) {
    let (width, height, ratio) = sizes(rng, most * 2);
    (width.div_ceil(ratio), height.div_ceil(ratio))
}

/// A whole step of a mask, 1 to 8, mostly small.
pub fn step(rng: &mut Rng) -> usize {
    rng.pick(&[1, 1, 2, 2, 3, 4, 8])
}

/// A pitch for rows of that width, at both ends of its range as well; the upper end only for few rows.
pub fn pitch(rng: &mut Rng, row: usize, rows: usize) -> usize {
    match rng.below(2000) {
        0 if rows <= 3 => 65_536,
        0..=999 => row,
        1000..=1299 => row + 1,
        _ => row + rng.below(12),
    }
}

/// A byte plane's slice: long enough, or longer with bytes that mean nothing.
pub fn plane(rng: &mut Rng, pitch: usize, row: usize, rows: usize) -> Vec<u8> {
    let length = (rows - 1) * pitch + row + longer(rng);
    bytes(rng, length)
}

/// Elements beyond what is needed.
pub fn longer(rng: &mut Rng) -> usize {
    match rng.below(4) {
        0 => 1 + rng.below(20),
        _ => 0,
    }
}

/// Bytes of one kind: any, at the ends, one and the same, a ramp.
pub fn bytes(rng: &mut Rng, length: usize) -> Vec<u8> {
    let mut made = rng.bytes(length);
    match rng.below(6) {
        0 => made
            .iter_mut()
            .for_each(|byte| *byte = [0, 1, 127, 128, 254, 255][usize::from(*byte) % 6]),
        1 => {
            let (base, spread) = (rng.bits() as u8, 1 + rng.below(6) as u8);
            made.iter_mut()
                .for_each(|byte| *byte = base.saturating_add(*byte % spread));
        }
        2 => {
            let (base, slope) = (rng.below(256), 1 + rng.below(9));
            for (at, byte) in made.iter_mut().enumerate() {
                *byte = ((base + at * slope + usize::from(*byte % 4)) % 256) as u8;
            }
        }
        _ => {}
    }
    made
}

/// Bytes that are those, changed a little here and there; cut or filled up to the length.
pub fn near(rng: &mut Rng, from: &[u8], length: usize) -> Vec<u8> {
    let mut made = rng.bytes(length);
    let (often, reach) = (1 + rng.below(4) as u8, rng.pick(&[1, 2, 3, 4, 6, 12, 40]));
    for (byte, old) in made.iter_mut().zip(from) {
        let noise = i16::from(*byte >> 2) % (2 * reach + 1) - reach;
        let moved = (i16::from(*old) + noise).clamp(0, 255) as u8;
        *byte = if *byte % 4 < often { moved } else { *old };
    }
    made
}

/// A time of 0 to 1.
pub fn time(rng: &mut Rng) -> f32 {
    match rng.below(3) {
        0 => rng.pick(&[
            0.0, -0.0, 1.0, 0.5, 0.25, 0.75, 1e-45, 0.99999994, 0.33333334,
        ]),
        _ => rng.unit(),
    }
}
