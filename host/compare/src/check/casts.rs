//! Strong colour casts: chroma totals at the ends of the range, beside them and far beyond, made so and not met by
//! luck.

use super::fit::Part;
use super::rng::Rng;

/// The largest term of a total.
const MOST: i64 = 32_767;
/// The ends of the range, each with what lies about it.
const ENDS: [i64; 8] = [
    32_766, 32_767, 32_768, 32_769, -32_767, -32_768, -32_769, -32_770,
];

/// A total to make: mostly at an end, else none, any, or sixteen of the largest terms.
fn aim(rng: &mut Rng) -> i64 {
    match rng.below(10) {
        0 => 0,
        1 => rng.between(-16 * MOST, 16 * MOST),
        2 => rng.between(-2 * MOST, 2 * MOST),
        3 => rng.pick(&[-16 * MOST, 16 * MOST]),
        _ => rng.pick(&ENDS),
    }
}

/// So many terms, whose partial totals go to one aim and end at another, as near as terms can come.
fn terms(rng: &mut Rng, count: usize) -> Vec<i64> {
    let turn = rng.below(count);
    let (first, last) = (aim(rng), aim(rng));
    let mut made = walk(rng, first, turn);
    let rest = last - made.iter().sum::<i64>();
    made.extend(walk(rng, rest, count - turn));
    made
}

/// So many terms with that total, or with the nearest that they can have: in even steps, or in any.
fn walk(rng: &mut Rng, total: i64, count: usize) -> Vec<i64> {
    let even = rng.once_in(2);
    let far = count as i64 * MOST;
    let mut rest = total.clamp(-far, far);
    let term = |left: i64| {
        let reach = (left - 1) * MOST;
        let (low, high) = ((rest - reach).max(-MOST), (rest + reach).min(MOST));
        let term = if even {
            rest / left
        } else {
            rng.between(low, high)
        };
        rest -= term;
        term
    };
    (1..=count as i64).rev().map(term).collect()
}

/// An offset that is stored as that term of a block: not always its middle, and the largest also of what is held to it.
fn offset(rng: &mut Rng, term: i64, ratio: usize) -> f32 {
    let beside = if term.abs() == MOST {
        term.signum() as f32 * rng.pick(&[0.0, 0.375, 1.0, 1e6, f32::INFINITY])
    } else {
        rng.pick(&[0.0, 0.0, 0.375, -0.375])
    };
    (term as f32 + beside) * (ratio * ratio) as f32 / 64.0
}

/// Gives strong casts to half of the blocks of a model slice, in each plane for itself.
pub fn models(rng: &mut Rng, models: &mut [f32], width: usize, ratio: usize) {
    for at in 0..models.len() / 4 / (ratio * ratio) {
        for plane in [2, 3] {
            if rng.once_in(2) {
                continue;
            }
            let terms = terms(rng, ratio * ratio);
            for (pixel, term) in block(at, width, ratio).zip(terms) {
                models[4 * pixel + plane] = offset(rng, term, ratio);
            }
        }
    }
}

/// Gives strong casts to most of the chroma sums, in each plane for itself, by the gains of the pixels that are kept.
pub fn sums(
    rng: &mut Rng,
    parts: [&mut Part; 3],
    gains: &[Option<f32>],
    width: usize,
    ratio: usize,
) {
    let mut planes = [Vec::new(), Vec::new()];
    for part in parts.into_iter().filter(|part| part.pairs > 0) {
        let frames = 2.0 * part.pairs as f32;
        planes[0].push((frames, &mut part.chroma1));
        planes[1].push((frames, &mut part.chroma2));
    }
    for at in 0..gains.len() / (ratio * ratio) {
        let gains: Vec<f32> = block(at, width, ratio).filter_map(|at| gains[at]).collect();
        for plane in &mut planes {
            if gains.is_empty() || rng.once_in(4) {
                continue;
            }
            let cast = cast(rng, &gains, ratio);
            for (frames, sums) in plane {
                sums[2 * at..2 * at + 2].copy_from_slice(&cast.map(|sum| sum * *frames));
            }
        }
    }
}

/// Two chroma sums p and i of a frame, for a block with pixels of these gains: a pixel of gain g adds i - g * p. In all
/// they add up to an aim, or near it; where p is large and gains differ, partial totals go far both ways.
fn cast(rng: &mut Rng, gains: &[f32], ratio: usize) -> [f32; 2] {
    let step = (ratio * ratio) as f32 / 64.0;
    let mean = gains.iter().sum::<f32>() / gains.len() as f32;
    let partial = gains.iter().scan(0.0, |sum: &mut f32, gain| {
        *sum += gain - mean;
        Some(sum.abs())
    });
    let swing = partial.fold(0.0, f32::max);
    let p = if swing > 0.1 && !rng.once_in(4) {
        rng.between(-100_000, 100_000) as f32 * step / swing
    } else {
        rng.pick(&[0.0, 0.0, 128.0, 2000.0, -2000.0, 1e5])
    };
    [p, aim(rng) as f32 * step / gains.len() as f32 + p * mean]
}

/// The luma pixels of a chroma pixel, in the Rust's order.
fn block(at: usize, width: usize, ratio: usize) -> impl Iterator<Item = usize> {
    let half = width / ratio;
    let first = at / half * ratio * width + at % half * ratio;
    (0..ratio * ratio).map(move |step| first + step / ratio * width + step % ratio)
}
