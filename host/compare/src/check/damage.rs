//! Faults put into good inputs: numbers at and beyond their limits, slices too short and too long.

use super::case::Case;
use super::lent::{arguments, Value};
use super::rng::Rng;

/// One input of a call: good twice out of three times, else with one fault or two.
pub fn input<C: Case>(rng: &mut Rng) -> C {
    let mut case = C::random(rng);
    if rng.once_in(C::SPOILT) {
        case.spoil(rng);
    }
    let faults = rng.pick(&[0, 0, 0, 0, 0, 0, 1, 1, 2]);
    for _ in 0..faults {
        fault(&mut case, rng);
    }
    case
}

/// Puts a fault into one of the arguments; some are none.
pub fn fault<C: Case>(case: &mut C, rng: &mut Rng) {
    let mut list = arguments(case);
    let at = rng.below(list.len());
    match &mut list[at].value {
        Value::Size(value) => **value = size(**value, rng),
        Value::Int(value) => **value = int(**value, rng),
        Value::Float(value) => **value = float(**value, rng),
        Value::Flag(value) => **value = !**value,
        Value::Bytes(slice) => length(slice, rng, |rng| rng.bits() as u8),
        Value::Shorts(slice) => length(slice, rng, |rng| rng.bits() as i16),
        Value::Words(slice) => length(slice, rng, |rng| rng.bits() as u16),
        Value::Floats(slice) => length(slice, rng, Rng::any_float),
    }
}

const SIZES: [usize; 24] = [
    0,
    1,
    2,
    3,
    4,
    5,
    7,
    8,
    9,
    11,
    12,
    13,
    16,
    4095,
    4096,
    4097,
    65_535,
    65_536,
    65_537,
    1 << 32,
    1 << 63,
    usize::MAX / 2,
    usize::MAX - 1,
    usize::MAX,
];

fn size(old: usize, rng: &mut Rng) -> usize {
    match rng.below(6) {
        0 => old.wrapping_sub(1),
        1 => old.wrapping_add(1),
        2 => old.wrapping_mul(2),
        _ => rng.pick(&SIZES),
    }
}

const INTS: [i32; 20] = [
    0,
    1,
    -1,
    2,
    3,
    4,
    5,
    8,
    127,
    128,
    129,
    -128,
    4096,
    4097,
    -4096,
    -4097,
    65_536,
    i32::MAX,
    i32::MIN,
    i32::MIN + 1,
];

fn int(old: i32, rng: &mut Rng) -> i32 {
    match rng.below(6) {
        0 => old.wrapping_sub(1),
        1 => old.wrapping_add(1),
        2 => old.wrapping_neg(),
        _ => rng.pick(&INTS),
    }
}

/// The limits of time, of fit's limit and of the evidence figure, each with what lies just outside.
const FLOATS: [f32; 24] = [
    0.0,
    -0.0,
    1e-45,
    -1e-45,
    0.49999997,
    0.5,
    0.99999994,
    1.0,
    1.0000001,
    1.5,
    2.0,
    -0.5,
    -1.0,
    254.99998,
    255.0,
    255.00002,
    65535.996,
    65536.0,
    65_536.01,
    1e38,
    f32::INFINITY,
    f32::NEG_INFINITY,
    f32::NAN,
    f32::MIN,
];

fn float(old: f32, rng: &mut Rng) -> f32 {
    match rng.below(8) {
        0 => -old,
        1 => rng.any_float(),
        _ => rng.pick(&FLOATS),
    }
}

fn length<T: Clone>(slice: &mut Vec<T>, rng: &mut Rng, any: impl Fn(&mut Rng) -> T) {
    match rng.below(8) {
        0 => slice.clear(),
        1 => slice.truncate(slice.len() / 2),
        2 => slice.extend_from_slice(&slice.clone()),
        3..=5 => slice.truncate(slice.len().saturating_sub(1)),
        _ => slice.push(any(rng)),
    }
}
