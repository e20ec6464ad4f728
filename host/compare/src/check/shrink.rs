//! Makes a failing input small: smaller numbers, shorter slices, zeros, as long as it still fails.

use std::time::{Duration, Instant};

use super::case::{compare, Case};
use super::lent::{arguments, Value};

/// How long a failing input is worked on.
pub const PATIENCE: Duration = Duration::from_secs(20);
/// Slices above this length are only made shorter or zero as a whole and by halves.
const FEW: usize = 400;
/// Slices above this length are not made for a shrunk input.
const MOST: u128 = 1 << 22;

/// The smallest failing input that was found.
pub fn shrink<C: Case>(case: C) -> C {
    let until = Instant::now() + PATIENCE;
    let mut best = case;
    loop {
        let before = weight(&mut best);
        best = by_itself(best, until);
        for at in 0..arguments(&mut best).len() {
            for step in STEPS {
                while let Some(smaller) = tried(&best, at, *step) {
                    if Instant::now() > until {
                        return best;
                    }
                    best = smaller;
                }
            }
            best = elements(best, at, until);
        }
        if Instant::now() > until || weight(&mut best) >= before {
            return best;
        }
    }
}

/// One way to make an argument smaller.
#[derive(Clone, Copy)]
enum Step {
    Zero,
    Half,
    Less(u8),
}

/// Sizes also go down by 4 and 2, so that a ratio still divides them.
const STEPS: &[Step] = &[
    Step::Zero,
    Step::Half,
    Step::Less(4),
    Step::Less(2),
    Step::Less(1),
];

/// The input with one argument made smaller, where it still fails: as it is, or with all slices brought to their
/// lengths.
fn tried<C: Case>(case: &C, at: usize, step: Step) -> Option<C> {
    let mut smaller = case.clone();
    if !change(&mut arguments(&mut smaller)[at].value, step) {
        return None;
    }
    lighter(case, smaller)
}

/// The smaller input with all slices brought to their lengths, or as it is, where it weighs less and still fails.
fn lighter<C: Case>(case: &C, smaller: C) -> Option<C> {
    let before = weight(&mut case.clone());
    let mended = [End::Back, End::Front].map(|end| mended(&smaller, end));
    let mut candidates = mended.into_iter().flatten().chain([smaller]);
    candidates.find(|candidate| weight(&mut candidate.clone()) < before && fails(candidate))
}

/// The input made smaller as long as the case itself knows how.
fn by_itself<C: Case>(mut best: C, until: Instant) -> C {
    while Instant::now() < until {
        let mut smaller = best.smaller().into_iter();
        let Some(found) = smaller.find_map(|smaller| lighter(&best, smaller)) else {
            break;
        };
        best = found;
    }
    best
}

fn fails<C: Case>(case: &C) -> bool {
    compare(case).difference.is_some()
}

/// Changes a value, and says whether it was changed.
fn change(value: &mut Value, step: Step) -> bool {
    match value {
        Value::Size(value) => put(
            *value,
            match step {
                Step::Zero => usize::from(**value > 1),
                Step::Half => **value / 2,
                Step::Less(by) => value.saturating_sub(usize::from(by)),
            },
        ),
        Value::Int(value) => put(
            *value,
            match step {
                Step::Zero => i32::from(**value > 1),
                Step::Half => **value / 2,
                Step::Less(_) => **value - value.signum(),
            },
        ),
        Value::Float(value) => float(value, step),
        Value::Flag(value) => put(*value, false),
        Value::Bytes(slice) => shorten(slice, step, 0),
        Value::Shorts(slice) => shorten(slice, step, 0),
        Value::Words(slice) => shorten(slice, step, 1024),
        Value::Floats(slice) => shorten(slice, step, 0.0),
    }
}

fn put<T: PartialEq>(value: &mut T, new: T) -> bool {
    let changed = *value != new;
    *value = new;
    changed
}

fn float(value: &mut f32, step: Step) -> bool {
    let new = match step {
        Step::Zero => 0.0,
        Step::Half if value.is_finite() => value.trunc(),
        Step::Half => value.signum(),
        Step::Less(_) => return false,
    };
    if value.to_bits() == new.to_bits() || value.is_nan() && new.is_nan() {
        return false;
    }
    *value = new;
    true
}

fn shorten<T: Copy + PartialEq>(slice: &mut Vec<T>, step: Step, zero: T) -> bool {
    match step {
        Step::Zero => {
            let changed = slice.iter().any(|element| *element != zero);
            slice.fill(zero);
            changed
        }
        Step::Half if slice.len() > 1 => {
            slice.truncate(slice.len() / 2);
            true
        }
        Step::Half => false,
        Step::Less(_) => slice.pop().is_some(),
    }
}

/// Where a slice that is too long is cut.
#[derive(Clone, Copy)]
enum End {
    Back,
    Front,
}

/// The input with each slice cut or filled up to its least length.
fn mended<C: Case>(case: &C, end: End) -> Option<C> {
    let mut case = case.clone();
    case.tidy();
    let lengths = case.lengths();
    let list = arguments(&mut case);
    let slices = list.into_iter().filter(|argument| argument.is_slice());
    for (argument, length) in slices.zip(lengths) {
        let Some(length) = length.least() else {
            continue;
        };
        if length > MOST {
            return None;
        }
        let length = length as usize;
        match argument.value {
            Value::Bytes(slice) => resize(slice, length, 0, end),
            Value::Shorts(slice) => resize(slice, length, 0, end),
            Value::Words(slice) => resize(slice, length, 1024, end),
            Value::Floats(slice) => resize(slice, length, 0.0, end),
            _ => {}
        }
    }
    Some(case)
}

fn resize<T: Copy>(slice: &mut Vec<T>, length: usize, zero: T, end: End) {
    if let End::Front = end {
        slice.drain(..slice.len().saturating_sub(length));
    }
    slice.resize(length, zero);
}

/// The input with as many elements of one slice zero, or halved, as still fails.
fn elements<C: Case>(mut best: C, at: usize, until: Instant) -> C {
    let length = match &arguments(&mut best)[at].value {
        Value::Bytes(slice) => slice.len(),
        Value::Shorts(slice) => slice.len(),
        Value::Words(slice) => slice.len(),
        Value::Floats(slice) => slice.len(),
        _ => return best,
    };
    let mut run = length / 2;
    while run > 0 && Instant::now() < until {
        for start in (0..length).step_by(run) {
            let end = (start + run).min(length);
            for simpler in [true, false] {
                let mut smaller = best.clone();
                let changed = simplify(&mut arguments(&mut smaller)[at].value, start..end, simpler);
                if changed && fails(&smaller) {
                    best = smaller;
                }
            }
        }
        run = if length > FEW && run < length / 8 {
            0
        } else {
            run / 2
        };
    }
    best
}

/// Sets a run of elements to nothing, or halves them.
fn simplify(value: &mut Value, run: std::ops::Range<usize>, nothing: bool) -> bool {
    match value {
        Value::Bytes(slice) => each(&mut slice[run], |old| if nothing { 0 } else { old / 2 }),
        Value::Shorts(slice) => each(&mut slice[run], |old| if nothing { 0 } else { old / 2 }),
        Value::Words(slice) => each(
            &mut slice[run],
            |old| {
                if nothing {
                    1024
                } else {
                    512 + old / 2
                }
            },
        ),
        Value::Floats(slice) => each(&mut slice[run], |old| {
            if nothing || old.is_nan() {
                0.0
            } else {
                old.trunc()
            }
        }),
        _ => false,
    }
}

fn each<T: Copy + PartialEq>(run: &mut [T], new: impl Fn(T) -> T) -> bool {
    let mut changed = false;
    for element in run {
        changed |= put(element, new(*element));
    }
    changed
}

/// How much there is to read in an input.
fn weight<C: Case>(case: &mut C) -> f64 {
    let size = |argument: Value| match argument {
        Value::Size(value) => (*value as f64 + 1.0).ln(),
        Value::Int(value) => (f64::from(value.unsigned_abs()) + 1.0).ln(),
        Value::Float(value) => f64::from(u8::from(*value != 0.0)),
        Value::Flag(value) => f64::from(u8::from(*value)),
        Value::Bytes(slice) => read(slice, 0),
        Value::Shorts(slice) => read(slice, 0),
        Value::Words(slice) => read(slice, 1024),
        Value::Floats(slice) => read(slice, 0.0),
    };
    arguments(case)
        .into_iter()
        .map(|argument| size(argument.value))
        .sum()
}

fn read<T: PartialEq>(slice: &[T], zero: T) -> f64 {
    slice.len() as f64 + slice.iter().filter(|element| **element != zero).count() as f64
}
