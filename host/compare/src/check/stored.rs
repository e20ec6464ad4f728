//! The stored list of the Rust's answers, which the program crates/replay runs where no Rust is at hand. Calls that the
//! Rust does not have are not in it. Chroma entries that are left out of the comparison with the Rust are stored as
//! plain arithmetic gives them.
//!
//! All numbers are little-endian. The file is one case after another, to its end. A case is
//!
//! - u32: the call's id, its number in `check::CALLS` (0 distances, 1 mask, 2 apply, 3 hold, 4 peel, 5 unpeel,
//!   6 peel_numbers, 7 unpeel_numbers, 8 empty, 9 stats, 10 assemble, 11 fit, 12 render);
//! - u32: how many numbers the call takes; each of them as u64, in the order of the C interface: a usize as it is, an i32
//!   or f32 as its 32 bits, a bool as 0 or 1;
//! - u32: how many slices it takes; each of them, in order, as u32 bytes to an element, u32 length in elements, then
//!   its bytes (i16, u16 and f32 elements little-endian);
//! - u64: the right answer, count * 256 + number;
//! - for each slice that the call may write, in order, its bytes after the call: as many as it had before.
//!
//! Two things are free: after an answer of number 0 fit's work slices (models, kept, cover: stored as they came), and
//! in stats the bits of a NaN (stored as the Rust made it).

use super::case::Case;
use super::damage::input;
use super::expected::NUMBERS;
use super::lent::{arguments, Argument, Value};
use super::rng::Rng;
use super::totals::Entries;

/// Cases larger than this are left out.
const LARGE: usize = 1500;
/// Most cases are smaller than this, so that many fit in.
const SMALL: usize = 450;
/// Inputs looked at for the cases of one call.
const LOOKED_AT: u64 = 20_000;
/// Cases of each refusal, and of each way of a chroma total out of the range.
const EACH: usize = 3;

/// Cases of one call, one after another.
#[derive(Clone, Default)]
pub struct Stored {
    pub bytes: Vec<u8>,
    pub cases: usize,
    pub entries: Entries,
}

impl Stored {
    fn add(&mut self, other: Self) {
        self.bytes.extend(other.bytes);
        self.cases += other.cases;
        self.entries.add(other.entries);
    }

    /// One line: cases, bytes, and the chroma entries where there are any.
    pub fn line(&self) -> String {
        let (cases, bytes) = (self.cases, self.bytes.len());
        format!("{cases} cases, {bytes} bytes{}", self.entries.tail())
    }
}

/// Cases of one call, at most so many bytes of them: first some of each refusal and of each way of a chroma total out
/// of the range, then other accepted ones, a larger one after three small ones.
pub fn record<C: Case<Answer = u64>>(id: u32, seed: u64, bytes: usize) -> Stored {
    let (mut small, mut large) = (Vec::new(), Vec::new());
    let mut first = vec![Vec::new(); NUMBERS + Entries::WAYS];
    for index in 0..LOOKED_AT {
        let case: C = input(&mut Rng::of(seed, C::NAME, index));
        let (number, one) = stored(id, &case);
        match (number, one.entries.way()) {
            _ if one.bytes.len() > LARGE => {}
            (0, Some(way)) => first[NUMBERS + way].push(one),
            (0, None) if one.bytes.len() <= SMALL => small.push(one),
            (0, None) => large.push(one),
            _ => first[number].push(one),
        }
    }
    let first = first.into_iter().flat_map(|mut cases| {
        cases.sort_by_key(|case: &Stored| case.bytes.len() / 200);
        cases.into_iter().take(EACH)
    });
    // Where small ones run out, the larger ones follow by themselves.
    let mut large = large.into_iter();
    let mut accepted = Vec::new();
    for three in small.chunks(3) {
        accepted.extend(three.iter().cloned().chain(large.next()));
    }
    accepted.extend(large);
    let mut made = Stored::default();
    for one in first.chain(accepted) {
        if made.bytes.len() + one.bytes.len() > bytes {
            break;
        }
        made.add(one);
    }
    made
}

/// The number of the answer, and one case in the file's form.
fn stored<C: Case<Answer = u64>>(id: u32, case: &C) -> (usize, Stored) {
    let (mut before, mut after) = (case.clone(), case.clone());
    let (answer, entries) = after.expected();
    let free = C::free(answer);
    let (slices, numbers): (Vec<_>, Vec<_>) = arguments(&mut before)
        .into_iter()
        .partition(Argument::is_slice);
    let mut made = Vec::new();
    count(&mut made, id as usize);
    count(&mut made, numbers.len());
    numbers
        .iter()
        .for_each(|argument| number(&mut made, &argument.value));
    count(&mut made, slices.len());
    for argument in &slices {
        let (width, bytes) = bytes(&argument.value);
        count(&mut made, width);
        count(&mut made, bytes.len() / width);
        made.extend(bytes);
    }
    made.extend(answer.to_le_bytes());
    let after: Vec<_> = arguments(&mut after)
        .into_iter()
        .filter(Argument::is_slice)
        .collect();
    for (before, after) in slices.iter().zip(&after) {
        let written = C::WRITTEN.iter().any(|name| before.is(name));
        let free = free.iter().any(|name| before.is(name));
        if written {
            made.extend(bytes(if free { &before.value } else { &after.value }).1);
        }
    }
    let one = Stored {
        bytes: made,
        cases: 1,
        entries,
    };
    ((answer % 256) as usize, one)
}

fn count(made: &mut Vec<u8>, count: usize) {
    let count = u32::try_from(count).expect("a stored case is small");
    made.extend(count.to_le_bytes());
}

fn number(made: &mut Vec<u8>, value: &Value) {
    let bits = match value {
        Value::Size(value) => **value as u64,
        Value::Int(value) => u64::from(**value as u32),
        Value::Float(value) => u64::from(value.to_bits()),
        Value::Flag(value) => u64::from(**value),
        _ => unreachable!("a slice is no number"),
    };
    made.extend(bits.to_le_bytes());
}

/// Bytes to an element, and all bytes of a slice.
fn bytes(value: &Value) -> (usize, Vec<u8>) {
    fn all<T: Copy, const N: usize>(slice: &[T], bytes: fn(T) -> [u8; N]) -> (usize, Vec<u8>) {
        (
            N,
            slice.iter().flat_map(|element| bytes(*element)).collect(),
        )
    }
    match value {
        Value::Bytes(slice) => all(slice, u8::to_le_bytes),
        Value::Shorts(slice) => all(slice, i16::to_le_bytes),
        Value::Words(slice) => all(slice, u16::to_le_bytes),
        Value::Floats(slice) => all(slice, f32::to_le_bytes),
        _ => unreachable!("a number is no slice"),
    }
}
