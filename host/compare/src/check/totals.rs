//! The chroma entries of a layer that the Rust made: which of them are compared with it, and what is right for those
//! that are left out.

use super::case::Case;
use crate::oracle::layer as rust;
use crate::second::total::{totals, Total};

/// A call that sums chroma offsets: it leaves a layer, and counts nothing.
pub trait Summed: Case<Answer = u64> {
    /// The layer that the Rust makes of an accepted input.
    fn rust(&self) -> rust::Fit;

    /// One chroma offset for each luma pixel, plane by plane.
    fn offsets(&self) -> [Vec<f32>; 2];

    /// Luma pixels in a row, and in a row of a block.
    fn across(&self) -> (usize, usize);

    /// The layer's slices: luma, then the chroma planes.
    fn layer(&mut self) -> [&mut Vec<i16>; 3];
}

/// Chroma entries by what became of their totals.
#[derive(Clone, Copy, Debug, Default, PartialEq, Eq)]
pub struct Entries {
    /// No partial total left the range: compared with the Rust.
    pub compared: u64,
    /// Left out, the whole total being above the range.
    pub above: u64,
    /// Left out, the whole total being below it.
    pub below: u64,
    /// Left out, the whole total being back in it.
    pub back: u64,
}

impl Entries {
    /// Those that are compared with plain arithmetic, and not with the Rust.
    pub fn left_out(&self) -> u64 {
        self.above + self.below + self.back
    }

    pub fn add(&mut self, other: Self) {
        self.compared += other.compared;
        self.above += other.above;
        self.below += other.below;
        self.back += other.back;
    }

    fn note(&mut self, total: Total) {
        let class = match total.whole() - i64::from(total.held()) {
            _ if !total.leaves() => &mut self.compared,
            0 => &mut self.back,
            1.. => &mut self.above,
            _ => &mut self.below,
        };
        *class += 1;
    }

    /// The ways out of the range.
    pub const WAYS: usize = 3;

    /// The first way that one of these entries took: to stay above (0), to stay below (1), to come back (2).
    pub fn way(&self) -> Option<usize> {
        let ways: [u64; Self::WAYS] = [self.above, self.below, self.back];
        ways.iter().position(|&entries| entries > 0)
    }

    /// The counts in words, where there is any entry.
    pub fn words(&self) -> Option<String> {
        let (compared, left_out) = (self.compared, self.left_out());
        let (above, below, back) = (self.above, self.below, self.back);
        let words = format!(
            "{compared} chroma entries compared with the Rust, {left_out} left out \
             ({above} above the range, {below} below it, {back} back in it)"
        );
        (compared + left_out > 0).then_some(words)
    }

    /// The same as the end of a line.
    pub fn tail(&self) -> String {
        let tail = |words| format!("; {words}");
        self.words().map(tail).unwrap_or_default()
    }
}

/// Leaves the layer that is right: where a partial total leaves the range, the whole total, held; all else as the Rust
/// made it.
///
/// The Rust's release build wraps each total to 16 bits: a check of all totals reckoned here, those left out too.
pub fn settle<S: Summed>(case: &mut S) -> (u64, Entries) {
    let (mut made, offsets, (width, ratio)) = (case.rust(), case.offsets(), case.across());
    let mut entries = Entries::default();
    for (stored, offsets) in made.chroma.iter_mut().zip(offsets) {
        for (entry, total) in stored.iter_mut().zip(totals(&offsets, width, ratio)) {
            let wrapped = total.whole() as i16;
            assert_eq!(wrapped, *entry, "a total reckoned here is not the Rust's");
            entries.note(total);
            if total.leaves() {
                *entry = total.held();
            }
        }
    }
    let [first, second] = made.chroma;
    for (slice, made) in case.layer().into_iter().zip([made.luma, first, second]) {
        *slice = made;
    }
    (0, entries)
}

#[cfg(test)]
mod tests;
