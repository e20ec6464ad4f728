//! The rows of the refusal table, in whole numbers that do not wrap. Each call puts its rows together in order.

use super::inputs::Sizes;

/// The numbers that calls answer are below this.
pub const NUMBERS: usize = 13;

/// What a slice must have.
#[derive(Clone, Copy, Debug)]
pub enum Length {
    Any,
    AtLeast(u128),
    Exactly(u128),
    /// So long in a good input; another length is not row 4's matter.
    Usually(u128),
}

impl Length {
    /// The least length of a good input.
    pub fn least(self) -> Option<u128> {
        match self {
            Length::Any => None,
            Length::AtLeast(length) | Length::Exactly(length) | Length::Usually(length) => {
                Some(length)
            }
        }
    }

    pub fn holds(self, actual: usize) -> bool {
        match self {
            Length::Any | Length::Usually(_) => true,
            Length::AtLeast(least) => actual as u128 >= least,
            Length::Exactly(length) => actual as u128 == length,
        }
    }
}

/// Row 1: "a size outside 1..4096".
pub fn wrong_size(width: usize, height: usize) -> bool {
    [width, height]
        .iter()
        .any(|side| !(1..=4096).contains(side))
}

/// Row 1: "a plane number above 2".
pub fn wrong_plane(plane: usize) -> bool {
    plane > 2
}

/// Row 2: "ratio not 1, 2, 4, or not dividing a size".
pub fn wrong_ratio(ratio: usize, width: usize, height: usize) -> bool {
    ![1, 2, 4].contains(&ratio) || width % ratio != 0 || height % ratio != 0
}

/// Row 3: "pitches from the row's width to 65,536".
pub fn wrong_pitch(pitch: usize, row: usize) -> bool {
    pitch < row || pitch > 65_536
}

/// Row 5: grid sides 1 to 4096, block sides 1 to 128, origins -4096 to 4096, pel 1, 2 or 4.
pub fn wrong_motion(grid: [usize; 2], block: [i32; 2], origin: [i32; 2], pel: i32) -> bool {
    grid.iter().any(|side| !(1..=4096).contains(side))
        || block.iter().any(|side| !(1..=128).contains(side))
        || origin.iter().any(|at| !(-4096..=4096).contains(at))
        || ![1, 2, 4].contains(&pel)
}

/// Row 6: a setting outside its range, or NaN.
pub fn wrong_setting(value: f32, low: f32, high: f32) -> bool {
    !(low <= value && value <= high)
}

/// Row 6: "time 0 to 1".
pub fn wrong_time(time: f32) -> bool {
    wrong_setting(time, 0.0, 1.0)
}

/// Luma's side over the ratio; a ratio of 0 was refused before this counts.
pub fn over(side: usize, ratio: usize) -> usize {
    side / ratio.max(1)
}

/// "A byte plane has at least (rows-1) times pitch plus row width bytes".
pub fn plane_bytes(pitch: usize, row: usize, rows: usize) -> Length {
    let above = (rows as u128).saturating_sub(1);
    Length::AtLeast(times(above, pitch).saturating_add(row as u128))
}

/// "at least 2 times pitch times height numbers"; a byte layer has two bytes for each.
pub fn layer_numbers(pitch: usize, rows: usize, bytes_each: usize) -> Length {
    Length::AtLeast(times(times(2, bytes_each), pitch).saturating_mul(rows as u128))
}

/// Exactly so many elements for each of `width` times `height`.
pub fn exactly(each: usize, width: usize, height: usize) -> Length {
    Length::Exactly(times(times(each as u128, width), height))
}

/// A part's three slices: "six f32 sums per luma pixel", "two per chroma pixel in a slice for each chroma plane".
pub fn sums_numbers((width, height, ratio): Sizes) -> [Length; 3] {
    let chroma = exactly(2, over(width, ratio), over(height, ratio));
    [exactly(6, width, height), chroma, chroma]
}

/// "width/8 times height/8 bytes, each quotient rounded up".
pub fn cover_bytes(width: usize, height: usize) -> Length {
    exactly(1, width.div_ceil(8), height.div_ceil(8))
}

pub fn times(a: u128, b: usize) -> u128 {
    a.saturating_mul(b as u128)
}
