//! Chroma totals, from the words of request W-202 and of 01 alone. In quotation marks stand the papers' own.

/// The range of a total: "-32768 or 32767" are its ends.
const LOW: i64 = -32_768;
const HIGH: i64 = 32_767;

/// The total of one chroma pixel, "summed whole".
#[derive(Clone, Copy, Debug, Default, PartialEq, Eq)]
pub struct Total {
    whole: i64,
    /// Whether any "partial total leaves the range". There is one after each term, the last of them the whole.
    leaves: bool,
}

impl Total {
    /// Adds a term. They come in the Rust's order: row by row the luma pixels of the block.
    fn add(&mut self, term: i64) {
        self.whole += term;
        self.leaves |= !(LOW..=HIGH).contains(&self.whole);
    }

    pub fn whole(self) -> i64 {
        self.whole
    }

    pub fn leaves(self) -> bool {
        self.leaves
    }

    /// "A chroma total outside the range is now held to -32768 or 32767. The total is still summed whole first."
    pub fn held(self) -> i16 {
        self.whole.clamp(LOW, HIGH) as i16
    }
}

/// The totals of a chroma plane, row by row, of one offset for each luma pixel: "the whole-number sum over its luma
/// pixels of the rounded offset/ratio²".
pub fn totals(offsets: &[f32], width: usize, ratio: usize) -> Vec<Total> {
    let mut totals = vec![Total::default(); offsets.len() / (ratio * ratio)];
    for (at, &offset) in offsets.iter().enumerate() {
        let (x, y) = (at % width, at / width);
        totals[y / ratio * (width / ratio) + x / ratio].add(term(offset, ratio));
    }
    totals
}

/// "offsets in 64ths: times the scale, rounded half away from zero, held to ±32767, NaN as 0".
fn term(offset: f32, ratio: usize) -> i64 {
    let share = offset / (ratio * ratio) as f32;
    (share * 64.0).round().clamp(-32_767.0, 32_767.0) as i64
}

#[cfg(test)]
mod tests {
    use super::{totals, Total};

    /// The total of the terms of one block.
    fn total(terms: &[i64]) -> Total {
        let mut total = Total::default();
        terms.iter().for_each(|&term| total.add(term));
        total
    }

    #[test]
    fn a_total_outside_is_held() {
        let right = [
            (32_766, 1, 32_767, 32_767, false),
            (32_767, 1, 32_768, 32_767, true),
            (-32_767, -1, -32_768, -32_768, false),
            (-32_767, -2, -32_769, -32_768, true),
            (0, 0, 0, 0, false),
        ];
        for (first, second, whole, held, leaves) in right {
            let total = total(&[first, second]);
            assert_eq!((total.whole(), total.held()), (whole, held));
            assert_eq!(total.leaves(), leaves, "{whole}");
        }
        assert_eq!(total(&[32_767; 16]).whole(), 524_272);
        assert_eq!(total(&[32_767; 16]).held(), 32_767);
        assert_eq!(total(&[-32_767; 16]).held(), -32_768);
    }

    /// "The total is still summed whole first": what is held on the way would end elsewhere.
    #[test]
    fn a_partial_total_is_not_held() {
        let right: [(&[i64], i16, bool); 5] = [
            (&[32_767, 32_767, -32_767, -32_767], 0, true),
            (&[-32_767, -32_767, 32_767, 32_766], -1, true),
            (&[32_767, 1, 0, -1], 32_767, true),
            (&[-32_767, -2, 1, 0], -32_768, true),
            // the same terms in another order never leave it
            (&[32_767, -32_767, 32_767, -32_767], 0, false),
        ];
        for (terms, held, leaves) in right {
            let total = total(terms);
            assert_eq!((total.held(), total.leaves()), (held, leaves), "{terms:?}");
        }
    }

    #[test]
    fn a_term_is_rounded_and_held() {
        let stored = |offset: f32, ratio: usize| super::term(offset, ratio);
        assert_eq!(stored(1.0 / 128.0, 1), 1);
        assert_eq!(stored(-1.0 / 128.0, 1), -1);
        assert_eq!(stored(0.007, 1), 0);
        assert_eq!(stored(4096.0, 2), 32_767);
        assert_eq!(stored(4096.0, 4), 16_384);
        assert_eq!(stored(f32::NEG_INFINITY, 4), -32_767);
        assert_eq!(stored(f32::INFINITY, 1), 32_767);
        assert_eq!(stored(f32::NAN, 2), 0);
    }

    /// 4 by 4 pixels: four blocks at ratio 2, one at ratio 4, and a term for each pixel at ratio 1.
    #[test]
    fn pixels_add_to_the_total_of_their_block() {
        let offsets: Vec<f32> = (0..16).map(|at| at as f32).collect();
        let whole = |ratio: usize| -> Vec<i64> {
            let totals = totals(&offsets, 4, ratio);
            totals.into_iter().map(Total::whole).collect()
        };
        assert_eq!(whole(4), [4 * 120]);
        assert_eq!(whole(2), [16 * 10, 16 * 18, 16 * 42, 16 * 50]);
        assert_eq!(whole(1), (0..16).map(|at| 64 * at).collect::<Vec<_>>());
    }

    /// Two blocks side by side at ratio 2, where it is the order of rows that leaves the range or does not.
    #[test]
    fn terms_come_row_by_row() {
        let (up, down) = (2047.0, -2047.0);
        let made = totals(&[up, up, up, down, down, down, up, down], 4, 2);
        assert_eq!(made.iter().map(|total| total.whole()).max(), Some(0));
        assert_eq!(made.iter().map(|total| total.whole()).min(), Some(0));
        let leaves: Vec<bool> = made.into_iter().map(Total::leaves).collect();
        assert_eq!(leaves, [true, false]);
    }

    /// 01's examples of what left the range: "ratio 2, four offsets of 4096.0", and others of its kind.
    #[test]
    fn offsets_of_the_papers() {
        let held = |offsets: [f32; 4]| totals(&offsets, 2, 2)[0].held();
        assert_eq!(held([4096.0; 4]), 32_767);
        assert_eq!(held([512.0; 4]), 32_767);
        assert_eq!(held([-512.0; 4]), -32_768);
        assert_eq!(held([-4096.0; 4]), -32_768);
        assert_eq!(held([1200.0, 1200.0, -1200.0, -1200.0]), 0);
    }
}
