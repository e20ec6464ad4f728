//! The planes of two frames, lent to stats and to a walk's pair.

use super::expected::{over, plane_bytes, wrong_pitch, Length};
use super::inputs::{near, pitch, plane, Sizes};
use super::motion::Motion;
use super::rng::Rng;
use safeteal::{Pair, Size};

lent! {
    /// A byte plane with its pitch.
    pub struct Plane {
        data: Vec<u8>,
        pitch: usize,
    }
}

lent! {
    /// Luma and chroma of both frames.
    pub struct Planes {
        first0: Plane,
        first1: Plane,
        first2: Plane,
        second0: Plane,
        second1: Plane,
        second2: Plane,
    }
}

impl Plane {
    pub fn random(rng: &mut Rng, (row, rows): (usize, usize)) -> Self {
        let pitch = pitch(rng, row, rows);
        Self {
            data: plane(rng, pitch, row, rows),
            pitch,
        }
    }

    /// A plane like that one, of the same pitch.
    fn near(rng: &mut Rng, other: &Plane) -> Self {
        Self {
            data: near(rng, &other.data, other.data.len()),
            pitch: other.pitch,
        }
    }

    /// Puts a byte at each column and row.
    pub fn paint(&mut self, (row, rows): (usize, usize), byte: impl Fn(usize, usize) -> u8) {
        for (y, bytes) in self.data.chunks_mut(self.pitch).take(rows).enumerate() {
            for (x, pixel) in bytes.iter_mut().take(row).enumerate() {
                *pixel = byte(x, y);
            }
        }
    }

    /// Its first columns and rows, without what lies between and behind them.
    fn cropped(&self, (row, rows): (usize, usize)) -> Self {
        let rows = self.data.chunks(self.pitch).take(rows);
        Self {
            data: rows.flat_map(|bytes| &bytes[..row]).copied().collect(),
            pitch: row,
        }
    }

    fn lent(&self, size: Size) -> safeteal::Plane<'_> {
        safeteal::Plane::pitched(&self.data, size, self.pitch)
    }
}

impl Planes {
    /// Two frames of these sizes, half of the time alike.
    pub fn random(rng: &mut Rng, size: Sizes) -> Self {
        let [luma, half] = sides(size);
        let first0 = Plane::random(rng, luma);
        let (first1, first2) = (Plane::random(rng, half), Plane::random(rng, half));
        let [second0, second1, second2] = if rng.once_in(2) {
            [&first0, &first1, &first2].map(|first| Plane::near(rng, first))
        } else {
            [luma, half, half].map(|size| Plane::random(rng, size))
        };
        Self {
            first0,
            first1,
            first2,
            second0,
            second1,
            second2,
        }
    }

    /// The same planes, the second frame before the first.
    pub fn turned(self) -> Self {
        Self {
            first0: self.second0,
            first1: self.second1,
            first2: self.second2,
            second0: self.first0,
            second1: self.first1,
            second2: self.first2,
        }
    }

    /// All six.
    pub fn each(&mut self) -> [&mut Plane; 6] {
        [
            &mut self.first0,
            &mut self.first1,
            &mut self.first2,
            &mut self.second0,
            &mut self.second1,
            &mut self.second2,
        ]
    }

    /// Each plane with the sizes it must have.
    fn sized(&self, size: Sizes) -> [(&Plane, (usize, usize)); 6] {
        let [luma, half] = sides(size);
        [
            (&self.first0, luma),
            (&self.first1, half),
            (&self.first2, half),
            (&self.second0, luma),
            (&self.second1, half),
            (&self.second2, half),
        ]
    }

    /// The first columns and rows of each, for a smaller size.
    pub fn cropped(&self, size: Sizes) -> Self {
        let cropped = self.sized(size).map(|(plane, sides)| plane.cropped(sides));
        let [first0, first1, first2, second0, second1, second2] = cropped;
        Self {
            first0,
            first1,
            first2,
            second0,
            second1,
            second2,
        }
    }

    /// Row 3: each pitch against its plane's row.
    pub fn wrong_pitches(&self, size: Sizes) -> bool {
        let wrong = |(plane, (row, _)): (&Plane, (usize, usize))| wrong_pitch(plane.pitch, row);
        self.sized(size).into_iter().any(wrong)
    }

    /// Row 4: what each slice must have.
    pub fn lengths(&self, size: Sizes) -> [Length; 6] {
        self.sized(size)
            .map(|(plane, (row, rows))| plane_bytes(plane.pitch, row, rows))
    }

    /// With the motion between them.
    pub fn pair<'a>(&'a self, motion: &'a Motion, size: Sizes) -> Pair<'a> {
        let [luma, half] = sides(size).map(|(width, height)| Size::new(width, height));
        let planes = |[a, b, c]: [&'a Plane; 3]| [a.lent(luma), b.lent(half), c.lent(half)];
        Pair {
            first: planes([&self.first0, &self.first1, &self.first2]),
            second: planes([&self.second0, &self.second1, &self.second2]),
            motion: motion.lent(luma),
        }
    }
}

/// Columns and rows of luma and of a plane of chroma.
fn sides((width, height, ratio): Sizes) -> [(usize, usize); 2] {
    [(width, height), (over(width, ratio), over(height, ratio))]
}
