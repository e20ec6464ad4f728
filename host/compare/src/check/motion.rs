//! Motion lent to stats, render and a walk's pair.

use super::expected::{exactly, wrong_motion, Length};
use super::rng::Rng;
use safeteal::Size;

lent! {
    /// `Motion`, field by field.
    pub struct Motion {
        forward_x: Vec<u16>,
        forward_y: Vec<u16>,
        backward_x: Vec<u16>,
        backward_y: Vec<u16>,
        grid_width: usize,
        grid_height: usize,
        block_width: i32,
        block_height: i32,
        origin_x: i32,
        origin_y: i32,
        pel: i32,
    }
}

impl Motion {
    pub fn random(rng: &mut Rng) -> Self {
        let (grid_width, grid_height) = match rng.below(2000) {
            0 => (4096, 1),
            1 => (1, 4096),
            2..=500 => (1, 1),
            _ => (1 + rng.below(6), 1 + rng.below(6)),
        };
        Self::over(rng, grid_width, grid_height)
    }

    fn over(rng: &mut Rng, grid_width: usize, grid_height: usize) -> Self {
        let pel = rng.pick(&[1, 2, 4]);
        let field = field_of_kind(rng);
        let mut fields = [(); 4].map(|()| {
            let cells = grid_width * grid_height;
            (0..cells).map(|_| field(rng, pel)).collect::<Vec<u16>>()
        });
        if rng.once_in(4) {
            fields[rng.below(4)].fill(1024);
        }
        let [forward_x, forward_y, backward_x, backward_y] = fields;
        Self {
            forward_x,
            forward_y,
            backward_x,
            backward_y,
            grid_width,
            grid_height,
            block_width: block(rng),
            block_height: block(rng),
            origin_x: origin(rng),
            origin_y: origin(rng),
            pel,
        }
    }

    /// The same motion everywhere: what the second frame shows is so many pixels farther right and down in the first.
    pub fn pan((right, down): (i16, i16)) -> Self {
        let field = |pixels: i16| vec![1024u16.wrapping_add_signed(pixels)];
        Self {
            forward_x: field(-right),
            forward_y: field(-down),
            backward_x: field(right),
            backward_y: field(down),
            grid_width: 1,
            grid_height: 1,
            block_width: 16,
            block_height: 16,
            origin_x: 0,
            origin_y: 0,
            pel: 1,
        }
    }

    /// A grid that no field can have, with fields whose length a wrapped product would match: row 4 comes before row 5.
    pub fn stretch(&mut self, rng: &mut Rng) {
        let (width, height, length) = rng.pick(&[
            (1 << 32, 1 << 32, 0),
            (1 << 63, 2, 0),
            (usize::MAX, usize::MAX, 1),
            (0, 5, 0),
            (0, 0, 0),
            (usize::MAX, 0, 0),
            (4097, 1, 4097),
            (1, 4097, 4097),
        ]);
        (self.grid_width, self.grid_height) = (width, height);
        let fields = [
            &mut self.forward_x,
            &mut self.forward_y,
            &mut self.backward_x,
            &mut self.backward_y,
        ];
        for field in fields {
            field.resize(length, 1024);
        }
    }

    /// Row 4: each field exactly the grid, however large the grid is said to be.
    pub fn lengths(&self) -> [Length; 4] {
        [exactly(1, self.grid_width, self.grid_height); 4]
    }

    /// Row 5.
    pub fn wrong(&self) -> bool {
        wrong_motion(
            [self.grid_width, self.grid_height],
            [self.block_width, self.block_height],
            [self.origin_x, self.origin_y],
            self.pel,
        )
    }

    /// For frames of that size of luma.
    pub fn lent(&self, size: Size) -> safeteal::Motion<'_> {
        safeteal::Motion {
            forward: (&self.forward_x, &self.forward_y),
            backward: (&self.backward_x, &self.backward_y),
            grid: (self.grid_width, self.grid_height),
            block: (self.block_width, self.block_height),
            origin: (self.origin_x, self.origin_y),
            pel: self.pel,
            size,
        }
    }

    /// The farthest motion in pixels of luma, over whole fields.
    pub fn far(&self) -> f32 {
        let fields = [
            &self.forward_x,
            &self.forward_y,
            &self.backward_x,
            &self.backward_y,
        ];
        let far = fields
            .into_iter()
            .flatten()
            .map(|value| value.abs_diff(1024))
            .max();
        f32::from(far.unwrap_or(0)) / self.pel as f32
    }

    /// How far this pixel's four steps reach at that time, in pixels of luma.
    pub fn reach(&self, x: usize, y: usize, ratio: usize, time: f32) -> f32 {
        let (left, right, fx) = taps(x * ratio, self.origin_x, self.block_width, self.grid_width);
        let (top, below, fy) = taps(
            y * ratio,
            self.origin_y,
            self.block_height,
            self.grid_height,
        );
        let scale = 1.0 / (ratio as f32 * self.pel as f32);
        let step = |field: &[u16], time: f32| {
            let value = |x: usize, y: usize| f32::from(field[y * self.grid_width + x]);
            let column = |x: usize| (mix(value(x, top), value(x, below), fy) - 1024.0) * scale;
            (mix(column(left), column(right), fx) * time).abs()
        };
        let steps = [
            step(&self.backward_x, time),
            step(&self.backward_y, time),
            step(&self.forward_x, 1.0 - time),
            step(&self.forward_y, 1.0 - time),
        ];
        steps.into_iter().fold(0.0, f32::max) * ratio as f32
    }
}

fn mix(a: f32, b: f32, t: f32) -> f32 {
    a + (b - a) * t
}

/// The two grid places that a place of luma lies between, and how far it is from the first.
fn taps(place: usize, origin: i32, block: i32, size: usize) -> (usize, usize, f32) {
    let at = (place as f32 - origin as f32) / block as f32 - 0.5;
    let at = at.max(0.0).min((size - 1) as f32);
    let first = at as usize;
    (first, (first + 1).min(size - 1), at - first as f32)
}

/// Field values: none, a few pixels, any, at the ends.
fn field_of_kind(rng: &mut Rng) -> fn(&mut Rng, i32) -> u16 {
    let kinds: [fn(&mut Rng, i32) -> u16; 5] = [
        |_, _| 1024,
        |rng, pel| (1024 + rng.between(-6, 6) * i64::from(pel)) as u16,
        |rng, _| (1024 + rng.between(-60, 60)) as u16,
        |rng, _| rng.bits() as u16,
        |rng, _| rng.pick(&[0, 1023, 1024, 1025, 2048, 65_535]),
    ];
    rng.pick(&kinds)
}

fn block(rng: &mut Rng) -> i32 {
    match rng.below(3) {
        0 => rng.pick(&[1, 2, 8, 16, 128]),
        _ => 1 + rng.below(24) as i32,
    }
}

fn origin(rng: &mut Rng) -> i32 {
    match rng.below(4) {
        0 => rng.pick(&[-4096, 4096, 0, 1, -1]),
        1 => rng.between(-4096, 4096) as i32,
        _ => rng.between(-12, 12) as i32,
    }
}
