//! Frames, motion and layers that the workloads are made of: the same at every run.

use crate::check::rng::Rng;
use crate::oracle::layer as rust;
use safeteal::groups::LentLayer;
use safeteal::{Channel, Frames, Motion, PlaneBuf, Size};

/// Luma pixels per chroma pixel in all workloads with chroma.
pub const RATIO: usize = 2;

/// A textured picture, moved by so many pixels, with a little noise.
pub fn frame(width: usize, height: usize, moved: usize, seed: u64) -> Vec<u8> {
    let mut noise = Rng::of(seed, "frame", 0).bytes(width * height);
    for (at, byte) in noise.iter_mut().enumerate() {
        let (x, y) = (at % width + moved, at / width + moved / 2);
        let wave = ((x * 3 + y) % 97 + (x + y * 5) % 61) as u8;
        *byte = wave
            .wrapping_add(*byte % 5)
            .saturating_add(((x / 31 + y / 17) % 60) as u8);
    }
    noise
}

/// Such a picture as a plane without padding.
pub fn plane(size: Size, moved: usize, seed: u64) -> PlaneBuf {
    let bytes = frame(size.width, size.height, moved, seed);
    PlaneBuf::from_bytes(size, bytes).expect("a size of the table")
}

/// A picture whose lower right part has moved since the other.
pub fn partly_moved(width: usize, height: usize) -> (Vec<u8>, Vec<u8>) {
    let (first, moved) = (frame(width, height, 0, 1), frame(width, height, 9, 2));
    let mut second = first.clone();
    for (at, byte) in second.iter_mut().enumerate() {
        let (x, y) = (at % width, at / width);
        if x * 3 > width && y * 3 > height {
            *byte = moved[at];
        }
    }
    (first, second)
}

/// Which cells of a mask are marked.
#[derive(Clone, Copy)]
pub enum Marked {
    None,
    /// Those of the left half.
    Half,
    All,
}

impl Marked {
    /// A mask with so many cells across and down for each pixel of a plane.
    pub fn mask(self, size: (usize, usize), step: (usize, usize), mark: u8) -> Vec<u8> {
        let wide = size.0 * step.0;
        let marked = match self {
            Marked::None => 0,
            Marked::Half => wide / 2,
            Marked::All => wide,
        };
        (0..wide * size.1 * step.1)
            .map(|at| if at % wide < marked { mark } else { 0 })
            .collect()
    }
}

/// What the lettering of a layer is.
#[derive(Clone, Copy)]
pub enum Lettering {
    /// A logo in a corner: about 437 of 32,400 cells at 1920 by 1080.
    Logo,
    /// Every pixel, gain 0.55.
    All,
    /// Every pixel, gain 0.07: nothing can be lifted, and every ring fails.
    Opaque,
    /// None.
    None,
}

/// The logo's pixels: 23 by 19 cells at 1920 by 1080.
fn in_logo(x: usize, y: usize, width: usize, height: usize) -> bool {
    let (wide, high) = ((width * 23).div_ceil(240), (height * 19).div_ceil(135));
    let (left, top) = (width * 4 / 5, height / 12);
    (left..left + wide).contains(&x) && (top..top + high).contains(&y)
}

impl Lettering {
    /// Gain, offset and the two chroma offsets of a pixel.
    pub fn model(self, at: usize, width: usize, height: usize) -> (f32, f32, [f32; 2]) {
        match self {
            Lettering::Logo if in_logo(at % width, at / width, width, height) => {
                (0.6, 92.0 + (at % 7) as f32, [50.0, 51.0])
            }
            Lettering::All => (0.55, 20.0, [50.0, 51.0]),
            Lettering::Opaque => (0.07, 200.0, [120.0, 119.0]),
            Lettering::Logo | Lettering::None => (1.0, 0.0, [0.0; 2]),
        }
    }

    /// The cells that hold lettering are 0, others 255.
    pub fn cover(self, width: usize, height: usize) -> Vec<u8> {
        let across = width.div_ceil(8);
        let mut cover = vec![255; across * height.div_ceil(8)];
        for at in 0..width * height {
            if self.model(at, width, height).0 != 1.0 {
                cover[at / width / 8 * across + at % width / 8] = 0;
            }
        }
        cover
    }

    /// The layer as the Rust assembles it, distances made.
    pub fn fitted(self, width: usize, height: usize) -> Fitted {
        let mut cover = self.cover(width, height);
        rust::distances(&mut cover, width.div_ceil(8));
        let model = |at| self.model(at, width, height);
        Fitted {
            numbers: rust::assemble((width, height), RATIO, model, &cover),
            bytes: None,
            size: Size::new(width, height),
        }
    }
}

/// A layer without padding. The Rust reads its numbers; our side is lent the same numbers, or bytes made of them.
pub struct Fitted {
    numbers: rust::Fit,
    bytes: Option<[Vec<u8>; 3]>,
    pub size: Size,
}

impl Fitted {
    /// With bytes for our side.
    pub fn by_bytes(mut self) -> Self {
        let bytes = |slice: &Vec<i16>| slice.iter().flat_map(|n| n.to_le_bytes()).collect();
        let [chroma1, chroma2] = &self.numbers.chroma;
        self.bytes = Some([&self.numbers.luma, chroma1, chroma2].map(bytes));
        self
    }

    pub fn numbers(&self) -> LentLayer<'_, i16> {
        let [chroma1, chroma2] = &self.numbers.chroma;
        self.lent(&self.numbers.luma, [chroma1, chroma2])
    }

    /// Where our side is lent bytes.
    pub fn bytes(&self) -> Option<LentLayer<'_, u8>> {
        let [luma, chroma1, chroma2] = self.bytes.as_ref()?;
        Some(self.lent(luma, [chroma1, chroma2]))
    }

    fn lent<'a, T>(&self, luma: &'a [T], chroma: [&'a [T]; 2]) -> LentLayer<'a, T> {
        LentLayer {
            luma,
            chroma,
            pitch: (self.size.width, self.size.width / RATIO),
            size: self.size,
            ratio: RATIO,
        }
    }

    /// The size of one plane of the frames.
    pub fn plane(&self, plane: usize) -> Size {
        self.numbers().plane(Channel::ALL[plane])
    }
}

/// One plane of two frames, and a time between them.
pub struct Between {
    first: PlaneBuf,
    second: PlaneBuf,
}

impl Between {
    pub fn new(size: Size) -> Self {
        Self {
            first: plane(size, 0, 5),
            second: plane(size, 4, 6),
        }
    }

    pub fn lent(&self) -> Frames<'_> {
        Frames {
            first: self.first.plane(),
            second: self.second.plane(),
            time: 0.4,
        }
    }
}

/// How the blocks move.
#[derive(Clone, Copy)]
pub enum Moves {
    None,
    Smooth,
    Noisy,
}

/// Motion over 16 by 16 blocks at quarter pixels.
pub struct Fields {
    fields: [Vec<u16>; 4],
    grid: (usize, usize),
    size: Size,
}

impl Fields {
    pub fn new(moves: Moves, size: Size) -> Self {
        let grid = (size.width.div_ceil(16), size.height.div_ceil(16));
        let mut rng = Rng::of(3, "motion", 0);
        let fields = [6, -3, -6, 3].map(|drift: i64| {
            let mut value = |at: usize| match moves {
                Moves::None => 1024,
                Moves::Smooth => {
                    1024 + drift * 4 + (at % grid.0 / 8) as i64 - (at / grid.0 / 8) as i64
                }
                Moves::Noisy => 1024 + rng.between(-90, 90),
            };
            (0..grid.0 * grid.1).map(|at| value(at) as u16).collect()
        });
        Self { fields, grid, size }
    }

    pub fn lent(&self) -> Motion<'_> {
        let [a, b, c, d] = &self.fields;
        Motion {
            forward: (a, b),
            backward: (c, d),
            grid: self.grid,
            block: (16, 16),
            origin: (0, 0),
            pel: 4,
            size: self.size,
        }
    }
}
