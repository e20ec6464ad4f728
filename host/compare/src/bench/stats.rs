use std::hint::black_box;

use super::scene::{plane, Fields, Moves, RATIO};
use super::slices::Sums;
use super::{Sides, Workload};
use crate::oracle::layer as rust;
use safeteal::{groups, Pair, PlaneBuf, Size};

pub const WORKLOADS: &[Workload] = &[
    Workload::new(
        "stats",
        "one pair, all planes, no motion",
        |width, height| made(Moves::None, width, height),
    ),
    Workload::new(
        "stats",
        "one pair, all planes, smooth motion",
        |width, height| made(Moves::Smooth, width, height),
    ),
    Workload::new(
        "stats",
        "one pair, all planes, noisy motion",
        |width, height| made(Moves::Noisy, width, height),
    ),
];

struct Stats {
    pair: Lent,
    size: Size,
    sums: Sums,
    rust: Option<rust::Stats>,
}

/// Two frames and the motion between them.
pub struct Lent {
    first: [PlaneBuf; 3],
    second: [PlaneBuf; 3],
    motion: Fields,
}

impl Lent {
    pub fn new(moves: Moves, size: Size) -> Self {
        let half = Size::new(size.width / RATIO, size.height / RATIO);
        let planes = |moved, seed| {
            let chroma = |seed| plane(half, moved / RATIO, seed);
            [plane(size, moved, seed), chroma(seed + 1), chroma(seed + 2)]
        };
        Self {
            first: planes(0, 1),
            second: planes(4, 11),
            motion: Fields::new(moves, size),
        }
    }

    pub fn pair(&self) -> Pair<'_> {
        let [first, second] =
            [&self.first, &self.second].map(|frame| frame.each_ref().map(PlaneBuf::plane));
        Pair {
            first,
            second,
            motion: self.motion.lent(),
        }
    }
}

fn made(moves: Moves, width: usize, height: usize) -> Box<dyn Sides> {
    let size = Size::new(width, height);
    Box::new(Stats {
        pair: Lent::new(moves, size),
        size,
        sums: Sums::new(size),
        rust: None,
    })
}

impl Sides for Stats {
    fn pixels(&self) -> usize {
        self.size.width * self.size.height
    }

    fn ours(&mut self) {
        let (pair, sums) = black_box((self.pair.pair(), self.sums.slot()));
        black_box(groups::stats(
            sums.luma,
            sums.chroma,
            0,
            self.size,
            RATIO,
            &pair,
        ));
    }

    fn theirs(&mut self) {
        let pair = black_box(self.pair.pair()).into();
        let size = (self.size.width, self.size.height);
        self.rust = Some(black_box(rust::stats(&[pair], size, RATIO)));
    }

    fn same(&mut self) -> bool {
        let rust = self.rust.as_ref().expect("the Rust had its turn");
        self.sums.are(rust)
    }
}
