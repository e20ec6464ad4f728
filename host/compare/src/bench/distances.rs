use std::hint::black_box;

use super::scene::Lettering;
use super::{Sides, Workload};
use crate::oracle;
use safeteal::ffi;

pub const WORKLOADS: &[Workload] = &[Workload::new(
    "distances",
    "a sparse cover, per cell",
    sparse,
)];

/// The cover is copied in before each turn: distances of distances would be another work.
struct Distances {
    cover: Vec<u8>,
    width: usize,
    ours: Vec<u8>,
    rust: Vec<u8>,
}

fn sparse(width: usize, height: usize) -> Box<dyn Sides> {
    let cover = Lettering::Logo.cover(width, height);
    Box::new(Distances {
        width: width.div_ceil(8),
        ours: cover.clone(),
        rust: cover.clone(),
        cover,
    })
}

impl Sides for Distances {
    fn pixels(&self) -> usize {
        self.cover.len()
    }

    fn ours(&mut self) {
        self.ours.copy_from_slice(&self.cover);
        black_box(ffi::distances(black_box(&mut self.ours), self.width));
    }

    fn theirs(&mut self) {
        self.rust.copy_from_slice(&self.cover);
        oracle::layer::distances(black_box(&mut self.rust), self.width);
    }

    fn same(&mut self) -> bool {
        self.ours == self.rust
    }
}
