use std::hint::black_box;

use super::scene::partly_moved;
use super::{Sides, Workload};
use crate::oracle;
use safeteal::ffi;

pub const WORKLOADS: &[Workload] = &[Workload::new("mask", "a moving scene", moving)];

struct Mask {
    first: Vec<u8>,
    second: Vec<u8>,
    width: usize,
    height: usize,
    ours: Vec<u8>,
    rust: Vec<u8>,
}

fn moving(width: usize, height: usize) -> Box<dyn Sides> {
    let (first, second) = partly_moved(width, height);
    Box::new(Mask {
        first,
        second,
        width,
        height,
        ours: vec![0; width * height],
        rust: Vec::new(),
    })
}

impl Sides for Mask {
    fn pixels(&self) -> usize {
        self.width * self.height
    }

    fn ours(&mut self) {
        let [limit, edge, tolerance] = oracle::still::limits(None, None, None);
        black_box(ffi::mask(
            black_box(&self.first),
            black_box(&self.second),
            self.width,
            self.width,
            self.height,
            limit,
            edge,
            tolerance,
            black_box(&mut self.ours),
        ));
    }

    fn theirs(&mut self) {
        self.rust = oracle::still::mask(
            black_box(&self.first),
            black_box(&self.second),
            self.width,
            self.width,
            self.height,
            oracle::still::limits(None, None, None),
        );
    }

    fn same(&mut self) -> bool {
        self.ours == self.rust
    }
}
