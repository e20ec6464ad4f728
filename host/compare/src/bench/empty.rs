use std::hint::black_box;

use super::scene::{Fitted, Lettering};
use super::{Sides, Workload};
use crate::oracle::layer as rust;

pub const WORKLOADS: &[Workload] = &[Workload::new("empty", "no lettering, per cell", none)];

struct Empty {
    layer: Fitted,
    ours: bool,
    rust: bool,
}

fn none(width: usize, height: usize) -> Box<dyn Sides> {
    Box::new(Empty {
        layer: Lettering::None.fitted(width, height),
        ours: false,
        rust: false,
    })
}

impl Sides for Empty {
    fn pixels(&self) -> usize {
        self.layer.size.cells()
    }

    fn ours(&mut self) {
        let layer = black_box(self.layer.numbers());
        self.ours = black_box(layer.empty()) == 256;
    }

    fn theirs(&mut self) {
        let layer = rust::Layer::from(black_box(self.layer.numbers()));
        self.rust = black_box(layer.empty());
    }

    fn same(&mut self) -> bool {
        self.ours == self.rust
    }
}
