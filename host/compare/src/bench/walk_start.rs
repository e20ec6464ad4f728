use std::hint::black_box;

use super::copied::Copied;
use super::scene::RATIO;
use super::{Sides, Workload};
use crate::check::answer::Answer;
use crate::check::walk::Walk;
use crate::second::walk::State;
use safeteal::ffi::{self, Walked};

pub const WORKLOADS: &[Workload] = &[Workload::beside_a_copy(
    "walk_start",
    "six numbers, per call",
    started,
)];

/// A walk's six numbers. The copy is of so many bytes.
pub const BYTES: usize = 48;

struct WalkStart {
    size: (usize, usize, usize),
    pairs: usize,
    ours: Walked,
    copy: Copied,
}

fn started(width: usize, height: usize) -> Box<dyn Sides> {
    Box::new(WalkStart {
        size: (width, height, RATIO),
        pairs: 300,
        ours: Walked::refused(0),
        copy: Copied::new(&[1; BYTES]),
    })
}

impl Sides for WalkStart {
    fn pixels(&self) -> usize {
        1
    }

    fn ours(&mut self) {
        let (width, height, ratio) = black_box(self.size);
        self.ours = black_box(ffi::walk_start(width, height, ratio, black_box(self.pairs)));
    }

    fn theirs(&mut self) {
        self.copy.turn();
    }

    fn same(&mut self) -> bool {
        self.ours == Walk::new(self.size, State::start(self.pairs)).answered(0)
    }
}
