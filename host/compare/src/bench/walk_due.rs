use std::hint::black_box;

use super::copied::Copied;
use super::scene::RATIO;
use super::walk_start::BYTES;
use super::{Sides, Workload};
use crate::check::walk::Walk;
use crate::second::walk::State;
use safeteal::ffi;

pub const WORKLOADS: &[Workload] = &[Workload::beside_a_copy(
    "walk_due",
    "six numbers, per call",
    due,
)];

/// The copy is of the walk's bytes.
struct WalkDue {
    walk: ffi::Walk,
    ours: u64,
    copy: Copied,
}

/// In the middle of a long clip, with a layer that is due.
fn due(width: usize, height: usize) -> Box<dyn Sides> {
    let state = State {
        pairs: 300,
        added: 144,
        taken: 10,
    };
    Box::new(WalkDue {
        walk: Walk::new((width, height, RATIO), state).lent(),
        ours: 0,
        copy: Copied::new(&[1; BYTES]),
    })
}

impl Sides for WalkDue {
    fn pixels(&self) -> usize {
        1
    }

    fn ours(&mut self) {
        self.ours = black_box(ffi::walk_due(black_box(self.walk)));
    }

    fn theirs(&mut self) {
        self.copy.turn();
    }

    fn same(&mut self) -> bool {
        let state = Walk::from(self.walk).state();
        self.ours == 256 * u64::from(state.left() && state.due())
    }
}
