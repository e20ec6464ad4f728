use std::hint::black_box;

use super::fit::{part, sums};
use super::scene::RATIO;
use super::slices::Fitting;
use super::{leave_alike, Sides, Workload};
use crate::check::walk::Walk;
use crate::oracle::layer as rust;
use crate::second::walk::State;
use safeteal::{ffi, groups, Settings, Size};

pub const WORKLOADS: &[Workload] = &[Workload::by_hand(
    "walk_layer",
    "three parts of twelve pairs",
    middle,
)];

/// By hand the layer is fitted from the same sums by fit, into the same slices.
struct WalkLayer {
    parts: [rust::Stats; 3],
    walk: ffi::Walk,
    made: Fitting,
}

/// The layer of chunk 1: its parts lie in slots 0, 1 and 2.
fn middle(width: usize, height: usize) -> Box<dyn Sides> {
    let size = Size::new(width, height);
    let state = State {
        pairs: 300,
        added: 36,
        taken: 1,
    };
    Box::new(WalkLayer {
        parts: [1, 2, 3].map(|seed| sums(seed, width, height)),
        walk: Walk::new((width, height, RATIO), state).lent(),
        made: Fitting::new(size),
    })
}

impl Sides for WalkLayer {
    fn pixels(&self) -> usize {
        self.walk.width * self.walk.height
    }

    fn ours(&mut self) {
        let [first, second, third] = black_box(self.parts.each_ref().map(part));
        let (work, layer) = black_box(self.made.lent());
        let (settings, [chroma1, chroma2]) = (Settings::default(), layer.chroma);
        black_box(ffi::walk_layer(
            black_box(self.walk),
            first.luma,
            first.chroma[0],
            first.chroma[1],
            second.luma,
            second.chroma[0],
            second.chroma[1],
            third.luma,
            third.chroma[0],
            third.chroma[1],
            settings.limit,
            settings.evidence,
            settings.strict,
            work.models,
            work.kept,
            work.cover,
            layer.luma,
            chroma1,
            chroma2,
        ));
    }

    fn theirs(&mut self) {
        let size = Size::new(self.walk.width, self.walk.height);
        let parts = black_box(self.parts.each_ref().map(part));
        let (mut work, mut layer) = black_box(self.made.lent());
        let settings = Settings::default();
        black_box(groups::fit(
            parts, size, settings, RATIO, &mut work, &mut layer,
        ));
    }

    fn same(&mut self) -> bool {
        leave_alike(self, |sides| sides.made.spoil(), |sides| sides.made.layer())
    }
}
