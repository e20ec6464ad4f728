use std::hint::black_box;

use super::scene::{Moves, RATIO};
use super::slices::Sums;
use super::stats::Lent;
use super::{leave_alike, Sides, Workload};
use safeteal::{ffi, groups, Size};

pub const WORKLOADS: &[Workload] = &[Workload::by_hand(
    "walk_pair",
    "one pair, all planes, smooth motion",
    first,
)];

/// By hand the pair is added by stats, to the same sums: both sides wait for the memory alike.
struct WalkPair {
    pair: Lent,
    walk: ffi::Walk,
    slots: [Sums; 3],
}

/// The first pair of a clip, again and again: each starts from nothing, as the workloads of stats do.
fn first(width: usize, height: usize) -> Box<dyn Sides> {
    let size = Size::new(width, height);
    Box::new(WalkPair {
        pair: Lent::new(Moves::Smooth, size),
        walk: ffi::walk_start(width, height, RATIO, 300).walk,
        slots: [(); 3].map(|()| Sums::new(size)),
    })
}

impl Sides for WalkPair {
    fn pixels(&self) -> usize {
        self.walk.width * self.walk.height
    }

    fn ours(&mut self) {
        let (pair, walk) = black_box((self.pair.pair(), self.walk));
        let mut slots = black_box(self.slots.each_mut().map(Sums::slot));
        black_box(groups::walk_pair(walk, &mut slots, walk.added, &pair));
    }

    fn theirs(&mut self) {
        let size = Size::new(self.walk.width, self.walk.height);
        let (pair, sums) = black_box((self.pair.pair(), self.slots[0].slot()));
        black_box(groups::stats(sums.luma, sums.chroma, 0, size, RATIO, &pair));
    }

    fn same(&mut self) -> bool {
        let spoil = |sides: &mut Self| sides.slots.iter_mut().for_each(Sums::spoil);
        leave_alike(self, spoil, |sides| sides.slots.clone())
    }
}
