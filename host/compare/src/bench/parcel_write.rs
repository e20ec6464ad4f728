use std::hint::black_box;

use super::copied::Copied;
use super::scene::{Fitted, Lettering};
use super::{Sides, Workload};
use crate::second::parcel::written;

pub const WORKLOADS: &[Workload] = &[Workload::beside_a_copy(
    "parcel_write",
    "a whole layer",
    whole,
)];

/// The copy is of the whole parcel.
struct ParcelWrite {
    layer: Fitted,
    ours: Vec<u8>,
    copy: Copied,
}

fn whole(width: usize, height: usize) -> Box<dyn Sides> {
    let layer = Lettering::Logo.fitted(width, height);
    let parcel = written(&layer.numbers());
    Box::new(ParcelWrite {
        ours: vec![0; parcel.len()],
        copy: Copied::new(&parcel),
        layer,
    })
}

impl Sides for ParcelWrite {
    fn pixels(&self) -> usize {
        self.layer.size.width * self.layer.size.height
    }

    fn ours(&mut self) {
        let layer = black_box(self.layer.numbers());
        black_box(layer.parcel(black_box(&mut self.ours)));
    }

    fn theirs(&mut self) {
        self.copy.turn();
    }

    fn same(&mut self) -> bool {
        self.ours == written(&self.layer.numbers())
    }
}
