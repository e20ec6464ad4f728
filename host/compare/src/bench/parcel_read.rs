use std::hint::black_box;

use super::copied::Copied;
use super::scene::Lettering;
use super::{Sides, Workload};
use crate::second::parcel::{opened, written, Layer};
use safeteal::ffi;

pub const WORKLOADS: &[Workload] = &[Workload::beside_a_copy(
    "parcel_read",
    "a whole layer",
    whole,
)];

/// The copy is of the whole parcel.
struct ParcelRead {
    parcel: Vec<u8>,
    pixels: usize,
    ours: Layer,
    copy: Copied,
}

fn whole(width: usize, height: usize) -> Box<dyn Sides> {
    let fitted = Lettering::Logo.fitted(width, height);
    let layer = fitted.numbers();
    let zeros = |slice: &[i16]| vec![0; slice.len()];
    let parcel = written(&layer);
    Box::new(ParcelRead {
        pixels: width * height,
        ours: Layer {
            luma: zeros(layer.luma),
            chroma: layer.chroma.map(zeros),
        },
        copy: Copied::new(&parcel),
        parcel,
    })
}

impl Sides for ParcelRead {
    fn pixels(&self) -> usize {
        self.pixels
    }

    fn ours(&mut self) {
        let [chroma1, chroma2] = &mut self.ours.chroma;
        black_box(ffi::parcel_read(
            black_box(&self.parcel),
            black_box(&mut self.ours.luma),
            black_box(chroma1),
            black_box(chroma2),
        ));
    }

    fn theirs(&mut self) {
        self.copy.turn();
    }

    fn same(&mut self) -> bool {
        let right = opened(&self.parcel).expect("a good parcel");
        self.ours == right.layer()
    }
}
