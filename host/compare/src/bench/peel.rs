use std::hint::black_box;

use super::scene::{plane, Fitted, Lettering};
use super::{Sides, Workload};
use crate::oracle::layer as rust;
use safeteal::groups::Form;
use safeteal::PlaneBuf;

pub const BYTES: &[Workload] = over_layers!("peel", by_bytes);

pub const NUMBERS: &[Workload] = over_layers!("peel_numbers", by_numbers);

/// A layer, one plane of a frame under it, and an output for each side.
struct Peel {
    layer: Fitted,
    plane: usize,
    raw: PlaneBuf,
    ours: PlaneBuf,
    rust: PlaneBuf,
}

fn by_bytes(layer: Fitted, number: usize) -> Box<dyn Sides> {
    by_numbers(layer.by_bytes(), number)
}

fn by_numbers(layer: Fitted, number: usize) -> Box<dyn Sides> {
    let raw = plane(layer.plane(number), 0, 1);
    Box::new(Peel {
        layer,
        plane: number,
        ours: raw.clone(),
        rust: raw.clone(),
        raw,
    })
}

impl Sides for Peel {
    fn pixels(&self) -> usize {
        self.raw.bytes().len()
    }

    fn ours(&mut self) {
        let (plane, raw) = (self.plane, black_box(self.raw.plane()));
        let output = &mut black_box(self.ours.plane_mut());
        by_form!(
            self.layer,
            layer,
            Form::peel(&black_box(layer), plane, output, raw)
        );
    }

    fn theirs(&mut self) {
        let (output, raw) = (
            black_box(self.rust.plane_mut()),
            black_box(self.raw.plane()),
        );
        let layer = rust::Layer::from(black_box(self.layer.numbers()));
        layer.peel(self.plane, output.data, output.pitch, raw.into());
    }

    fn same(&mut self) -> bool {
        self.ours == self.rust
    }
}
