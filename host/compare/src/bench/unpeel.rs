use std::hint::black_box;

use super::scene::{plane, Between, Fitted, Lettering};
use super::{Sides, Workload};
use crate::oracle::layer as rust;
use safeteal::groups::Form;
use safeteal::PlaneBuf;

pub const BYTES: &[Workload] = over_layers!("unpeel", by_bytes);

pub const NUMBERS: &[Workload] = over_layers!("unpeel_numbers", by_numbers);

fn by_bytes(layer: Fitted, plane: usize) -> Box<dyn Sides> {
    by_numbers(layer.by_bytes(), plane)
}

fn by_numbers(layer: Fitted, plane: usize) -> Box<dyn Sides> {
    Box::new(Unpeel::new(layer, plane))
}

/// A layer, one plane of two frames, and an output for each side.
pub struct Unpeel {
    pub layer: Fitted,
    pub plane: usize,
    pub frames: Between,
    pub ours: PlaneBuf,
    pub rust: PlaneBuf,
}

impl Unpeel {
    pub fn new(layer: Fitted, number: usize) -> Self {
        let size = layer.plane(number);
        let between = plane(size, 2, 7);
        Self {
            layer,
            plane: number,
            frames: Between::new(size),
            ours: between.clone(),
            rust: between,
        }
    }
}

impl Sides for Unpeel {
    fn pixels(&self) -> usize {
        self.ours.bytes().len()
    }

    fn ours(&mut self) {
        let (plane, frames) = (self.plane, black_box(self.frames.lent()));
        let output = &mut black_box(self.ours.plane_mut());
        by_form!(
            self.layer,
            layer,
            Form::unpeel(&black_box(layer), plane, output, frames)
        );
    }

    fn theirs(&mut self) {
        let frames = black_box(self.frames.lent()).into();
        let output = black_box(self.rust.plane_mut());
        let layer = rust::Layer::from(black_box(self.layer.numbers()));
        layer.unpeel(self.plane, output.data, output.pitch, &frames);
    }

    fn same(&mut self) -> bool {
        self.ours == self.rust
    }
}
