use std::hint::black_box;

use super::scene::{Fields, Fitted, Lettering, Moves};
use super::unpeel::Unpeel;
use super::{Sides, Workload};
use crate::oracle::layer as rust;

pub const WORKLOADS: &[Workload] = over_layers!("render", made);

struct Render {
    /// What unpeel is lent as well.
    unpeel: Unpeel,
    motion: Fields,
}

fn made(layer: Fitted, plane: usize) -> Box<dyn Sides> {
    Box::new(Render {
        motion: Fields::new(Moves::Smooth, layer.size),
        unpeel: Unpeel::new(layer, plane),
    })
}

impl Sides for Render {
    fn pixels(&self) -> usize {
        self.unpeel.pixels()
    }

    fn ours(&mut self) {
        let lent = &mut self.unpeel;
        let (frames, motion) = black_box((lent.frames.lent(), self.motion.lent()));
        let output = &mut black_box(lent.ours.plane_mut());
        let layer = black_box(lent.layer.numbers());
        black_box(layer.render(lent.plane, output, frames, &motion, 0));
    }

    fn theirs(&mut self) {
        let lent = &mut self.unpeel;
        let (frames, motion) = black_box((lent.frames.lent(), self.motion.lent()));
        let output = black_box(lent.rust.plane_mut());
        let layer = rust::Layer::from(black_box(lent.layer.numbers()));
        let (data, pitch) = (output.data, output.pitch);
        layer.render(lent.plane, data, pitch, &frames.into(), &motion.into(), 0);
    }

    fn same(&mut self) -> bool {
        self.unpeel.same()
    }
}
