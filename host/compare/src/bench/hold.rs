use super::masked::Masked;
use super::scene::{frame, Marked};
use super::{Sides, Workload};
use crate::check::hold::Hold as Lent;
use crate::oracle;
use safeteal::ffi;

pub const WORKLOADS: &[Workload] = by_step!("hold", "a soft mask", soft);

pub const STEPS: &[Workload] = at_steps!("hold", marked);

/// Full on the left, falling towards the right.
fn soft(width: usize, height: usize, step: usize) -> Box<dyn Sides> {
    let (wide, high) = (width * step, height * step);
    let weight = |at: usize| (at % wide * 400 / wide).min(255);
    let mask = (0..wide * high).map(|at| 255 - weight(at) as u8).collect();
    held(width, height, mask, wide)
}

pub fn marked(size: (usize, usize), step: (usize, usize), part: Marked) -> Box<dyn Sides> {
    let mask = part.mask(size, step, 255);
    held(size.0, size.1, mask, size.0 * step.0)
}

fn held(width: usize, height: usize, mask: Vec<u8>, mask_width: usize) -> Box<dyn Sides> {
    let output = frame(width, height, 5, 4);
    Box::new(Masked {
        lent: Lent {
            output: output.clone(),
            output_pitch: width,
            held: frame(width, height, 0, 1),
            held_pitch: width,
            width,
            height,
            mask,
            mask_width,
        },
        rust: output,
        output: |lent| &mut lent.output,
        ours: |lent| lent.put_to(ffi::hold),
        theirs: |lent| lent.put_to(oracle::still::hold),
    })
}
