use super::masked::Masked;
use super::scene::{partly_moved, Marked};
use super::{Sides, Workload};
use crate::check::apply::Apply as Lent;
use crate::oracle;
use safeteal::ffi;

pub const WORKLOADS: &[Workload] = by_step!("apply", "a moving scene", moving);

pub const STEPS: &[Workload] = at_steps!("apply", marked);

fn moving(width: usize, height: usize, step: usize) -> Box<dyn Sides> {
    let (wide, high) = (width * step, height * step);
    let (a, b) = partly_moved(wide, high);
    let still = oracle::still::mask(
        &a,
        &b,
        wide,
        wide,
        high,
        oracle::still::limits(None, None, None),
    );
    applied(width, height, still, wide)
}

pub fn marked(size: (usize, usize), step: (usize, usize), part: Marked) -> Box<dyn Sides> {
    let still = part.mask(size, step, 1);
    applied(size.0, size.1, still, size.0 * step.0)
}

fn applied(width: usize, height: usize, still: Vec<u8>, still_width: usize) -> Box<dyn Sides> {
    let (first, second) = partly_moved(width, height);
    let output = vec![0; first.len()];
    Box::new(Masked {
        lent: Lent {
            output: output.clone(),
            output_pitch: width,
            first,
            second,
            pitch: width,
            width,
            height,
            still,
            still_width,
            time: 0.4,
        },
        rust: output,
        output: |lent| &mut lent.output,
        ours: |lent| lent.put_to(ffi::apply),
        theirs: |lent| lent.put_to(oracle::still::apply),
    })
}
