use std::hint::black_box;

use super::copied::Copied;
use super::scene::Lettering;
use super::{Sides, Workload};
use crate::check::answer::Answer;
use crate::second::parcel::{opened, written};
use safeteal::ffi::{self, Sizes};

pub const WORKLOADS: &[Workload] = &[Workload::beside_a_copy(
    "parcel_sizes",
    "six records, per record",
    whole,
)];

const RECORDS: usize = 6;
/// What has to be looked at: a length and a kind of each record, and the head. The copy is of so many bytes.
const READ: usize = 6 * RECORDS + 6;

struct ParcelSizes {
    parcel: Vec<u8>,
    ours: Sizes,
    copy: Copied,
}

fn whole(width: usize, height: usize) -> Box<dyn Sides> {
    let parcel = written(&Lettering::Logo.fitted(width, height).numbers());
    Box::new(ParcelSizes {
        ours: Sizes::refused(0),
        copy: Copied::new(&parcel[..READ]),
        parcel,
    })
}

impl Sides for ParcelSizes {
    fn pixels(&self) -> usize {
        RECORDS
    }

    fn ours(&mut self) {
        self.ours = black_box(ffi::parcel_sizes(black_box(&self.parcel)));
    }

    fn theirs(&mut self) {
        self.copy.turn();
    }

    fn same(&mut self) -> bool {
        let right = opened(&self.parcel).expect("a good parcel");
        self.ours == right.head.into()
    }
}
