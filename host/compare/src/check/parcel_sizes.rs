use super::case::Case;
use super::expected::Length;
use super::parcel_read::ParcelRead;
use super::parcels::faults::spoil;
use super::parcels::smaller;
use super::rng::Rng;
use crate::second::parcel::opened;
use safeteal::ffi::{self, Sizes};

lent! {
    pub struct ParcelSizes {
        parcel: Vec<u8>,
    }
}

impl Case for ParcelSizes {
    type Answer = Sizes;

    const NAME: &'static str = "parcel_sizes";
    const NUMBERS: &'static [usize] = &[0, 9, 10, 11];
    const WRITTEN: &'static [&'static str] = &[];
    const SPOILT: usize = ParcelRead::SPOILT;

    fn random(rng: &mut Rng) -> Self {
        Self {
            parcel: ParcelRead::random(rng).parcel,
        }
    }

    fn spoil(&mut self, rng: &mut Rng) {
        spoil(&mut self.parcel, rng);
    }

    fn smaller(&self) -> Vec<Self> {
        let made = smaller(&self.parcel).into_iter();
        made.map(|parcel| Self { parcel }).collect()
    }

    fn lengths(&self) -> Vec<Length> {
        vec![Length::Any]
    }

    fn ours(&mut self) -> Sizes {
        ffi::parcel_sizes(&self.parcel)
    }

    fn refusal(&self) -> u64 {
        opened(&self.parcel).err().unwrap_or(0)
    }

    fn theirs(&mut self) -> Sizes {
        let parcel = opened(&self.parcel).expect("a parcel that is accepted");
        parcel.head.into()
    }
}
