use super::case::Case;
use super::expected::Length;
use super::parcels::faults::spoil;
use super::parcels::{any_order, any_sizes, smaller, Pieces};
use super::rng::Rng;
use crate::second::parcel::{opened, Head};
use safeteal::ffi::{self, Sizes};

lent! {
    pub struct ParcelRead {
        parcel: Vec<u8>,
        luma: Vec<i16>,
        chroma1: Vec<i16>,
        chroma2: Vec<i16>,
    }
}

impl ParcelRead {
    /// A good input for a layer of these sizes, with any numbers in the slices.
    pub fn sized(rng: &mut Rng, size: (usize, usize, usize)) -> Self {
        let (head, order) = (Head::new(size), any_order(rng));
        let parcel = Pieces::of(rng, head, order).bytes();
        Self::lent(rng, parcel, head)
    }

    /// A parcel with slices for a layer of these sizes.
    pub fn lent(rng: &mut Rng, parcel: Vec<u8>, head: Head) -> Self {
        let mut numbers = |length: u128| (0..length).map(|_| rng.bits() as i16).collect();
        let [luma, chroma] = head.layer_numbers();
        Self {
            parcel,
            luma: numbers(luma),
            chroma1: numbers(chroma),
            chroma2: numbers(chroma),
        }
    }

    /// Another parcel; the slices are as much too long or too short for its layer as they were before.
    fn with(&self, parcel: Vec<u8>) -> Self {
        let mut made = self.clone();
        if let (Ok(old), Ok(new)) = (opened(&self.parcel), opened(&parcel)) {
            let [old, new] = [old.head, new.head].map(Head::layer_numbers);
            let slices = [&mut made.luma, &mut made.chroma1, &mut made.chroma2];
            for (slice, at) in slices.into_iter().zip([0, 1, 1]) {
                let length = (slice.len() as u128 + new[at]).saturating_sub(old[at]);
                slice.resize(length as usize, 0);
            }
        }
        made.parcel = parcel;
        made
    }
}

impl Case for ParcelRead {
    type Answer = Sizes;

    const NAME: &'static str = "parcel_read";
    const NUMBERS: &'static [usize] = &[0, 4, 9, 10, 11];
    const WRITTEN: &'static [&'static str] = &["luma", "chroma1", "chroma2"];
    const SPOILT: usize = 2;

    fn random(rng: &mut Rng) -> Self {
        let size = any_sizes(rng);
        Self::sized(rng, size)
    }

    fn spoil(&mut self, rng: &mut Rng) {
        spoil(&mut self.parcel, rng);
    }

    fn smaller(&self) -> Vec<Self> {
        let parcels = smaller(&self.parcel).into_iter();
        parcels.map(|parcel| self.with(parcel)).collect()
    }

    fn lengths(&self) -> Vec<Length> {
        let Ok(parcel) = opened(&self.parcel) else {
            return vec![Length::Any; 4];
        };
        let [luma, chroma] = parcel.head.layer_numbers().map(Length::Exactly);
        vec![Length::Any, luma, chroma, chroma]
    }

    fn ours(&mut self) -> Sizes {
        ffi::parcel_read(
            &self.parcel,
            &mut self.luma,
            &mut self.chroma1,
            &mut self.chroma2,
        )
    }

    fn refusal(&self) -> u64 {
        match opened(&self.parcel) {
            Err(number) => number,
            Ok(_) if self.misfits() => 4,
            Ok(_) => 0,
        }
    }

    fn theirs(&mut self) -> Sizes {
        let parcel = opened(&self.parcel).expect("a parcel that is accepted");
        let layer = parcel.layer();
        let answer = parcel.head.into();
        self.luma = layer.luma;
        [self.chroma1, self.chroma2] = layer.chroma;
        answer
    }
}
