use super::case::Case;
use super::expected::{over, Length};
use super::layer::Layer;
use super::parcels::{any_sizes, smaller_sizes};
use super::rng::Rng;
use crate::second::parcel::{written, Head};

lent! {
    pub struct ParcelWrite {
        [layer]: Layer<i16>,
        parcel: Vec<u8>,
    }
}

impl ParcelWrite {
    /// A good input with a layer of these sizes, and any bytes in the parcel.
    pub fn sized(rng: &mut Rng, size: (usize, usize, usize)) -> Self {
        let mut layer = Layer::random(rng, size);
        if rng.once_in(2) {
            for slice in [&mut layer.luma, &mut layer.chroma1, &mut layer.chroma2] {
                slice.fill_with(|| rng.bits() as i16);
            }
        }
        Self {
            layer,
            parcel: rng.bytes(Head::new(size).parcel_bytes() as usize),
        }
    }

    /// The head of the layer's parcel.
    pub fn head(&self) -> Head {
        Head::new((self.layer.width, self.layer.height, self.layer.ratio))
    }
}

impl Case for ParcelWrite {
    type Answer = u64;

    const NAME: &'static str = "parcel_write";
    const NUMBERS: &'static [usize] = &[0, 1, 2, 3, 4];
    const WRITTEN: &'static [&'static str] = &["parcel"];

    fn random(rng: &mut Rng) -> Self {
        let size = any_sizes(rng);
        Self::sized(rng, size)
    }

    /// With smaller sizes, and as much between the rows as before.
    fn smaller(&self) -> Vec<Self> {
        let resize = |head: Head| {
            let (old, mut made) = (&self.layer, self.clone());
            let [before, now] = [self.head(), head].map(|head| over(head.width, head.ratio));
            let pitch = |old: usize, before: usize, now| old.saturating_sub(before) + now;
            let new = &mut made.layer;
            (new.width, new.height, new.ratio) = (head.width, head.height, head.ratio);
            new.luma_pitch = pitch(old.luma_pitch, old.width, head.width);
            new.chroma_pitch = pitch(old.chroma_pitch, before, now);
            made
        };
        smaller_sizes(self.head()).into_iter().map(resize).collect()
    }

    fn lengths(&self) -> Vec<Length> {
        let [luma, chroma1, chroma2] = self.layer.lengths();
        let parcel = Length::Exactly(self.head().parcel_bytes());
        vec![luma, chroma1, chroma2, parcel]
    }

    fn ours(&mut self) -> u64 {
        self.layer.lent().parcel(&mut self.parcel)
    }

    fn refusal(&self) -> u64 {
        self.layer.refusal_alone(|| self.misfits())
    }

    fn theirs(&mut self) -> u64 {
        self.parcel = written(&self.layer.lent());
        0
    }
}
