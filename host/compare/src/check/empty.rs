use super::case::Case;
use super::expected::Length;
use super::inputs::sizes;
use super::layer::Layer;
use super::rng::Rng;
use crate::oracle::layer as rust;

lent! {
    pub struct Empty {
        [layer]: Layer<i16>,
    }
}

impl Case for Empty {
    type Answer = u64;

    const NAME: &'static str = "empty";
    const NUMBERS: &'static [usize] = &[0, 1, 2, 3, 4];
    const WRITTEN: &'static [&'static str] = &[];

    fn random(rng: &mut Rng) -> Self {
        let size = sizes(rng, 24);
        let mut layer = Layer::random(rng, size);
        // A layer with no 0 at all, now and then with one anywhere in the second half.
        if rng.once_in(2) {
            let cells = layer.chroma_pitch * (layer.height / layer.ratio);
            for distance in &mut layer.chroma2[cells..] {
                *distance = (*distance).max(1);
            }
            if rng.once_in(2) {
                let at = cells + rng.below(layer.chroma2.len() - cells);
                layer.chroma2[at] = 0;
            }
        }
        Self { layer }
    }

    fn lengths(&self) -> Vec<Length> {
        self.layer.lengths().to_vec()
    }

    fn ours(&mut self) -> u64 {
        self.layer.lent().empty()
    }

    fn refusal(&self) -> u64 {
        self.layer.refusal_alone(|| self.misfits())
    }

    fn theirs(&mut self) -> u64 {
        u64::from(rust::Layer::from(self.layer.lent()).empty()) * 256
    }
}
