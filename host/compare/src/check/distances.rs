use super::case::Case;
use super::expected::Length;
use super::rng::Rng;
use crate::oracle;
use safeteal::ffi;

lent! {
    pub struct Distances {
        cells: Vec<u8>,
        width: usize,
    }
}

impl Case for Distances {
    type Answer = u64;

    const NAME: &'static str = "distances";
    const NUMBERS: &'static [usize] = &[0, 1];
    const WRITTEN: &'static [&'static str] = &["cells"];

    fn random(rng: &mut Rng) -> Self {
        let width = match rng.below(40) {
            0 => usize::MAX - rng.below(2),
            1 => 1 + rng.below(1000),
            _ => 1 + rng.below(20),
        };
        let length = rng.below(400);
        let (kind, rare) = (rng.below(4), 1 + rng.below(60));
        let cell = |rng: &mut Rng| match kind {
            0 => rng.bits() as u8,
            1 => rng.below(12) as u8,
            2 => 255 - rng.below(8) as u8,
            _ => 255 * u8::from(!rng.once_in(rare)),
        };
        let cells = (0..length).map(|_| cell(rng)).collect();
        Self { cells, width }
    }

    fn lengths(&self) -> Vec<Length> {
        vec![Length::Any]
    }

    fn ours(&mut self) -> u64 {
        ffi::distances(&mut self.cells, self.width)
    }

    fn refusal(&self) -> u64 {
        u64::from(self.width == 0)
    }

    fn theirs(&mut self) -> u64 {
        oracle::layer::distances(&mut self.cells, self.width);
        0
    }
}
