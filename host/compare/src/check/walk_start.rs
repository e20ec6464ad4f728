use super::case::Case;
use super::expected::Length;
use super::inputs::sizes;
use super::rng::Rng;
use super::walk::{state, Walk};
use crate::second::walk::State;
use safeteal::ffi::{self, Walked};

lent! {
    pub struct WalkStart {
        width: usize,
        height: usize,
        ratio: usize,
        pairs: usize,
    }
}

impl WalkStart {
    /// The walk that is started.
    fn walk(&self) -> Walk {
        let size = (self.width, self.height, self.ratio);
        Walk::new(size, State::start(self.pairs))
    }
}

impl Case for WalkStart {
    type Answer = Walked;

    const NAME: &'static str = "walk_start";
    const NUMBERS: &'static [usize] = &[0, 1, 2];
    const WRITTEN: &'static [&'static str] = &[];

    fn random(rng: &mut Rng) -> Self {
        let (width, height, ratio) = match rng.below(4) {
            0 => rng.pick(&[(4096, 4096, 4), (4096, 1, 1), (4, 4096, 4), (2, 2, 2)]),
            _ => sizes(rng, 4096),
        };
        Self {
            width,
            height,
            ratio,
            pairs: state(rng).pairs,
        }
    }

    fn lengths(&self) -> Vec<Length> {
        Vec::new()
    }

    fn ours(&mut self) -> Walked {
        ffi::walk_start(self.width, self.height, self.ratio, self.pairs)
    }

    fn refusal(&self) -> u64 {
        self.walk().refusal()
    }

    fn theirs(&mut self) -> Walked {
        self.walk().answered(0)
    }
}
